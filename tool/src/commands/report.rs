//! `cuckooormolu report`: a folder's story as one page.

use crate::arguments::Arguments;
use crate::folder::{self, folder_of, Folder};
use crate::replay::Replay;
use crate::report;
use crate::stop::{Stop, WELL};
use std::io::Write;
use std::path::Path;

pub const HELP: &str = "\
usage: cuckooormolu report DIR -o FILE.html [--title TITLE]

Writes the story of a folder as one self-contained page of HTML: the policies read
aloud, a strip of moments, the graph of each moment, each request with its answer
and the reason, and who may do what at the end. It has no scripts and loads nothing.
It draws one bank only: if the requests name two, `why` explains them.

  -o FILE         where to write the page; `-` is standard output
  --title TITLE   the page's title, by default the name of the folder

Exit status: 0; 3 if a file cannot be read, written or compiled.
";

pub fn main(arguments: &[String], out: &mut dyn Write) -> Result<i32, Stop> {
    let arguments = Arguments::read(arguments, &[], &["-o", "--title"])?;
    let directory = Path::new(arguments.one("DIR")?);
    let file = arguments.option("-o").ok_or_else(|| Stop::Usage("give -o FILE.html".into()))?;
    let folder = Folder::opening(directory)?;
    let title =
        arguments.option("--title").map_or_else(|| folder::name(&folder.path), str::to_string);
    let page = report::page(&title, &Replay::of(&folder)?, &folder.names)?;
    if file == "-" {
        out.write_all(page.as_bytes())?;
    } else {
        folder::make(&folder_of(Path::new(file)))?;
        folder::write(Path::new(file), page.as_bytes())?;
    }
    Ok(WELL)
}
