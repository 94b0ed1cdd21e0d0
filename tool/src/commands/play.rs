//! `cuckooormolu play`: a page on this machine to edit terms in and try them.

use crate::arguments::Arguments;
use crate::folder::Folder;
use crate::http;
use crate::play::files::Files;
use crate::play::{listen, Play};
use crate::stop::Stop;
use std::io::Write;
use std::path::Path;

pub const HELP: &str = "\
usage: cuckooormolu play DIR [--port PORT]

Prints the address of a page to open in a browser. On it you edit the terms of DIR,
which are read aloud as you type, with mistakes underlined; make requests by
choosing two members and an event, each answered by the proved library; and see the
graph, what has happened and why, and who may do what. You can go back to any
moment. Save writes terms.say, and the requests by name to requests.say.

The page is served on 127.0.0.1 only, to whoever has its address, and needs no
network. Ctrl-C ends it. It has one bank only: `try` has two. Terms that were stored
with a past are shown, and requests go on from there; to edit them, use `source` and
`revise`.

  --port PORT   the port, by default any free one

Exit status: 3 if the folder cannot be read or the port is taken.
";

pub fn main(arguments: &[String], out: &mut dyn Write) -> Result<i32, Stop> {
    let arguments = Arguments::read(arguments, &[], &["--port"])?;
    let path = Path::new(arguments.one("DIR")?);
    let files = Files::new(path)?;
    if let Some((what, right)) = Folder::load(path).ok().and_then(|folder| folder.idle()) {
        eprintln!("warning: {what}; {right}");
    }
    let port = arguments.option("--port").unwrap_or("0");
    let port = port
        .parse()
        .map_err(|_| Stop::Usage(format!("PORT is a number up to 65535; `{port}` is none")))?;
    let failed = |error| Stop::Failed(format!("cannot listen on 127.0.0.1, port {port}: {error}"));
    let listener = listen(port).map_err(failed)?;
    let play = Play::new(files, &listener).map_err(failed)?;
    writeln!(out, "{}", play.address())?;
    writeln!(out, "Open this address in a browser on this machine. Ctrl-C ends it.")?;
    out.flush()?;
    http::serve(&listener, move |request| play.answer(request))
}
