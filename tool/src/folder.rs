//! The files of a folder: terms.say or terms.tsv, requests.say or requests.tsv,
//! names.tsv.
//!
//! * `asking`: the requests of a folder, or others in their place
//! * `definitions`: definitions.tsv, beside stored terms
//! * `opening`: terms that are to be used
//! * `request`: a line of requests.tsv
//! * `stored`: a terms.tsv with a past
//! * `writing`: files written so that none is lost

mod asking;
pub mod definitions;
mod opening;
mod request;
pub mod stored;
mod writing;

pub use definitions::DEFINITIONS;
pub use request::Request;
pub use writing::{make, write};

use crate::bank::Bank;
use crate::names::Names;
use crate::source::mistake::{Mistake, Mistaken};
use crate::source::{compile, Compiled};
use crate::stop::Stop;
use crate::storing::fits;
use std::fs;
use std::io::ErrorKind;
use std::path::{Path, PathBuf};

pub const TERMS: &str = "terms.tsv";
pub const REQUESTS: &str = "requests.tsv";
/// The same by name; where it is there, it is what is asked.
pub const SPOKEN: &str = "requests.say";
pub const NAMES: &str = "names.tsv";
/// The readable source that the terms are compiled from.
pub const SOURCE: &str = "terms.say";
/// How the files of some editors begin.
const RTF: &[u8] = b"{\\rtf";

/// What a folder holds. Every sub-command gets its terms from here: of a folder
/// with a terms.say they are what that compiles to, whatever terms.tsv has.
#[derive(Clone, Debug, Default)]
pub struct Folder {
    pub path: PathBuf,
    /// The text that the terms come from: terms.say, or a terms file.
    pub file: PathBuf,
    /// What the terms were compiled from, and all that compiling told of it; none
    /// for a terms file.
    pub source: Option<Sourced>,
    /// The text of the terms, of either form.
    pub terms: Vec<u8>,
    /// Where the requests come from, and their lines.
    pub asked: PathBuf,
    pub requests: Vec<u8>,
    /// The bank of each request; empty if they name none.
    pub banks: Vec<Bank>,
    /// Why the folder's own requests can't be read: what uses them stops.
    pub unread: Option<Stop>,
    pub names: Names,
}

/// A source and what it compiles to.
#[derive(Clone, Debug)]
pub struct Sourced {
    pub text: String,
    pub compiled: Compiled,
}

impl Folder {
    /// Loads a folder, or a source or a terms file with the files beside it. A
    /// file other than these two that isn't there counts as empty.
    pub fn load(path: &Path) -> Result<Folder, Stop> {
        is_there(path)?;
        let folder = folder_of(path);
        let source = folder.join(SOURCE);
        if path.is_dir() && source.is_file() {
            return Folder::from_source(&source);
        }
        if path.is_file() && path.extension().is_some_and(|ending| ending == "say") {
            return Folder::from_source(path);
        }
        let file = if path.is_dir() { folder.join(TERMS) } else { path.to_path_buf() };
        if !file.is_file() {
            return Err(missing(&folder));
        }
        let terms = opened(&file)?;
        if let Some(stop) = no_terms(&file, &terms) {
            return Err(stop);
        }
        if file.file_name().is_some_and(|name| name == TERMS) && source.is_file() {
            up_to_date(&terms, &file, &source)?;
        }
        let mut names = Names::read(&text(&folder.join(NAMES))?).map_err(Stop::Failed)?;
        if let Ok(read) = keeper::terms::read(&terms) {
            let beside = text(&folder.join(DEFINITIONS)).unwrap_or_default();
            definitions::read(&beside, &read.terms, &mut names);
        }
        Ok(Folder { path: folder, file, terms, names, ..Folder::default() }.with_requests())
    }

    /// The same folder with another text of its source, which stands in no file.
    pub fn with_source(&self, text: &str) -> Result<Folder, Vec<Mistake>> {
        let compiled = compile(text)?;
        Ok(Folder {
            file: self.path.join(SOURCE),
            terms: compiled.text(),
            names: compiled.names.clone(),
            source: Some(Sourced { text: text.to_string(), compiled }),
            ..self.clone()
        })
    }

    /// Compiles a source, whatever its name, in memory.
    pub fn from_source(file: &Path) -> Result<Folder, Stop> {
        let text = text(file)?;
        let path = folder_of(file);
        let folder = Folder { path, ..Folder::default() };
        let folder = folder.with_source(&text).map_err(|mistakes| {
            Stop::Mistaken(Mistaken { file: file.display().to_string(), text, mistakes })
        })?;
        Ok(Folder { file: file.to_path_buf(), ..folder }.with_requests())
    }

    /// What compiling warns of, at its place in the source.
    pub fn warnings(&self) -> String {
        let file = self.file.display().to_string();
        let shown = |source: &Sourced| {
            let told = source.compiled.warnings.iter().map(|warning| {
                let message = format!("warning: {}", warning.message);
                Mistake { message, ..warning.clone() }.render(&file, &source.text)
            });
            told.collect::<String>()
        };
        self.source.as_ref().map(shown).unwrap_or_default()
    }
}

/// Stops where there is nothing under a path.
pub fn is_there(path: &Path) -> Result<(), Stop> {
    match path.exists() {
        true => Ok(()),
        false => Err(Stop::Failed(format!("there is no file or folder {}", path.display()))),
    }
}

/// The folder that a path is or stands in.
pub fn folder_of(path: &Path) -> PathBuf {
    if path.is_dir() {
        return path.to_path_buf();
    }
    match path.parent() {
        Some(parent) if !parent.as_os_str().is_empty() => parent.to_path_buf(),
        _ => PathBuf::from("."),
    }
}

/// The name of a folder, also of `.`.
pub fn name(folder: &Path) -> String {
    let whole = folder.canonicalize().unwrap_or_else(|_| folder.to_path_buf());
    whole.file_name().map_or_else(|| "terms".into(), |name| name.to_string_lossy().into_owned())
}

/// Why a folder has no terms; a file with nearly the right name is pointed at.
fn missing(folder: &Path) -> Stop {
    let entries = fs::read_dir(folder).into_iter().flatten().flatten();
    let names = entries.map(|file| file.file_name().to_string_lossy().into_owned());
    let mut near: Vec<String> =
        names.filter(|name| name.to_lowercase().starts_with("term")).collect();
    near.sort();
    let what = format!("there is no {SOURCE} and no {TERMS} in {}", folder.display());
    Stop::Failed(match near.first() {
        Some(near) => {
            format!(
                "{what}, but {near}; it has to be called {SOURCE} or {TERMS}, spelled exactly so"
            )
        }
        None => format!(
            "{what}; `cuckooormolu new {}` writes a {SOURCE} to start from",
            folder.display()
        ),
    })
}

/// Why a file that was named holds no terms: it has another name, or another form.
fn no_terms(file: &Path, bytes: &[u8]) -> Option<Stop> {
    let path = file.display();
    if bytes.starts_with(RTF) {
        return Some(Stop::Failed(format!("{path} is rich text; save it as plain text")));
    }
    let begins = [&b"members"[..], b"member", b"#", b"relation", b"event"];
    let source = file.extension().is_none_or(|ending| ending != "tsv")
        && begins.iter().any(|word| bytes.trim_ascii_start().starts_with(word));
    source.then(|| Stop::Failed(format!("{path} is a source: rename it to {SOURCE}")))
}

/// Stops where a terms.tsv that was named is not what the source beside it
/// compiles to: nobody is to be answered from old terms.
fn up_to_date(terms: &[u8], file: &Path, source: &Path) -> Result<(), Stop> {
    let folder = folder_of(file);
    let compiled = Folder::from_source(source)?;
    if compiled.terms == terms {
        return Ok(());
    }
    if let Some((what, right)) = compiled.idle() {
        return Err(Stop::Failed(format!("{what}; {right}")));
    }
    Err(Stop::Failed(format!(
        "{} is not what {} compiles to; name the folder, or run `cuckooormolu compile {}` first",
        file.display(),
        source.display(),
        folder.display(),
    )))
}

/// A file as a text; empty if there is no such file.
fn text(path: &Path) -> Result<String, Stop> {
    let bytes = bytes(path)?;
    if bytes.starts_with(RTF) {
        let path = path.display();
        return Err(Stop::Failed(format!("{path} is rich text; save it as plain text")));
    }
    String::from_utf8(bytes).map_err(|error| {
        let valid = &error.as_bytes()[..error.utf8_error().valid_up_to()];
        let line = valid.iter().filter(|&&byte| byte == b'\n').count() + 1;
        let path = path.display();
        Stop::Failed(format!("{path}: line {line} is not UTF-8; save the file as UTF-8"))
    })
}

/// The bytes of a file that the program opens too: no longer one is read.
fn opened(path: &Path) -> Result<Vec<u8>, Stop> {
    let bytes = bytes(path)?;
    fits(path, bytes.len()).map(|()| bytes)
}

/// A file's bytes; none if there is no such file.
fn bytes(path: &Path) -> Result<Vec<u8>, Stop> {
    match fs::read(path) {
        Ok(bytes) => Ok(bytes),
        Err(error) if error.kind() == ErrorKind::NotFound => Ok(Vec::new()),
        Err(error) => Err(Stop::Failed(format!("cannot read {}: {error}", path.display()))),
    }
}
