//! A host that loses nothing when its power goes: terms and state are kept in a
//! file, and no answer is told before the moment that it made is on the disk.
//!
//!     panel FOLDER TERMS    begins: keeps the state that TERMS says
//!     panel FOLDER          goes on: answers the requests of standard input
//!
//! It does not begin with terms of which a request may work out more than MOST_ROWS
//! rows.
//!
//! A request is a line `R` event from to, an answer a line `grant`, `deny` or
//! `refuse` and the number, separated by tabs. The file FOLDER/state is a line with
//! the length and the checksum of what follows, and then a text of the stored
//! form. It is never written in place: the text goes to FOLDER/state.new, that is
//! synced and takes the name `state`, and the folder is synced. So there is always
//! the whole file of before or of after. The host of bindings/c/panel.c has the
//! same file.
//!
//! Exit: 0 at the end of the input, 1 where something could not be kept or told, 2
//! where there is nothing to go on from. After 1 what is in the folder counts, not
//! what was in memory: go on from there.

use cuckooormolu::{Monitor, Refusal, Request, WithinError};
use std::fs::{self, File};
use std::io::{self, BufRead, Write};
use std::os::fd::AsRawFd;
use std::path::{Path, PathBuf};
use std::process::ExitCode;

// Of the C library, since the standard one has locks only from 1.89 on.
extern "C" {
    fn flock(file: i32, operation: i32) -> i32;
}
const LOCK_EX: i32 = 2;
const LOCK_NB: i32 = 4;

/// They take less than 0.1 s on x86-64, which is how long a player may wait for an answer.
const MOST_ROWS: usize = 1_000_000;

/// A folder that keeps one monitor, locked as long as it is open.
struct Folder {
    open: File,
    state: PathBuf,
    next: PathBuf,
}

impl Folder {
    fn open(path: &Path) -> io::Result<Folder> {
        let open = File::open(path).map_err(|error| at(path, error))?;
        // Safety: the descriptor is open.
        if unsafe { flock(open.as_raw_fd(), LOCK_EX | LOCK_NB) } != 0 {
            return Err(io::Error::other("another host has the folder: stop it first"));
        }
        Ok(Folder { open, state: path.join("state"), next: path.join("state.new") })
    }

    /// Keeps a monitor as it stands.
    fn keep(&self, monitor: &Monitor) -> io::Result<()> {
        let text = monitor.store();
        let mut file = File::create(&self.next)?;
        file.write_all(head_of(&text).as_bytes())?;
        file.write_all(&text)?;
        file.sync_all()?;
        drop(file);
        fs::rename(&self.next, &self.state)?;
        self.open.sync_all()
    }

    /// The monitor that was kept. A file that was cut or changed is found by its
    /// first line. The folder is synced, since a host that was stopped between
    /// the last two steps may have left a name that is not on the disk.
    fn resume(&self) -> io::Result<Monitor> {
        let bytes = fs::read(&self.state).map_err(|error| match error.kind() {
            io::ErrorKind::NotFound => {
                io::Error::other("the folder has no state: begin with TERMS")
            }
            _ => at(&self.state, error),
        })?;
        let end = bytes.iter().position(|&byte| byte == b'\n').map_or(0, |feed| feed + 1);
        let (head, text) = bytes.split_at(end);
        if head != head_of(text).as_bytes() {
            let cure = "put a copy of the file back, or begin in another folder";
            return Err(io::Error::other(format!("the state was cut or changed: {cure}")));
        }
        let monitor = Monitor::read(text).map_err(io::Error::other)?;
        self.open.sync_all()?;
        Ok(monitor)
    }

    /// The monitor of a terms text, where the folder has no state yet.
    fn begin(&self, terms: &Path) -> io::Result<Monitor> {
        if self.state.try_exists()? {
            return Err(io::Error::other("the folder has a state already: go on without TERMS"));
        }
        let text = fs::read(terms).map_err(|error| at(terms, error))?;
        Monitor::read_within(&text, MOST_ROWS).map_err(|error| match error {
            WithinError::Costly(rows) => io::Error::other(format!(
                "a request by these terms may work out {rows} rows, and the limit is \
                 {MOST_ROWS}: change the part that `cuckooormolu check` names"
            )),
            refused => io::Error::other(format!("{}, {refused}", terms.display())),
        })
    }
}

/// An error with the file or folder that the system does not give.
fn at(path: &Path, error: io::Error) -> io::Error {
    io::Error::other(format!("{}: {error}", path.display()))
}

/// The first line of the file that keeps a text.
fn head_of(text: &[u8]) -> String {
    format!("panel\t{}\t{:08x}\n", text.len(), checksum(text))
}

/// CRC-32, that of Ethernet and zip.
fn checksum(text: &[u8]) -> u32 {
    let step = |sum: u32, _| (sum >> 1) ^ if sum & 1 == 1 { 0xedb8_8320 } else { 0 };
    !text.iter().fold(!0, |sum, &byte| (0..8).fold(sum ^ u32::from(byte), step))
}

/// The request of a line.
fn request(line: &[u8]) -> Result<Request, Refusal> {
    let line = line.strip_suffix(b"\n").ok_or(Refusal::Form)?;
    match line.split(|&byte| byte == b'\t').collect::<Vec<_>>()[..] {
        [b"R", event, from, to] => {
            let [event, from, to] = [number(event)?, number(from)?, number(to)?];
            Ok(Request { event: event.try_into()?, from: from.try_into()?, to: to.try_into()? })
        }
        _ => Err(Refusal::Form),
    }
}

/// A number of 1 to 5 digits, leading zeros among them.
fn number(field: &[u8]) -> Result<usize, Refusal> {
    if !(1..=5).contains(&field.len()) || !field.iter().all(u8::is_ascii_digit) {
        return Err(Refusal::Form);
    }
    Ok(field.iter().fold(0, |sum, digit| 10 * sum + usize::from(digit - b'0')))
}

/// Answers a line: first the words change, then the file, then the answer is told.
/// The words change where a moment is made, by a grant or by a denial that the
/// terms keep.
fn answer(folder: &Folder, monitor: &mut Monitor, line: &[u8]) -> io::Result<()> {
    let before = monitor.state().clone();
    let told = match request(line).and_then(|request| monitor.request(request)) {
        Ok(answer) => format!("{answer}\n"),
        Err(refusal) => format!("refuse\t{}\n", refusal.number()),
    };
    if *monitor.state() != before {
        folder.keep(monitor)?;
    }
    let mut out = io::stdout().lock();
    out.write_all(told.as_bytes())?;
    out.flush()
}

fn serve(folder: &Folder, monitor: &mut Monitor) -> io::Result<()> {
    let mut input = io::stdin().lock();
    let mut line = Vec::new();
    while input.read_until(b'\n', &mut line)? > 0 {
        answer(folder, monitor, &line)?;
        line.clear();
    }
    Ok(())
}

/// Runs the host; where it fails, with which code.
fn run(arguments: &[String]) -> Result<(), (u8, io::Error)> {
    let nothing = |error| (2, error);
    let not_kept = |error| (1, error);
    match arguments {
        [folder] => {
            let folder = Folder::open(folder.as_ref()).map_err(nothing)?;
            let mut monitor = folder.resume().map_err(nothing)?;
            serve(&folder, &mut monitor).map_err(not_kept)
        }
        [folder, terms] => {
            let folder = Folder::open(folder.as_ref()).map_err(nothing)?;
            let monitor = folder.begin(terms.as_ref()).map_err(nothing)?;
            folder.keep(&monitor).map_err(not_kept)
        }
        _ => Err(nothing(io::Error::other("usage: panel FOLDER [TERMS]"))),
    }
}

fn main() -> ExitCode {
    match run(&std::env::args().skip(1).collect::<Vec<_>>()) {
        Ok(()) => ExitCode::SUCCESS,
        Err((code, error)) => {
            eprintln!("panel: {error}");
            ExitCode::from(code)
        }
    }
}
