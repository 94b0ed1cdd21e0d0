//! The requests of a folder, or others in their place.

use super::{opened, text, Folder, Request, REQUESTS, SPOKEN};
use crate::requests::{self, Requests};
use crate::stop::Stop;
use std::path::{Path, PathBuf};

impl Folder {
    /// With the folder's own requests: those of requests.say, or else of requests.tsv. If
    /// they can't be read, nothing stops that does not use them.
    pub(super) fn with_requests(self) -> Folder {
        let spoken = self.path.join(SPOKEN);
        let (asked, read) = match spoken.is_file() {
            true => {
                let read = text(&spoken).and_then(|text| self.read_requests(&spoken, &text));
                (spoken, read)
            }
            false => {
                let numbered = self.path.join(REQUESTS);
                let read = opened(&numbered);
                (numbered, read.map(|lines| Requests { lines, banks: Vec::new() }))
            }
        };
        match read {
            Ok(Requests { lines, banks }) => Folder { asked, requests: lines, banks, ..self },
            Err(stop) => Folder { asked, unread: Some(stop), ..self },
        }
    }

    /// Stops what uses the requests, where they can't be read.
    pub fn readable(&self) -> Result<(), Stop> {
        match &self.unread {
            None => Ok(()),
            Some(why) => Err(why.clone()),
        }
    }

    /// With requests by name instead of its own, which come from somewhere.
    pub fn asking(self, asked: PathBuf, text: &str) -> Result<Folder, Stop> {
        let Requests { lines, banks } = self.read_requests(&asked, text)?;
        Ok(Folder { asked, requests: lines, banks, unread: None, ..self })
    }

    /// With the requests of a file instead of its own.
    pub fn asking_file(self, file: &Path) -> Result<Folder, Stop> {
        let shown = file.display();
        if !file.exists() {
            return Err(Stop::Failed(format!("there is no file {shown}")));
        }
        if !file.is_file() {
            let why = "it is not a regular file";
            return Err(Stop::Failed(format!("there are no requests in {shown}: {why}")));
        }
        let text = text(file)?;
        self.asking(file.to_path_buf(), &text)
    }

    /// Requests by name. Under terms that are refused nothing is asked.
    fn read_requests(&self, asked: &Path, text: &str) -> Result<Requests, Stop> {
        match keeper::terms::read(&self.terms) {
            Ok(read) => {
                requests::read(&asked.display().to_string(), text, &read.terms, &self.names)
            }
            Err(_) => Ok(Requests::default()),
        }
    }

    /// Stops what works with one bank where the requests name two, or can't be read.
    pub fn of_one_bank(&self) -> Result<(), Stop> {
        self.readable()?;
        if self.banks.is_empty() {
            return Ok(());
        }
        Err(Stop::Failed(format!(
            "{} names banks, and this works with one bank only; `cuckooormolu run`, `why` and `try` work with \
             two, and at the prompt of `try` there are `who` and `revise`, too",
            self.asked.display()
        )))
    }

    /// The requests, line by line.
    pub fn requests(&self) -> Vec<Request> {
        self.requests.split_inclusive(|&byte| byte == b'\n').map(Request::read).collect()
    }
}
