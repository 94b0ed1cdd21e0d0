//! A client that asks again, with the same key, until it is answered.

use crate::{report, Circles, Error, Key, Revised, Told, LIMIT};
use cuckooormolu::{Request, Terms};
use std::thread;
use std::time::{Duration, Instant};

/// How long a server may be away before the client gives up, unless another time is set.
const PATIENCE: Duration = Duration::from_secs(60);

/// How long it waits after the first try; twice as long after each further one, up to the longest.
const PAUSE: Duration = Duration::from_millis(50);
const LONGEST: Duration = Duration::from_secs(1);

/// Circles by a connection that is made again where it is lost.
pub struct Patient {
    to: String,
    limit: usize,
    patience: Duration,
    circles: Option<Circles>,
    /// Whether it was said that the server is away.
    away: bool,
}

impl Patient {
    /// A client of a server, by a connection string of libpq.
    pub fn new(to: &str) -> Patient {
        Patient { to: to.to_string(), limit: LIMIT, patience: PATIENCE, circles: None, away: false }
    }

    /// The same, with the limit of [`Circles::within`].
    pub fn within(self, limit: usize) -> Patient {
        Patient { limit, ..self }
    }

    /// The same, where the server may be away so long, in place of a minute.
    pub fn waiting(self, patience: Duration) -> Patient {
        Patient { patience, ..self }
    }

    /// Answers a request as [`Circles::request_before`] does.
    pub fn request_before(
        &mut self,
        circle: i64,
        key: Key,
        request: Request,
        next: Option<i64>,
    ) -> Result<Told, Error> {
        self.ask(|circles| circles.request_before(circle, key, request, next))
    }

    /// Revises terms as [`Circles::revise`] does.
    pub fn revise(&mut self, circle: i64, key: Key, new: &Terms) -> Result<Revised, Error> {
        self.ask(|circles| circles.revise(circle, key, new))
    }

    /// Asks until there is an answer, or what failed doesn't pass by itself. The key is the same at each try, so that
    /// the request is answered once though an answer was lost on the way.
    fn ask<T>(&mut self, each: impl Fn(&mut Circles) -> Result<T, Error>) -> Result<T, Error> {
        let end = Instant::now() + self.patience;
        let mut pause = PAUSE;
        loop {
            let done = self.connected().and_then(|mut circles| {
                let told = each(&mut circles);
                // After a loss the connection is of no use.
                self.circles = (!matches!(told, Err(Error::Lost(_)))).then_some(circles);
                told
            });
            match done {
                Err(Error::Away(lost) | Error::Lost(lost))
                    if lost.passes() && Instant::now() < end =>
                {
                    thread::sleep(pause);
                    pause = LONGEST.min(2 * pause);
                }
                done => return done,
            }
        }
    }

    /// The connection, or another where it was lost. Standard error is told once that the server is away, and once that
    /// it is back.
    fn connected(&mut self) -> Result<Circles, Error> {
        if let Some(circles) = self.circles.take() {
            return Ok(circles);
        }
        let made = Circles::connect(&self.to).map(|circles| circles.within(self.limit));
        match &made {
            Err(Error::Away(lost)) if lost.passes() && !self.away => {
                report(format!("the server is away: {lost}"));
                self.away = true;
            }
            Ok(_) if self.away => {
                report("the server is back");
                self.away = false;
            }
            _ => {}
        }
        made
    }
}
