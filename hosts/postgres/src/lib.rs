//! Many circles, each with its terms and state in a row of PostgreSQL.
//!
//! A request is one transaction: the circle's row is locked, the library answers on its words, the state is written
//! where a moment was made, and the log gets a line. So the answers of a circle are those of one monitor, whoever asks
//! and from wherever. An answer is told when the transaction is committed, and not before.
//!
//! A revision of a circle's terms is a transaction of the same kind.
//!
//! Each request and revision has a key of the client's choice. Where the log has that key, what was answered then is
//! told again and nothing is written: a client that heard nothing asks again with the same key.

mod error;
mod lent;
pub mod libpq;
mod patient;
mod stored;
pub mod words;

pub use error::{report, Error};
pub use patient::Patient;
pub use stored::Stored;

use cuckooormolu::STATE_WORDS;
use cuckooormolu::{raw, Answer, Monitor, Refusal, Request, Terms};
use lent::Lent;
use libpq::{Connection, Rows, Statement};
use std::ffi::CStr;

/// The tables; to be run once on an empty database.
pub const SCHEMA: &str = include_str!("../schema.sql");

/// Brings tables of earlier versions to that form. It may be run again, and changes nothing then.
pub const UPGRADE: &str = include_str!("../upgrade.sql");

/// The most rows that a request by a circle's terms may work out, unless another limit is set. They take less than
/// 0.1 s (bindings/README.md, Untrusted terms), while others of the circle wait at its lock; the costliest of
/// examples/ needs a quarter of them.
pub const LIMIT: usize = 1_000_000;

const LOCK: &CStr = c"lock";
const TOLD: &CStr = c"told";
const LOG: &CStr = c"log";
const MOMENT: &CStr = c"moment";
const LOG_REVISION: &CStr = c"log_revision";
const REVISION: &CStr = c"revision";
const CREATE: &CStr = c"create";
const STORED: &CStr = c"stored";
const FROM: &CStr = c"from";

/// The circle's row is locked before anything is decided, so that a key of it is never written by two at a time. The
/// line of the log comes first: where its key is there already, the transaction fails and nothing is written.
const STATEMENTS: &[(&CStr, &CStr)] = &[
    (LOCK, c"select version, terms, state from circle where id = $1 for no key update"),
    (
        LOG,
        c"insert into log (circle, key, version, event, initiator, target, answer)
          values ($1, $2, $3, $4, $5, $6, $7)",
    ),
    (MOMENT, c"update circle set version = $2, state = $3 where id = $1"),
    (
        LOG_REVISION,
        c"insert into log (circle, key, version, terms, answer) values ($1, $2, $3, $4, $5)",
    ),
    (REVISION, c"update circle set terms = $2, state = $3 where id = $1"),
    (
        TOLD,
        c"select event, initiator, target, answer, terms from log where circle = $1 and key = $2",
    ),
    (CREATE, c"insert into circle (id, terms, state) values ($1, $2, $3)"),
    (STORED, c"select version, terms, state from circle where id = $1"),
    (FROM, c"select version, terms, state, id from circle where id >= $1 order by id limit 1000"),
];

/// A client's key of a request or revision: 16 bytes, as of a UUID.
pub type Key = [u8; 16];

/// What a request is told: an answer, or that an event or member doesn't exist.
pub type Told = Result<Answer, Refusal>;

/// What a revision is told: that it is done, or that the terms have other numbers of members, relations or events.
pub type Revised = Result<(), Refusal>;

/// The circles of a server, by one connection. Workers have one each.
pub struct Circles {
    connection: Connection,
    limit: usize,
    lent: Box<Lent>,
    /// The circle whose lock was asked for with the last commit.
    ahead: Option<i64>,
}

impl Circles {
    /// Connects, by a connection string of libpq. The terms of circles are held to [`LIMIT`].
    pub fn connect(to: &str) -> Result<Circles, Error> {
        let connection = Connection::open(to, STATEMENTS).map_err(Error::Away)?;
        Ok(Circles { connection, limit: LIMIT, lent: Box::new(Lent::new()), ahead: None })
    }

    /// The same, where a request by the terms of a circle may work out so many rows at most.
    pub fn within(self, limit: usize) -> Circles {
        Circles { limit, ..self }
    }

    /// Makes a circle that stands where a monitor does. Terms of which a request may work out more rows than the limit
    /// are refused; reading them may take as long, so they are to be read by [`Monitor::read_within`].
    pub fn create(&mut self, circle: i64, monitor: &Monitor) -> Result<(), Error> {
        self.allow(monitor.terms())?;
        let terms = words::packed(monitor.terms().words());
        let state = words::packed(monitor.state().words());
        let values: [&[u8]; 3] = [&circle.to_be_bytes(), &terms, &state];
        self.give_back()?;
        self.connection.commit(&[(CREATE, &values)], &[])?.map(drop).ok_or(Error::Circle)
    }

    /// Answers a request, once for each key.
    pub fn request(&mut self, circle: i64, key: Key, request: Request) -> Result<Told, Error> {
        self.request_before(circle, key, request, None)
    }

    /// The same, where the caller has another request at hand, to be asked as soon as this is answered: its circle is
    /// locked by the round trip that commits this one, which saves one of two.
    pub fn request_before(
        &mut self,
        circle: i64,
        key: Key,
        request: Request,
        next: Option<i64>,
    ) -> Result<Told, Error> {
        self.lock(circle)?;
        let decided = self.lent.decide(request);
        let (told, moment) = self.or_give_back(decided)?;
        let (id, version) =
            (circle.to_be_bytes(), (self.lent.version + i64::from(moment)).to_be_bytes());
        let (answer, [event, from, to]) = (words::number(told), words::numbers(request));
        let line: [&[u8]; 7] = [&id, &key, &version, &event, &from, &to, &answer];
        let state = moment.then(|| words::packed(&self.lent.state)).unwrap_or_default();
        let row: [&[u8]; 3] = [&id, &version, &state];
        let statements: [Statement; 2] = [(LOG, &line), (MOMENT, &row)];
        if self.keep(&statements[..1 + usize::from(moment)], next)? {
            return Ok(told);
        }
        let before = self.told(circle, key)?;
        match words::request(&before, 0) {
            Some(asked) if asked == request => Ok(words::told(&before, 0)),
            _ => Err(Error::OtherRequest),
        }
    }

    /// Revises the terms of a circle, once for each key: relations and event edge are carried over, and so is the past
    /// of each entry whose formula the old terms have. It makes no moment. Terms with other numbers of members,
    /// relations or events are refused, and then the circle is as it was. So it is where they are above the limit, as
    /// for [`Circles::create`], whatever the key was told before.
    pub fn revise(&mut self, circle: i64, key: Key, new: &Terms) -> Result<Revised, Error> {
        self.allow(new)?;
        self.lock(circle)?;
        let mut state = [0; STATE_WORDS];
        let revised = match raw::revise(&self.lent.terms, &self.lent.state, new.words(), &mut state)
        {
            Err(refusal) if refusal != Refusal::OtherSize => Err(Error::Damaged(refusal)),
            revised => Ok(revised),
        };
        let revised = self.or_give_back(revised)?;
        let (id, version) = (circle.to_be_bytes(), self.lent.version.to_be_bytes());
        let (terms, state) = (words::packed(new.words()), words::packed(&state));
        let answer = words::revision_number(revised);
        let line: [&[u8]; 5] = [&id, &key, &version, &terms, &answer];
        let row: [&[u8]; 3] = [&id, &terms, &state];
        let statements: [Statement; 2] = [(LOG_REVISION, &line), (REVISION, &row)];
        if self.keep(&statements[..1 + usize::from(revised.is_ok())], None)? {
            return Ok(revised);
        }
        let before = self.told(circle, key)?;
        if words::request(&before, 0).is_none() && before.bytes(0, 4) == terms {
            Ok(words::revised(&before, 0))
        } else {
            Err(Error::OtherRequest)
        }
    }

    /// Holds terms to the limit, before anything is locked.
    fn allow(&self, terms: &Terms) -> Result<(), Error> {
        match (terms.effort(), self.limit) {
            (rows, limit) if rows > limit => Err(Error::Costly { rows, limit }),
            _ => Ok(()),
        }
    }

    /// Locks a circle's row, or has it from the round trip before, and takes its words.
    fn lock(&mut self, circle: i64) -> Result<(), Error> {
        let rows = if self.ahead == Some(circle) {
            self.ahead = None;
            self.connection.rows(1)?
        } else {
            self.give_back()?;
            self.connection.run(&[(LOCK, &[&circle.to_be_bytes()])])?
        };
        let taken = self.lent.take(&rows[0], 0);
        self.or_give_back(taken)
    }

    /// Gives a lock back that was asked for ahead.
    fn give_back(&mut self) -> Result<(), Error> {
        if self.ahead.take().is_some() {
            self.connection.rows(1)?;
            self.connection.commit(&[], &[])?;
        }
        Ok(())
    }

    /// Gives the lock back where there is an error: nothing was written.
    fn or_give_back<T>(&mut self, result: Result<T, Error>) -> Result<T, Error> {
        if result.is_err() {
            self.connection.commit(&[], &[])?;
        }
        result
    }

    /// Keeps a line of the log and what goes with it. Only then an answer may be told. False, and nothing is kept,
    /// where the key was answered before.
    fn keep(&mut self, statements: &[Statement], next: Option<i64>) -> Result<bool, Error> {
        let next_id = next.map(i64::to_be_bytes);
        let next_value = next_id.as_ref().map(|id| [&id[..]]);
        let lock = next_value.as_ref().map(|value| (LOCK, &value[..]));
        let kept = self.connection.commit(statements, lock.as_slice())?;
        self.ahead = next;
        Ok(kept.is_some())
    }

    /// The line of the log of a key that was answered before.
    fn told(&mut self, circle: i64, key: Key) -> Result<Rows, Error> {
        self.read((TOLD, &[&circle.to_be_bytes(), &key]))
    }

    /// The rows of a statement that writes nothing.
    fn read(&mut self, statement: Statement) -> Result<Rows, Error> {
        self.give_back()?;
        let rows = self.connection.commit(&[statement], &[])?;
        Ok(rows.expect("nothing that fails for a key is in it").remove(0))
    }
}
