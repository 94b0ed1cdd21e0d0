//! An event log in SQLite, in memory, with a query written for the preset's
//! load policy: a row for each moment, and an index that finds the last share
//! and the last withdrawal of a pair.

use crate::workload::Request;
use keeper::terms::Terms;
use std::ffi::{c_char, c_int, c_void, CString};
use std::ptr::{null, null_mut};

#[repr(C)]
struct Database(c_void);
#[repr(C)]
struct Statement(c_void);

extern "C" {
    fn sqlite3_open(name: *const c_char, database: *mut *mut Database) -> c_int;
    fn sqlite3_close(database: *mut Database) -> c_int;
    fn sqlite3_exec(
        database: *mut Database,
        text: *const c_char,
        each: *const c_void,
        with: *mut c_void,
        error: *mut *mut c_char,
    ) -> c_int;
    fn sqlite3_prepare_v2(
        database: *mut Database,
        text: *const c_char,
        length: c_int,
        statement: *mut *mut Statement,
        tail: *mut *const c_char,
    ) -> c_int;
    fn sqlite3_bind_int64(statement: *mut Statement, place: c_int, value: i64) -> c_int;
    fn sqlite3_step(statement: *mut Statement) -> c_int;
    fn sqlite3_reset(statement: *mut Statement) -> c_int;
    fn sqlite3_column_int(statement: *mut Statement, place: c_int) -> c_int;
    fn sqlite3_finalize(statement: *mut Statement) -> c_int;
}

const OK: c_int = 0;
const ROW: c_int = 100;

const TABLES: &str = "
    PRAGMA journal_mode = OFF;
    PRAGMA synchronous = OFF;
    CREATE TABLE own (owned INTEGER, owner INTEGER, PRIMARY KEY (owned, owner)) WITHOUT ROWID;
    CREATE TABLE log (moment INTEGER PRIMARY KEY, event INTEGER, source INTEGER, target INTEGER);
    CREATE INDEX pairs ON log (event, source, target, moment);
";

/// Whether an owner of the target shared with the initiator and has not
/// withdrawn since.
const LOAD: &str = "
    SELECT EXISTS (SELECT 1 FROM own WHERE owned = ?2 AND
        (SELECT max(moment) FROM log WHERE event = 0 AND source = owner AND target = ?1) >
        ifnull((SELECT max(moment) FROM log
            WHERE event = 1 AND source = owner AND target = ?1), 0))
";

const INSERT: &str = "INSERT INTO log VALUES (?1, ?2, ?3, ?4)";

pub struct Log {
    database: *mut Database,
    load: *mut Statement,
    insert: *mut Statement,
    moments: usize,
}

impl Log {
    /// The log at moment 0.
    pub fn new(terms: &Terms) -> Option<Log> {
        let mut database = null_mut();
        let name = CString::new(":memory:").expect("no zero byte");
        assert_eq!(unsafe { sqlite3_open(name.as_ptr(), &mut database) }, OK);
        let mut log = Log { database, load: null_mut(), insert: null_mut(), moments: 0 };
        log.run(TABLES);
        for &(_, owner, owned) in &terms.edges {
            log.run(&format!("INSERT INTO own VALUES ({owned}, {owner})"));
        }
        log.load = log.prepare(LOAD);
        log.insert = log.prepare(INSERT);
        Some(log)
    }

    pub fn moments(&self) -> usize {
        self.moments
    }

    /// Whether a request is granted; if so, it is logged.
    pub fn request(&mut self, [event, from, to]: Request) -> bool {
        let granted = event < 2 || self.ask(self.load, &[from, to]) == Some(1);
        if granted {
            self.moments += 1;
            self.ask(self.insert, &[self.moments, event, from, to]);
        }
        granted
    }

    /// Forgets every later moment.
    pub fn cut(&mut self, moments: usize) {
        self.run(&format!("DELETE FROM log WHERE moment > {moments}"));
        self.moments = moments;
    }

    fn run(&self, text: &str) {
        let text = CString::new(text).expect("no zero byte");
        let code =
            unsafe { sqlite3_exec(self.database, text.as_ptr(), null(), null_mut(), null_mut()) };
        assert_eq!(code, OK, "{text:?}");
    }

    fn prepare(&self, text: &str) -> *mut Statement {
        let mut statement = null_mut();
        let text = CString::new(text).expect("no zero byte");
        let code = unsafe {
            sqlite3_prepare_v2(self.database, text.as_ptr(), -1, &mut statement, null_mut())
        };
        assert_eq!(code, OK, "{text:?}");
        statement
    }

    /// Runs a prepared statement; the number it gives, if it gives one.
    fn ask(&self, statement: *mut Statement, values: &[usize]) -> Option<c_int> {
        unsafe {
            for (place, &value) in (1..).zip(values) {
                sqlite3_bind_int64(statement, place, value as i64);
            }
            let row = sqlite3_step(statement) == ROW;
            let given = row.then(|| sqlite3_column_int(statement, 0));
            sqlite3_reset(statement);
            given
        }
    }
}

impl Drop for Log {
    fn drop(&mut self) {
        unsafe {
            sqlite3_finalize(self.load);
            sqlite3_finalize(self.insert);
            sqlite3_close(self.database);
        }
    }
}
