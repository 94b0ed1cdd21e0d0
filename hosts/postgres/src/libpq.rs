//! As much of libpq as the host needs: prepared statements, many in one round trip, all values in binary form.

mod lost;
mod raw;
mod rows;

pub use lost::Lost;
pub use rows::Rows;

use raw::*;
use std::ffi::{c_char, c_int, CStr, CString};
use std::ptr;

/// The SQLSTATE of a row whose key another has.
const UNIQUE_VIOLATION: &str = "23505";

/// A statement that was prepared, and its values.
pub type Statement<'a> = (&'a CStr, &'a [&'a [u8]]);

/// A connection that sends its statements as pipelines.
pub struct Connection(*mut RawConnection);

// Safety: libpq has no state but the connection's, which one thread has at a time.
unsafe impl Send for Connection {}

impl Connection {
    /// Connects, by a connection string of libpq, and prepares statements.
    pub fn open(to: &str, prepared: &[(&CStr, &CStr)]) -> Result<Connection, Lost> {
        let connection = Connection::plain(to)?;
        connection.execute(
            c"set session characteristics as transaction isolation level read committed",
        )?;
        for (name, query) in prepared {
            // Safety: the strings end with a zero; no types are named.
            let result =
                unsafe { PQprepare(connection.0, name.as_ptr(), query.as_ptr(), 0, ptr::null()) };
            connection.checked(Rows(result))?;
        }
        // Safety: the connection is open and idle.
        match unsafe { PQenterPipelineMode(connection.0) } {
            1 => Ok(connection),
            _ => Err(connection.lost()),
        }
    }

    /// Runs a script of any statements, on a connection of its own.
    pub fn script(to: &str, script: &str) -> Result<(), Lost> {
        Connection::plain(to)?.execute(&c_string(script)?)
    }

    fn execute(&self, script: &CStr) -> Result<(), Lost> {
        // Safety: the string ends with a zero, and the connection is not in pipeline mode.
        let result = unsafe { PQexec(self.0, script.as_ptr()) };
        self.checked(Rows(result)).map(drop)
    }

    /// Connects. Where that fails though the server answers, it is tried once more, since the server may be back; if it
    /// fails again, as for a wrong name or password, waiting doesn't help.
    fn plain(to: &str) -> Result<Connection, Lost> {
        let to = c_string(to)?;
        let attempt = || {
            // Safety: the string ends with a zero; a connection comes back even where it failed.
            let connection = Connection(unsafe { PQconnectdb(to.as_ptr()) });
            // Safety: it is not finished yet.
            match unsafe { PQstatus(connection.0) } {
                CONNECTION_OK => Ok(connection),
                _ => Err(connection.says()),
            }
        };
        attempt().or_else(|says| {
            // Safety: as above.
            match unsafe { PQping(to.as_ptr()) } {
                PING_OK => attempt().map_err(|says| Lost::new(&says, "", false)),
                PING_NO_ATTEMPT => Err(Lost::new(&says, "", false)),
                _ => Err(Lost::new(&says, "", true)),
            }
        })
    }

    /// Sends statements in one go and gives the rows of each. They are in one transaction, with those that follow, up
    /// to the next [`Connection::commit`]. After an error the connection is of no use, and the server rolls back.
    pub fn run(&mut self, statements: &[Statement]) -> Result<Vec<Rows>, Lost> {
        self.start(statements)?;
        self.rows(statements.len())
    }

    /// The same, and the transaction is committed. Where this gives an error, it may be or not. It gives no rows where
    /// a primary key is there already: then nothing is written. The statements of `then` are sent along and begin the
    /// next transaction; their rows come by [`Connection::rows`].
    pub fn commit(
        &mut self,
        statements: &[Statement],
        then: &[Statement],
    ) -> Result<Option<Vec<Rows>>, Lost> {
        self.send(statements)?;
        // Safety: the connection is in pipeline mode.
        if unsafe { PQpipelineSync(self.0) } != 1 {
            return Err(self.lost());
        }
        if !then.is_empty() {
            self.start(then)?;
        }
        let mut rows = Some(Vec::new());
        for _ in statements {
            let result = Rows(self.next());
            if result.code() == UNIQUE_VIOLATION || rows.is_none() {
                // What follows is left out by the server.
                rows = None;
            } else {
                let result = self.checked(result)?;
                rows.as_mut().expect("looked at above").push(result);
            }
            self.end()?;
        }
        let synced = Rows(self.next());
        // Safety: libpq takes a null pointer too.
        match unsafe { PQresultStatus(synced.0) } {
            PIPELINE_SYNC => Ok(rows),
            _ => Err(self.lost()),
        }
    }

    /// Sends statements and asks for their rows.
    fn start(&mut self, statements: &[Statement]) -> Result<(), Lost> {
        self.send(statements)?;
        // Safety: the connection is in pipeline mode, and blocks until all is sent.
        if unsafe { PQsendFlushRequest(self.0) != 1 || PQflush(self.0) != 0 } {
            return Err(self.lost());
        }
        Ok(())
    }

    fn send(&mut self, statements: &[Statement]) -> Result<(), Lost> {
        for (name, values) in statements {
            let pointers = values.iter().map(|value| value.as_ptr().cast()).collect::<Vec<_>>();
            let lengths = values.iter().map(|value| value.len() as c_int).collect::<Vec<_>>();
            let formats = vec![BINARY; values.len()];
            // Safety: the three lists have as many elements as is said; libpq copies the values.
            let sent = unsafe {
                PQsendQueryPrepared(
                    self.0,
                    name.as_ptr(),
                    values.len() as c_int,
                    pointers.as_ptr(),
                    lengths.as_ptr(),
                    formats.as_ptr(),
                    BINARY,
                )
            };
            if sent != 1 {
                return Err(self.lost());
            }
        }
        Ok(())
    }

    /// The rows of as many statements that were sent.
    pub fn rows(&mut self, statements: usize) -> Result<Vec<Rows>, Lost> {
        let mut rows = Vec::new();
        for _ in 0..statements {
            let result = Rows(self.next());
            rows.push(self.checked(result)?);
            self.end()?;
        }
        Ok(rows)
    }

    /// A null pointer ends a statement's results.
    fn end(&mut self) -> Result<(), Lost> {
        let end = self.next();
        if end.is_null() {
            Ok(())
        } else {
            self.checked(Rows(end)).map(drop)
        }
    }

    fn next(&mut self) -> *mut RawResult {
        // Safety: the connection is open until it is dropped.
        unsafe { PQgetResult(self.0) }
    }

    /// A result that is none of a failure.
    fn checked(&self, rows: Rows) -> Result<Rows, Lost> {
        // Safety: libpq takes a null pointer too, and gives a text for each result.
        unsafe {
            match PQresultStatus(rows.0) {
                COMMAND_OK | TUPLES_OK => Ok(rows),
                _ if rows.0.is_null() => Err(self.lost()),
                PIPELINE_ABORTED => Err(Lost::new("an earlier statement failed", "", false)),
                _ => {
                    // Further lines show the statement, or say what a lost connection may mean.
                    let says = text(PQresultErrorMessage(rows.0));
                    let first = says.lines().next().unwrap_or_default();
                    Err(Lost::new(first, &rows.code(), self.is_away()))
                }
            }
        }
    }

    fn lost(&self) -> Lost {
        Lost::new(&self.says(), "", self.is_away())
    }

    fn is_away(&self) -> bool {
        // Safety: the connection is open until it is dropped.
        unsafe { PQstatus(self.0) == CONNECTION_BAD }
    }

    fn says(&self) -> String {
        // Safety: libpq has a text for every connection.
        unsafe { text(PQerrorMessage(self.0)) }
    }
}

impl Drop for Connection {
    fn drop(&mut self) {
        // Safety: the connection is open, and nobody has it afterwards.
        unsafe { PQfinish(self.0) }
    }
}

/// # Safety
///
/// The pointer is to a string that ends with a zero.
unsafe fn text(from: *const c_char) -> String {
    CStr::from_ptr(from).to_string_lossy().into_owned()
}

fn c_string(text: &str) -> Result<CString, Lost> {
    CString::new(text).map_err(|_| Lost::new("a zero in a text", "", false))
}
