//! The rows of a statement.

use super::raw::*;
use super::text;
use std::ffi::c_int;

/// The rows of one statement.
pub struct Rows(pub(super) *mut RawResult);

impl Rows {
    pub fn is_empty(&self) -> bool {
        // Safety: the result is open until it is dropped.
        unsafe { PQntuples(self.0) == 0 }
    }

    pub fn count(&self) -> usize {
        // Safety: as above.
        unsafe { PQntuples(self.0) as usize }
    }

    /// A value, in binary form. There must be such a row and column.
    pub fn bytes(&self, row: usize, column: usize) -> &[u8] {
        let (row, column) = (row as c_int, column as c_int);
        // Safety: libpq answers a place that is not there with a null pointer and length 0.
        unsafe {
            let value = PQgetvalue(self.0, row, column);
            assert!(!value.is_null(), "a column that was not selected");
            std::slice::from_raw_parts(value, PQgetlength(self.0, row, column) as usize)
        }
    }

    /// Whether there is no value. There must be such a row and column.
    pub fn is_null(&self, row: usize, column: usize) -> bool {
        // Safety: as above.
        unsafe { PQgetisnull(self.0, row as c_int, column as c_int) == 1 }
    }

    /// A whole number of 2, 4 or 8 bytes.
    pub fn number(&self, row: usize, column: usize) -> i64 {
        match *self.bytes(row, column) {
            [a, b] => i16::from_be_bytes([a, b]).into(),
            [a, b, c, d] => i32::from_be_bytes([a, b, c, d]).into(),
            [a, b, c, d, e, f, g, h] => i64::from_be_bytes([a, b, c, d, e, f, g, h]),
            _ => panic!("a column that is no whole number"),
        }
    }

    /// The SQLSTATE of a failure; empty where the server gave none.
    pub(super) fn code(&self) -> String {
        // Safety: libpq takes a null pointer too; the text ends with a zero.
        unsafe {
            let code = PQresultErrorField(self.0, SQLSTATE);
            if code.is_null() {
                String::new()
            } else {
                text(code)
            }
        }
    }
}

impl Drop for Rows {
    fn drop(&mut self) {
        // Safety: the result is open, and nobody has it afterwards.
        unsafe { PQclear(self.0) }
    }
}
