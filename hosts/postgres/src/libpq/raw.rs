//! What is called of libpq, as its header has it.

use std::ffi::{c_char, c_int};

#[repr(C)]
pub struct RawConnection([u8; 0]);
#[repr(C)]
pub struct RawResult([u8; 0]);

#[link(name = "pq")]
extern "C" {
    pub fn PQconnectdb(to: *const c_char) -> *mut RawConnection;
    pub fn PQping(to: *const c_char) -> c_int;
    pub fn PQstatus(connection: *const RawConnection) -> c_int;
    pub fn PQerrorMessage(connection: *const RawConnection) -> *const c_char;
    pub fn PQfinish(connection: *mut RawConnection);
    pub fn PQexec(connection: *mut RawConnection, command: *const c_char) -> *mut RawResult;
    pub fn PQprepare(
        connection: *mut RawConnection,
        name: *const c_char,
        query: *const c_char,
        count: c_int,
        types: *const u32,
    ) -> *mut RawResult;
    pub fn PQenterPipelineMode(connection: *mut RawConnection) -> c_int;
    pub fn PQpipelineSync(connection: *mut RawConnection) -> c_int;
    pub fn PQsendFlushRequest(connection: *mut RawConnection) -> c_int;
    pub fn PQflush(connection: *mut RawConnection) -> c_int;
    pub fn PQsendQueryPrepared(
        connection: *mut RawConnection,
        name: *const c_char,
        count: c_int,
        values: *const *const c_char,
        lengths: *const c_int,
        formats: *const c_int,
        result_format: c_int,
    ) -> c_int;
    pub fn PQgetResult(connection: *mut RawConnection) -> *mut RawResult;
    pub fn PQresultStatus(result: *const RawResult) -> c_int;
    pub fn PQresultErrorMessage(result: *const RawResult) -> *const c_char;
    pub fn PQresultErrorField(result: *const RawResult, field: c_int) -> *const c_char;
    pub fn PQntuples(result: *const RawResult) -> c_int;
    pub fn PQgetvalue(result: *const RawResult, row: c_int, column: c_int) -> *const u8;
    pub fn PQgetlength(result: *const RawResult, row: c_int, column: c_int) -> c_int;
    pub fn PQgetisnull(result: *const RawResult, row: c_int, column: c_int) -> c_int;
    pub fn PQclear(result: *mut RawResult);
}

pub const CONNECTION_OK: c_int = 0;
pub const CONNECTION_BAD: c_int = 1;
pub const PING_OK: c_int = 0;
pub const PING_NO_ATTEMPT: c_int = 3;
pub const COMMAND_OK: c_int = 1;
pub const TUPLES_OK: c_int = 2;
pub const PIPELINE_SYNC: c_int = 10;
pub const PIPELINE_ABORTED: c_int = 11;
pub const BINARY: c_int = 1;
pub const SQLSTATE: c_int = b'C' as c_int;
