//! libpq, the C library of PostgreSQL, as far as a mailbox needs it: parameters and results in
//! binary. It brings TLS, password and service files, and several hosts in one URL.

#![allow(unsafe_code)]

use std::ffi::{CStr, CString};
use std::os::raw::{c_char, c_int};
use std::ptr;

/// What the server or the library says, with its SQLSTATE, which is empty where there was no
/// answer.
pub struct Said {
    pub state: String,
    pub message: String,
}

/// A parameter: the number of its type, and its bytes in PostgreSQL's binary form.
pub struct Parameter {
    pub kind: u32,
    pub bytes: Vec<u8>,
}

pub struct Connection(*mut pq_sys::PGconn);

/// What a statement answers.
pub struct Answer(*mut pq_sys::PGresult);

/// A text of libpq's, which stays its own.
fn text(pointer: *const c_char) -> String {
    if pointer.is_null() {
        return String::new();
    }
    // SAFETY: libpq's texts end in a zero byte, and stay while what they belong to is not freed,
    // which the caller holds.
    unsafe { CStr::from_ptr(pointer) }.to_string_lossy().trim_end().to_string()
}

fn said(message: &str) -> Said {
    Said { state: String::new(), message: message.to_string() }
}

/// Notices, as that a table is not there to be dropped, are nobody's concern.
extern "C" fn silent(_: *mut std::os::raw::c_void, _: *const c_char) {}

impl Connection {
    pub fn open(url: &str) -> Result<Connection, Said> {
        let url = CString::new(url).map_err(|_| said("the URL holds a zero byte"))?;
        // SAFETY: the URL ends in a zero byte; what is answered is freed by `drop`.
        let connection = Connection(unsafe { pq_sys::PQconnectdb(url.as_ptr()) });
        if connection.0.is_null() {
            return Err(said("there is no memory for a connection"));
        }
        // SAFETY: the connection is open or failed, and not freed.
        unsafe { pq_sys::PQsetNoticeProcessor(connection.0, Some(silent), ptr::null_mut()) };
        match connection.is_up() {
            true => Ok(connection),
            false => Err(said(&connection.message())),
        }
    }

    /// Whether the connection is not known to be lost.
    pub fn is_up(&self) -> bool {
        // SAFETY: the connection is not freed.
        let status = unsafe { pq_sys::PQstatus(self.0) };
        status as c_int == pq_sys::CONNECTION_OK as c_int
    }

    fn message(&self) -> String {
        // SAFETY: the connection is not freed.
        text(unsafe { pq_sys::PQerrorMessage(self.0) })
    }

    /// Runs one statement.
    pub fn run(&mut self, statement: &str, parameters: &[Parameter]) -> Result<Answer, Said> {
        let statement = CString::new(statement).map_err(|_| said("a zero byte in a statement"))?;
        let kinds: Vec<pq_sys::Oid> = parameters.iter().map(|one| one.kind).collect();
        let values: Vec<*const c_char> =
            parameters.iter().map(|one| one.bytes.as_ptr().cast()).collect();
        let lengths: Vec<c_int> = parameters.iter().map(|one| one.bytes.len() as c_int).collect();
        let binary: Vec<c_int> = vec![1; parameters.len()];
        // SAFETY: the four lists have as many entries as there are parameters, each value has its
        // length in bytes, and all of them outlive the call.
        let answer = Answer(unsafe {
            pq_sys::PQexecParams(
                self.0,
                statement.as_ptr(),
                parameters.len() as c_int,
                kinds.as_ptr(),
                values.as_ptr(),
                lengths.as_ptr(),
                binary.as_ptr(),
                1,
            )
        });
        match answer.is_good() {
            true => Ok(answer),
            false => Err(Said { state: answer.state(), message: self.message() }),
        }
    }

    /// Runs statements that have no parameters, parted by semicolons, in one transaction.
    pub fn run_all(&mut self, statements: &str) -> Result<(), Said> {
        let statements = CString::new(statements).map_err(|_| said("a zero byte"))?;
        // SAFETY: the connection is not freed, and the text ends in a zero byte.
        let answer = Answer(unsafe { pq_sys::PQexec(self.0, statements.as_ptr()) });
        match answer.is_good() {
            true => Ok(()),
            false => Err(Said { state: answer.state(), message: self.message() }),
        }
    }
}

impl Drop for Connection {
    fn drop(&mut self) {
        // SAFETY: it is freed once, and a null pointer is let be.
        unsafe { pq_sys::PQfinish(self.0) };
    }
}

impl Answer {
    fn is_good(&self) -> bool {
        // SAFETY: a null pointer has a status, too, and it is no good one.
        let status = unsafe { pq_sys::PQresultStatus(self.0) } as c_int;
        let good = [pq_sys::PGRES_COMMAND_OK as c_int, pq_sys::PGRES_TUPLES_OK as c_int];
        good.contains(&status)
    }

    fn state(&self) -> String {
        const SQLSTATE: c_int = b'C' as c_int;
        // SAFETY: the answer, perhaps null, is not freed.
        text(unsafe { pq_sys::PQresultErrorField(self.0, SQLSTATE) })
    }

    /// The words of what was done: `COMMIT`, say.
    pub fn done(&self) -> String {
        // SAFETY: the answer is not freed.
        text(unsafe { pq_sys::PQcmdStatus(self.0) })
    }

    /// How many rows were written.
    pub fn written(&self) -> u64 {
        // SAFETY: the answer is not freed.
        text(unsafe { pq_sys::PQcmdTuples(self.0) }).parse().unwrap_or(0)
    }

    pub fn rows(&self) -> usize {
        // SAFETY: the answer is not freed.
        unsafe { pq_sys::PQntuples(self.0) as usize }
    }

    pub fn columns(&self) -> usize {
        // SAFETY: the answer is not freed.
        unsafe { pq_sys::PQnfields(self.0) as usize }
    }

    /// The number of a column's type.
    pub fn kind(&self, column: usize) -> u32 {
        // SAFETY: the answer is not freed; for a column that is not there libpq answers 0.
        unsafe { pq_sys::PQftype(self.0, column as c_int) }
    }

    /// A value's bytes; none where it is null.
    pub fn value(&self, row: usize, column: usize) -> Option<&[u8]> {
        assert!(row < self.rows() && column < self.columns());
        let (row, column) = (row as c_int, column as c_int);
        // SAFETY: the row and the column are there, and the bytes stay while the answer does.
        unsafe {
            if pq_sys::PQgetisnull(self.0, row, column) != 0 {
                return None;
            }
            let length = pq_sys::PQgetlength(self.0, row, column) as usize;
            let start = pq_sys::PQgetvalue(self.0, row, column) as *const u8;
            Some(std::slice::from_raw_parts(start, length))
        }
    }
}

impl Drop for Answer {
    fn drop(&mut self) {
        // SAFETY: it is freed once, and a null pointer is let be.
        unsafe { pq_sys::PQclear(self.0) };
    }
}
