//! kr in a Rust program, by libkr: checks tables, runs scripts, and steps sessions under a table.
//!
//! ```
//! use kr::{Op, Reply, Session};
//!
//! let script = br#"{"format":1,"opening":[[10,1],[20,2],[30,3]],"steps":[]}"#;
//! let mut session = Session::open(b"@kvl", script)?;
//! assert_eq!(session.step(1, Op::Fetch(15))?, Reply::None);
//! assert_eq!(session.step(2, Op::Insert(17, 5))?, Reply::Blocked(vec![1]));
//! # Ok::<(), kr::Error>(())
//! ```
use kr_sys as sys;
use std::ffi::{c_int, CStr};
use std::fmt;

pub use kr_sys::{kr_lock as Lock, kr_pair as Pair};

/// An operation of a transaction.
#[derive(Clone, Copy, Debug, PartialEq, Eq)]
pub enum Op {
    /// The key.
    Fetch(u64),
    /// The ends of the range, both in it.
    Scan(u64, u64),
    /// Goes on with the scan in progress, by one name.
    Go,
    /// The key and its value.
    Insert(u64, u64),
    Delete(u64),
    /// The key and its new value.
    Update(u64, u64),
    Commit,
    Abort,
    /// Undoes the newest change.
    Back,
}

/// What a table replies to a step.
#[derive(Clone, Debug, PartialEq, Eq)]
pub enum Reply {
    Found(u64),
    None,
    Going(u64),
    Rows(Vec<Pair>),
    Done,
    Duplicate,
    Deleted(u64),
    Absent,
    Updated(u64),
    Committed,
    Aborted,
    /// How many changes are left to undo.
    Undone(u64),
    /// The transactions whose locks conflict, rising.
    Blocked(Vec<u32>),
    /// The number of the refusal, as kr.h has it.
    Refused(u32),
}

/// Why a call has no answer.
#[derive(Clone, Debug, PartialEq, Eq)]
pub enum Error {
    /// The bytes are no table: the line that tells their first fault.
    Table(String),
    /// The bytes are no script: the line that tells their first fault.
    Script(String),
    /// malloc or realloc refused. A session is as it was.
    Memory,
    /// Another code of kr.h.
    Code(i32),
}

impl fmt::Display for Error {
    fn fmt(&self, f: &mut fmt::Formatter<'_>) -> fmt::Result {
        match self {
            Error::Table(line) | Error::Script(line) => f.write_str(line),
            Error::Memory => f.write_str(message(sys::KR_NOMEM)),
            Error::Code(code) => f.write_str(message(*code)),
        }
    }
}

impl std::error::Error for Error {}

fn message(code: c_int) -> &'static str {
    // SAFETY: the text is a constant that ends in a zero.
    unsafe { CStr::from_ptr(sys::kr_errmsg(code)) }.to_str().unwrap_or("unknown code")
}

/// The version of libkr.
pub fn version() -> &'static str {
    // SAFETY: as in `message`.
    unsafe { CStr::from_ptr(sys::kr_version()) }.to_str().unwrap_or("")
}

/// Calls with room for a list, and once more where the list was longer.
fn list<T: Clone + Default>(room: usize, mut call: impl FnMut(*mut T, usize, *mut usize) -> c_int) -> (c_int, Vec<T>) {
    let (mut list, mut length) = (vec![T::default(); room], 0);
    let mut code = call(list.as_mut_ptr(), list.len(), &mut length);
    if length > list.len() {
        list.resize(length, T::default());
        code = call(list.as_mut_ptr(), list.len(), &mut length);
    }
    list.truncate(length);
    (code, list)
}

/// Whether the answer is yes, and its report.
fn told(call: impl FnMut(*mut u8, usize, *mut usize) -> c_int) -> Result<(bool, String), Error> {
    let (code, text) = list(4096, call);
    let text = String::from_utf8_lossy(&text).into_owned();
    match code {
        sys::KR_OK | sys::KR_NO => Ok((code == sys::KR_OK, text)),
        sys::KR_TABLE => Err(Error::Table(text)),
        sys::KR_SCRIPT => Err(Error::Script(text)),
        code => Err(error(code)),
    }
}

fn error(code: c_int) -> Error {
    if code == sys::KR_NOMEM {
        Error::Memory
    } else {
        Error::Code(code)
    }
}

/// Whether all cases of a table hold, and the report of its check.
pub fn check(table: &[u8]) -> Result<(bool, String), Error> {
    // SAFETY: each address is that of a slice or a number that lives through the call.
    told(|text, room, length| unsafe { sys::kr_check(table.as_ptr(), table.len(), text, room, length) })
}

/// Whether every run under a table is serializable in commit order.
pub fn is_safe(table: &[u8]) -> Result<bool, Error> {
    // SAFETY: as in `check`.
    Ok(told(|text, room, length| unsafe { sys::kr_decide(table.as_ptr(), table.len(), text, room, length) })?.0)
}

/// Whether a table is safe, accepted or not, and its explanation.
pub fn explain(table: &[u8]) -> Result<(bool, String), Error> {
    // SAFETY: as in `check`.
    told(|text, room, length| unsafe { sys::kr_explain(table.as_ptr(), table.len(), text, room, length) })
}

/// The script of the schedule that the explanation shows of a cause, from 1; `None` where it shows none, or there is no such
/// cause.
pub fn explain_script(table: &[u8], number: usize) -> Result<Option<String>, Error> {
    // SAFETY: as in `check`.
    let (is_found, line) = told(|text, room, length| unsafe {
        sys::kr_explain_script(table.as_ptr(), table.len(), number, text, room, length)
    })?;
    Ok(is_found.then_some(line))
}

/// Whether the run of a script under a table is serializable in commit order, and its report.
pub fn run(table: &[u8], script: &[u8]) -> Result<(bool, String), Error> {
    // SAFETY: as in `check`.
    told(|text, room, length| unsafe {
        sys::kr_run(table.as_ptr(), table.len(), script.as_ptr(), script.len(), text, room, length)
    })
}

/// The name of a mode of a table; empty where it has none of this number.
pub fn mode(table: &[u8], mode: u32) -> Result<String, Error> {
    // SAFETY: as in `check`.
    Ok(told(|text, room, length| unsafe { sys::kr_mode(table.as_ptr(), table.len(), mode, text, room, length) })?.1)
}

/// Steps of transactions under a table. What C holds is in a box, so that it stays in its place.
#[derive(Debug)]
pub struct Session(Box<sys::kr_session>);

// SAFETY: a session owns all that it reaches, and has no thread of its own. It isn't `Sync`: its calls need `&mut`.
unsafe impl Send for Session {}

impl Session {
    /// A session under a table, on the opening map of a script, none of whose steps is attempted.
    pub fn open(table: &[u8], script: &[u8]) -> Result<Session, Error> {
        let mut session = Box::new(sys::CLOSED_SESSION);
        // SAFETY: as in `check`; the session is closed.
        told(|text, room, length| unsafe {
            sys::kr_open(&mut *session, table.as_ptr(), table.len(), script.as_ptr(), script.len(), text, room, length)
        })?;
        Ok(Session(session))
    }

    /// Attempts a step. At `Error::Memory` only the last reply has changed.
    pub fn step(&mut self, txn: u32, op: Op) -> Result<Reply, Error> {
        let (kind, first, second) = match op {
            Op::Fetch(key) => (0, key, 0),
            Op::Scan(low, high) => (1, low, high),
            Op::Go => (2, 0, 0),
            Op::Insert(key, value) => (3, key, value),
            Op::Delete(key) => (4, key, 0),
            Op::Update(key, value) => (5, key, value),
            Op::Commit => (6, 0, 0),
            Op::Abort => (7, 0, 0),
            Op::Back => (8, 0, 0),
        };
        let mut reply = sys::kr_reply::default();
        // SAFETY: the session is open, and this thread alone has it.
        match unsafe { sys::kr_step(&mut *self.0, txn, kind, first, second, &mut reply) } {
            sys::KR_OK => self.reply(reply),
            code => Err(error(code)),
        }
    }

    /// Purges a ghost, and says whether it did: never where deletes leave no ghosts. At `Error::Memory` nothing has changed.
    pub fn purge(&mut self, key: u64) -> Result<bool, Error> {
        let mut purged = 0;
        // SAFETY: as in `step`.
        match unsafe { sys::kr_purge(&mut *self.0, key, &mut purged) } {
            sys::KR_OK => Ok(purged == 1),
            code => Err(error(code)),
        }
    }

    /// The reply with its lists.
    fn reply(&mut self, reply: sys::kr_reply) -> Result<Reply, Error> {
        Ok(match reply.kind {
            0 => Reply::Found(reply.value),
            1 => Reply::None,
            2 => Reply::Going(reply.value),
            3 => Reply::Rows(self.list(reply.count as usize, sys::kr_rows)?),
            4 => Reply::Done,
            5 => Reply::Duplicate,
            6 => Reply::Deleted(reply.value),
            7 => Reply::Absent,
            8 => Reply::Updated(reply.value),
            9 => Reply::Committed,
            10 => Reply::Aborted,
            11 => Reply::Undone(reply.value),
            12 => Reply::Blocked(self.list(reply.count as usize, sys::kr_blockers)?),
            _ => Reply::Refused(reply.refusal),
        })
    }

    /// The pairs of the index, keys rising.
    pub fn index(&mut self) -> Result<Vec<Pair>, Error> {
        self.list(64, sys::kr_index)
    }

    /// The ghosts, rising: deleted keys that aren't purged yet.
    pub fn ghosts(&mut self) -> Result<Vec<u64>, Error> {
        self.list(64, sys::kr_ghosts)
    }

    /// The locks that are held, by name, infinity last, and then by transaction.
    pub fn locks(&mut self) -> Result<Vec<Lock>, Error> {
        self.list(64, sys::kr_locks)
    }

    /// The active transactions, rising.
    pub fn unfinished(&mut self) -> Result<Vec<u32>, Error> {
        self.list(64, sys::kr_unfinished)
    }

    /// Whether what has committed so far is serializable in commit order, and the report of that verdict.
    pub fn verdict(&mut self) -> Result<(bool, String), Error> {
        // SAFETY: as in `step`.
        told(|text, room, length| unsafe { sys::kr_verdict(&mut *self.0, text, room, length) })
    }

    fn list<T: Clone + Default>(
        &mut self,
        room: usize,
        call: unsafe extern "C" fn(*mut sys::kr_session, *mut T, usize, *mut usize) -> c_int,
    ) -> Result<Vec<T>, Error> {
        // SAFETY: as in `step`; the list has the room that is told.
        match list(room, |at, room, length| unsafe { call(&mut *self.0, at, room, length) }) {
            (sys::KR_OK, list) => Ok(list),
            (code, _) => Err(error(code)),
        }
    }
}

impl Drop for Session {
    fn drop(&mut self) {
        // SAFETY: as in `step`.
        unsafe { sys::kr_close(&mut *self.0) };
    }
}
