//! The functions of kr.h, as it declares them; what they mean is said there. The package `kr` is the safe form.
#![no_std]
#![allow(non_camel_case_types)]
use core::ffi::{c_char, c_int, c_void};

pub const KR_OK: c_int = 0;
pub const KR_NO: c_int = 1;
pub const KR_TABLE: c_int = 2;
pub const KR_SCRIPT: c_int = 3;
pub const KR_NOMEM: c_int = 4;
pub const KR_CLOSED: c_int = 5;
pub const KR_ISOPEN: c_int = 6;
pub const KR_MISUSE: c_int = 7;

#[repr(C)]
#[derive(Clone, Copy, Debug, Default, PartialEq, Eq)]
pub struct kr_reply {
    pub kind: u32,
    pub refusal: u32,
    pub value: u64,
    pub count: u64,
}

#[repr(C)]
#[derive(Clone, Copy, Debug, Default, PartialEq, Eq)]
pub struct kr_pair {
    pub key: u64,
    pub value: u64,
}

#[repr(C)]
#[derive(Clone, Copy, Debug, Default, PartialEq, Eq)]
pub struct kr_lock {
    pub key: u64,
    pub is_end: u32,
    pub txn: u32,
    pub mode: u32,
    pub unused: u32,
}

/// It stays where it was opened.
#[repr(C)]
#[derive(Debug)]
pub struct kr_session {
    pub at: *mut c_void,
    pub seal: u64,
}

/// The value KR_SESSION.
pub const CLOSED_SESSION: kr_session = kr_session { at: core::ptr::null_mut(), seal: 0 };

extern "C" {
    pub fn kr_version() -> *const c_char;
    pub fn kr_errmsg(code: c_int) -> *const c_char;
    pub fn kr_check(table: *const u8, table_length: usize, text: *mut u8, room: usize, length: *mut usize) -> c_int;
    pub fn kr_decide(table: *const u8, table_length: usize, text: *mut u8, room: usize, length: *mut usize) -> c_int;
    pub fn kr_explain(table: *const u8, table_length: usize, text: *mut u8, room: usize, length: *mut usize) -> c_int;
    pub fn kr_explain_script(table: *const u8, table_length: usize, number: usize, text: *mut u8, room: usize, length: *mut usize) -> c_int;
    pub fn kr_run(table: *const u8, table_length: usize, script: *const u8, script_length: usize, text: *mut u8, room: usize, length: *mut usize) -> c_int;
    pub fn kr_mode(table: *const u8, table_length: usize, mode: u32, text: *mut u8, room: usize, length: *mut usize) -> c_int;
    pub fn kr_open(session: *mut kr_session, table: *const u8, table_length: usize, script: *const u8, script_length: usize, text: *mut u8, room: usize, length: *mut usize) -> c_int;
    pub fn kr_step(session: *mut kr_session, txn: u32, op: u32, first: u64, second: u64, reply: *mut kr_reply) -> c_int;
    pub fn kr_purge(session: *mut kr_session, key: u64, purged: *mut u32) -> c_int;
    pub fn kr_blockers(session: *mut kr_session, txns: *mut u32, room: usize, length: *mut usize) -> c_int;
    pub fn kr_rows(session: *mut kr_session, pairs: *mut kr_pair, room: usize, length: *mut usize) -> c_int;
    pub fn kr_index(session: *mut kr_session, pairs: *mut kr_pair, room: usize, length: *mut usize) -> c_int;
    pub fn kr_ghosts(session: *mut kr_session, keys: *mut u64, room: usize, length: *mut usize) -> c_int;
    pub fn kr_locks(session: *mut kr_session, locks: *mut kr_lock, room: usize, length: *mut usize) -> c_int;
    pub fn kr_unfinished(session: *mut kr_session, txns: *mut u32, room: usize, length: *mut usize) -> c_int;
    pub fn kr_verdict(session: *mut kr_session, text: *mut u8, room: usize, length: *mut usize) -> c_int;
    pub fn kr_close(session: *mut kr_session) -> c_int;
}
