//! The calls of libsulderko as C has them: `include/sulderko.h` says what each of them does. The
//! crate `sulderko` has them for Rust.
#![no_std]

use core::ffi::{c_char, c_uchar, c_uint, c_void};

/// All was handed over.
pub const DONE: c_uint = 0;
/// The grammar has a fault.
pub const BAD_GRAMMAR: c_uint = 1;
/// The tokens have a fault.
pub const BAD_TOKENS: c_uint = 2;
/// Memory ran out.
pub const NO_MEMORY: c_uint = 3;
/// The grammar has more than 16,384 item sets.
pub const TOO_MANY_SETS: c_uint = 4;

/// The parse is accepted or has failed: there is no step and no edit.
pub const HALTED: c_uint = 5;
/// The position is 1,000,000.
pub const AT_LIMIT: c_uint = 6;
/// Nothing can be undone.
pub const AT_START: c_uint = 7;
/// There is no upcoming token.
pub const NO_TOKEN: c_uint = 8;
/// What is to be inserted is no input token of the grammar.
pub const BAD_TOKEN: c_uint = 9;
/// What is to be unwound isn't accepted.
pub const NOT_ACCEPTED: c_uint = 10;
/// What is to be unwound has an error step.
pub const HAD_ERROR: c_uint = 11;
/// The handle has no session.
pub const NO_SESSION: c_uint = 12;

/// The token can't come next.
pub const UNEXPECTED: c_uchar = 0;
/// The token could come next.
pub const EXPECTED: c_uchar = 1;
/// The limit of positions comes before it shows whether the token could come next.
pub const UNTOLD: c_uchar = 2;

/// How many conflicts the cells of a grammar's tables count.
#[repr(C)]
#[derive(Clone, Copy, Debug, Default, PartialEq, Eq)]
pub struct Conflicts {
    /// One for each rule that could be reduced beside a shift.
    pub shift_reduce: usize,
    /// One for each rule that could be reduced beside the rule that is.
    pub reduce_reduce: usize,
}

/// The numbers by which the arrays of a parser are read.
#[repr(C)]
#[derive(Clone, Copy, Debug, Default, PartialEq, Eq)]
pub struct Sizes {
    /// How many states there are.
    pub states: usize,
    /// How many rules there are.
    pub rules: usize,
    /// How many tokens there are: also the number of what is no token.
    pub tokens: usize,
    /// How many bytes a set of tokens has.
    pub span: usize,
}

/// The verdict on tokens.
#[repr(C)]
#[derive(Clone, Copy, Debug, Default, PartialEq, Eq)]
pub struct Verdict {
    /// 1 accepted, 2 rejected, 3 neither within 1,000,000 steps.
    pub outcome: c_uint,
    /// 1 where no cell of the tables has a choice.
    pub exact: c_uint,
    /// Accepted: how many steps the parse takes; else 0.
    pub steps: usize,
    /// Rejected: which token, counted from 1; else 0.
    pub token: usize,
}

/// A fault of a grammar or of tokens; what it doesn't have is 0.
#[repr(C)]
#[derive(Clone, Copy, Debug, Default, PartialEq, Eq)]
pub struct FaultInfo {
    /// The number of the code: of a grammar that after G, of tokens that after K.
    pub code: c_uint,
    /// The line of the grammar, counted from 1.
    pub line: usize,
    /// How many bytes of the grammar stand before what is at fault.
    pub offset: usize,
    /// Which of the tokens is at fault, counted from 1.
    pub place: usize,
}

/// What owns a session; null where it has none.
#[repr(C)]
#[derive(Debug)]
pub struct Handle {
    /// Where the session is.
    pub at: *mut c_void,
}

/// A step or an edit.
#[repr(C)]
#[derive(Clone, Copy, Debug, Default, PartialEq, Eq)]
pub struct Move {
    /// 1 shift, 2 reduce, 3 accept, 4 detect, 5 pop, 6 shift of `error`, 7 discard, 8 fail,
    /// 9 insert, 10 drop.
    pub kind: c_uint,
    /// The number of its symbol or rule; else 0.
    pub subject: usize,
}

/// Where a session stands.
#[repr(C)]
#[derive(Clone, Copy, Debug, Default, PartialEq, Eq)]
pub struct Place {
    /// 1 running, 2 popping, 3 accepted, 4 failed.
    pub mode: c_uint,
    /// How many steps and edits stand.
    pub position: usize,
    /// The state on top of the stack.
    pub state: usize,
    /// How many symbols the stack has.
    pub height: usize,
    /// How many upcoming tokens there are.
    pub left: usize,
    /// The recovery counter, 0 to 3.
    pub counter: usize,
    /// How many errors were reported.
    pub errors: usize,
}

extern "C" {
    pub fn sulderko_session(
        grammar: *const c_char,
        grammar_len: usize,
        tokens: *const c_char,
        tokens_len: usize,
        commands: *const c_char,
        commands_len: usize,
        out: *mut c_char,
        room: usize,
        len: *mut usize,
    ) -> c_uint;
    pub fn sulderko_table(
        grammar: *const c_char,
        grammar_len: usize,
        out: *mut c_char,
        room: usize,
        len: *mut usize,
        conflicts: *mut Conflicts,
    ) -> c_uint;
    pub fn sulderko_report(
        grammar: *const c_char,
        grammar_len: usize,
        out: *mut c_char,
        room: usize,
        len: *mut usize,
        conflicts: *mut Conflicts,
    ) -> c_uint;
    pub fn sulderko_code(
        grammar: *const c_char,
        grammar_len: usize,
        array: c_uint,
        out: *mut usize,
        room: usize,
        len: *mut usize,
        sizes: *mut Sizes,
    ) -> c_uint;
    pub fn sulderko_tokens(
        grammar: *const c_char,
        grammar_len: usize,
        tokens: *const c_char,
        tokens_len: usize,
        out: *mut usize,
        room: usize,
        len: *mut usize,
    ) -> c_uint;
    pub fn sulderko_judge(
        grammar: *const c_char,
        grammar_len: usize,
        tokens: *const c_char,
        tokens_len: usize,
        verdict: *mut Verdict,
    ) -> c_uint;
    pub fn sulderko_fault(
        grammar: *const c_char,
        grammar_len: usize,
        tokens: *const c_char,
        tokens_len: usize,
        fault: *mut FaultInfo,
    ) -> c_uint;
    pub fn sulderko_open(
        grammar: *const c_char,
        grammar_len: usize,
        tokens: *const c_char,
        tokens_len: usize,
        handle: *mut Handle,
    ) -> c_uint;
    pub fn sulderko_close(handle: *mut Handle);
    pub fn sulderko_step(handle: *mut Handle, made: *mut Move) -> c_uint;
    pub fn sulderko_back(handle: *mut Handle, made: *mut Move) -> c_uint;
    pub fn sulderko_insert(
        handle: *mut Handle,
        token: *const c_char,
        token_len: usize,
        made: *mut Move,
    ) -> c_uint;
    pub fn sulderko_drop(handle: *mut Handle, made: *mut Move) -> c_uint;
    pub fn sulderko_to(handle: *mut Handle, position: usize) -> c_uint;
    pub fn sulderko_state(handle: *mut Handle, place: *mut Place) -> c_uint;
    pub fn sulderko_expected(
        handle: *mut Handle,
        out: *mut c_uchar,
        room: usize,
        len: *mut usize,
    ) -> c_uint;
    pub fn sulderko_show(
        handle: *mut Handle,
        out: *mut c_char,
        room: usize,
        len: *mut usize,
    ) -> c_uint;
    pub fn sulderko_tree(
        handle: *mut Handle,
        out: *mut c_char,
        room: usize,
        len: *mut usize,
    ) -> c_uint;
    pub fn sulderko_unwind(
        handle: *mut Handle,
        out: *mut c_char,
        room: usize,
        len: *mut usize,
    ) -> c_uint;
}
