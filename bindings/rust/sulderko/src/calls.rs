//! The calls.

use crate::answers::{Array, Conflicts, Error, Fault, Outcome, Sizes, Verdict};
use std::ffi::{c_char, c_uint};
use std::ptr;
use sulderko_sys as sys;

/// How many bytes, or numbers, a first call is given room for.
const ROOM: usize = 4_096;

/// The pointer and the length of some bytes, as C has them.
pub(crate) fn parts(text: &[u8]) -> (*const c_char, usize) {
    (text.as_ptr().cast(), text.len())
}

/// Calls with some room, and again with as much as is needed, until all fits.
pub(crate) fn handed<T: Copy + Default>(
    mut call: impl FnMut(*mut T, usize, *mut usize) -> c_uint,
) -> Result<Vec<T>, c_uint> {
    let mut room = ROOM;
    loop {
        let mut out = vec![T::default(); room];
        let mut len = 0;
        match call(out.as_mut_ptr(), room, &mut len) {
            sys::DONE if len <= room => {
                out.truncate(len);
                return Ok(out);
            }
            sys::DONE => room = len,
            status => return Err(status),
        }
    }
}

/// The first fault of the grammar, or else of the tokens by it; `None` where there is none.
pub fn fault(grammar: &[u8], tokens: &[u8]) -> Result<Option<Fault>, Error> {
    let ((grammar, grammar_len), (tokens, tokens_len)) = (parts(grammar), parts(tokens));
    let mut found = sys::FaultInfo::default();
    // SAFETY: each pointer is to as many bytes as its length says, and `found` is there.
    let status =
        unsafe { sys::sulderko_fault(grammar, grammar_len, tokens, tokens_len, &mut found) };
    let known = |number: usize| (number > 0).then_some(number);
    match status {
        sys::DONE => Ok(None),
        sys::BAD_GRAMMAR => Ok(Some(Fault::Grammar {
            code: found.code,
            line: known(found.line),
            offset: found.offset,
        })),
        sys::BAD_TOKENS => Ok(Some(Fault::Tokens {
            code: found.code,
            place: known(found.place),
        })),
        sys::TOO_MANY_SETS => Err(Error::TooManySets),
        _ => Err(Error::NoMemory),
    }
}

/// Why a call over a grammar and tokens had this status.
pub(crate) fn error_of(status: c_uint, grammar: &[u8], tokens: &[u8]) -> Error {
    match status {
        sys::BAD_GRAMMAR | sys::BAD_TOKENS => match fault(grammar, tokens) {
            Ok(Some(found)) => Error::Fault(found),
            Ok(None) => Error::NoMemory,
            Err(error) => error,
        },
        sys::TOO_MANY_SETS => Error::TooManySets,
        _ => Error::NoMemory,
    }
}

/// What `ystep` replies to command lines, from the start of a parse of the tokens by the grammar.
pub fn session(grammar: &[u8], tokens: &[u8], commands: &[u8]) -> Result<Vec<u8>, Error> {
    let (g, t, c) = (parts(grammar), parts(tokens), parts(commands));
    handed(|out: *mut u8, room, len| {
        // SAFETY: each pointer is to as many bytes as its length says, and `len` is there.
        unsafe { sys::sulderko_session(g.0, g.1, t.0, t.1, c.0, c.1, out.cast(), room, len) }
    })
    .map_err(|status| error_of(status, grammar, tokens))
}

/// The table of a grammar, as `yacc` writes it, and its conflicts.
pub fn table(grammar: &[u8]) -> Result<(Vec<u8>, Conflicts), Error> {
    let g = parts(grammar);
    let mut conflicts = Conflicts::default();
    let count = ptr::addr_of_mut!(conflicts);
    let text = handed(|out: *mut u8, room, len| {
        // SAFETY: each pointer is to as many bytes as its length says; `len` and `count` are there.
        unsafe { sys::sulderko_table(g.0, g.1, out.cast(), room, len, count) }
    })
    .map_err(|status| error_of(status, grammar, b""))?;
    Ok((text, conflicts))
}

/// The report on a grammar, as `yacc -v` writes it, and its conflicts.
pub fn report(grammar: &[u8]) -> Result<(Vec<u8>, Conflicts), Error> {
    let g = parts(grammar);
    let mut conflicts = Conflicts::default();
    let count = ptr::addr_of_mut!(conflicts);
    let text = handed(|out: *mut u8, room, len| {
        // SAFETY: each pointer is to as many bytes as its length says; `len` and `count` are there.
        unsafe { sys::sulderko_report(g.0, g.1, out.cast(), room, len, count) }
    })
    .map_err(|status| error_of(status, grammar, b""))?;
    Ok((text, conflicts))
}

/// An array of the parser in C that `ycc` writes for a grammar, and the numbers by which the arrays
/// are read.
pub fn code(grammar: &[u8], array: Array) -> Result<(Vec<usize>, Sizes), Error> {
    let g = parts(grammar);
    let mut sizes = Sizes::default();
    let read = ptr::addr_of_mut!(sizes);
    let numbers = handed(|out: *mut usize, room, len| {
        // SAFETY: each pointer is to as much as its length says; `len` and `read` are there.
        unsafe { sys::sulderko_code(g.0, g.1, array as c_uint, out, room, len, read) }
    })
    .map_err(|status| error_of(status, grammar, b""))?;
    Ok((numbers, sizes))
}

/// The number of the symbol that each of the tokens names, as the table has it.
pub fn tokens(grammar: &[u8], tokens: &[u8]) -> Result<Vec<usize>, Error> {
    let (g, t) = (parts(grammar), parts(tokens));
    handed(|out: *mut usize, room, len| {
        // SAFETY: each pointer is to as much as its length says, and `len` is there.
        unsafe { sys::sulderko_tokens(g.0, g.1, t.0, t.1, out, room, len) }
    })
    .map_err(|status| error_of(status, grammar, tokens))
}

/// Whether the tokens are a sentence of the grammar.
pub fn judge(grammar: &[u8], tokens: &[u8]) -> Result<Verdict, Error> {
    let (g, t) = (parts(grammar), parts(tokens));
    let mut found = sys::Verdict::default();
    // SAFETY: each pointer is to as many bytes as its length says, and `found` is there.
    let status = unsafe { sys::sulderko_judge(g.0, g.1, t.0, t.1, &mut found) };
    if status != sys::DONE {
        return Err(error_of(status, grammar, tokens));
    }
    let outcome = match found.outcome {
        1 => Outcome::Accepted { steps: found.steps },
        2 => Outcome::Rejected { token: found.token },
        _ => Outcome::Limit,
    };
    Ok(Verdict {
        outcome,
        exact: found.exact == 1,
    })
}
