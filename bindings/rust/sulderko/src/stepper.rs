//! A parse behind a handle.

use crate::calls::{error_of, handed, parts};
use crate::Error;
use std::ffi::c_uint;
use std::ptr;
use sulderko_sys as sys;

pub use sys::{Move, Place};

/// A parse that goes forward and back over a grammar and tokens. Each call costs what it does; what
/// is refused changes nothing.
#[derive(Debug)]
pub struct Stepper {
    handle: sys::Handle,
}

// SAFETY: it is proved of a handle that it may go to another thread.
unsafe impl Send for Stepper {}

/// Why a move is refused.
#[derive(Clone, Copy, Debug, PartialEq, Eq)]
pub enum Refused {
    /// The parse is accepted or has failed.
    Halted,
    /// The position is 1,000,000.
    AtLimit,
    /// Memory ran out.
    NoMemory,
    /// Nothing can be undone.
    AtStart,
    /// There is no upcoming token.
    NoToken,
    /// What is to be inserted is no input token.
    BadToken,
    /// What is to be unwound isn't accepted.
    NotAccepted,
    /// What is to be unwound has an error step.
    HadError,
}

/// What is known of a token that might come next.
#[derive(Clone, Copy, Debug, PartialEq, Eq)]
pub enum Outlook {
    /// It can't come.
    Unexpected,
    /// It could come.
    Expected,
    /// The limit of positions comes before that shows.
    Untold,
}

/// What a byte says.
fn outlook(told: u8) -> Outlook {
    match told {
        sys::UNEXPECTED => Outlook::Unexpected,
        sys::EXPECTED => Outlook::Expected,
        _ => Outlook::Untold,
    }
}

/// What a status says.
fn refused(status: c_uint) -> Refused {
    match status {
        sys::HALTED => Refused::Halted,
        sys::AT_LIMIT => Refused::AtLimit,
        sys::AT_START => Refused::AtStart,
        sys::NO_TOKEN => Refused::NoToken,
        sys::BAD_TOKEN => Refused::BadToken,
        sys::NOT_ACCEPTED => Refused::NotAccepted,
        sys::HAD_ERROR => Refused::HadError,
        _ => Refused::NoMemory,
    }
}

/// The value where the status is 0.
fn done<T>(status: c_uint, value: T) -> Result<T, Refused> {
    if status == sys::DONE {
        Ok(value)
    } else {
        Err(refused(status))
    }
}

impl Stepper {
    /// The start of a parse of the tokens by the grammar.
    pub fn new(grammar: &[u8], tokens: &[u8]) -> Result<Stepper, Error> {
        let (g, t) = (parts(grammar), parts(tokens));
        let mut made = Stepper {
            handle: sys::Handle {
                at: ptr::null_mut(),
            },
        };
        // SAFETY: each pointer is to as many bytes as its length says, and the handle is closed.
        match unsafe { sys::sulderko_open(g.0, g.1, t.0, t.1, &mut made.handle) } {
            sys::DONE => Ok(made),
            status => Err(error_of(status, grammar, tokens)),
        }
    }

    /// One step forward.
    pub fn step(&mut self) -> Result<Move, Refused> {
        let mut made = Move::default();
        // SAFETY: the handle is as a call left it.
        let status = unsafe { sys::sulderko_step(&mut self.handle, &mut made) };
        done(status, made)
    }

    /// One step or edit back: what is undone.
    pub fn back(&mut self) -> Result<Move, Refused> {
        let mut made = Move::default();
        // SAFETY: the handle is as a call left it.
        let status = unsafe { sys::sulderko_back(&mut self.handle, &mut made) };
        done(status, made)
    }

    /// Puts the token that these bytes spell before the upcoming tokens.
    pub fn insert(&mut self, token: &[u8]) -> Result<Move, Refused> {
        let (mut made, (token, len)) = (Move::default(), parts(token));
        // SAFETY: the handle is as a call left it, and the token has that length.
        let status = unsafe { sys::sulderko_insert(&mut self.handle, token, len, &mut made) };
        done(status, made)
    }

    /// Takes out the first of the upcoming tokens.
    pub fn drop_next(&mut self) -> Result<Move, Refused> {
        let mut made = Move::default();
        // SAFETY: the handle is as a call left it.
        let status = unsafe { sys::sulderko_drop(&mut self.handle, &mut made) };
        done(status, made)
    }

    /// Goes to a position. Where a step is refused, those before it stand.
    pub fn to(&mut self, position: usize) -> Result<(), Refused> {
        // SAFETY: the handle is as a call left it.
        done(unsafe { sys::sulderko_to(&mut self.handle, position) }, ())
    }

    /// Where the parse stands.
    pub fn place(&mut self) -> Place {
        let mut place = Place::default();
        // SAFETY: the handle is as a call left it. It has a session, so nothing is refused.
        unsafe { sys::sulderko_state(&mut self.handle, &mut place) };
        place
    }

    /// What is known of each token as the next one, by the numbers of the table. A token that is
    /// inserted now is shifted after reductions alone, or it isn't; `$end`, number 0, is accepted
    /// so where no token is upcoming.
    pub fn expected(&mut self) -> Result<Vec<Outlook>, Refused> {
        let handle: *mut sys::Handle = &mut self.handle;
        // SAFETY: the handle is as a call left it, and the room has that length.
        let told = handed(|out: *mut u8, room, len| unsafe {
            sys::sulderko_expected(handle, out, room, len)
        });
        Ok(told.map_err(refused)?.into_iter().map(outlook).collect())
    }

    /// The configuration, as `ystep` replies to `show`.
    pub fn show(&mut self) -> Result<Vec<u8>, Refused> {
        let handle: *mut sys::Handle = &mut self.handle;
        // SAFETY: the handle is as a call left it, and the room has that length.
        handed(|out: *mut u8, room, len| unsafe {
            sys::sulderko_show(handle, out.cast(), room, len)
        })
        .map_err(refused)
    }

    /// The trees of the stack, as `ystep` replies to `tree`.
    pub fn tree(&mut self) -> Result<Vec<u8>, Refused> {
        let handle: *mut sys::Handle = &mut self.handle;
        // SAFETY: the handle is as a call left it, and the room has that length.
        handed(|out: *mut u8, room, len| unsafe {
            sys::sulderko_tree(handle, out.cast(), room, len)
        })
        .map_err(refused)
    }
}

impl Drop for Stepper {
    fn drop(&mut self) {
        // SAFETY: the handle is as a call left it, and isn't used again.
        unsafe { sys::sulderko_close(&mut self.handle) };
    }
}

/// Each step, up to the one after which none follows.
impl Iterator for Stepper {
    type Item = Move;

    fn next(&mut self) -> Option<Move> {
        self.step().ok()
    }
}
