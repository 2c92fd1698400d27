//! Sulderko's proved core: tables of yacc grammars, verdicts on tokens, sessions of `ystep`.
//!
//! Each function is one call of libsulderko; nothing is decided here. Texts are bytes. Threads may
//! call at once.
//!
//! ```
//! let grammar = b"%token NUM %% list : | list NUM ';' ;";
//! let verdict = sulderko::judge(grammar, b"NUM ';'")?;
//! assert_eq!(verdict.outcome, sulderko::Outcome::Accepted { steps: 5 });
//! # Ok::<(), sulderko::Error>(())
//! ```

mod answers;
mod calls;
mod stepper;

pub use answers::{Array, Conflicts, Error, Fault, Outcome, Sizes, Verdict};
pub use calls::{code, fault, judge, report, session, table, tokens};
pub use stepper::{Move, Outlook, Place, Refused, Stepper};
