//! A proved scheduler for pension scripts: tasks, external calls, `gather`.
//!
//! A script host asks a [`Session`] what to run next; a member's projection is one session. The work is done by
//! `libsozgarru.a`, a library in Rattle each function of which is proved to meet its contract. This crate is the Rust
//! side of it, and is tested, not proved. It has no dependencies, keeps no global state, starts no thread and does no
//! input or output: a session is plain memory, and any number of them may live at once.
//!
//! The worked example of document 01, with its lines:
//!
//! ```
//! use sozgarru::{Outcome, Session, Shown, Value};
//!
//! # fn main() -> Result<(), sozgarru::Refusal> {
//! let mut s = Session::new();
//! let coroutine = s.coroutine(7)?;                       // 1 made 0: a coroutine of the script's function 7
//! let call = s.call()?;                                  // 2 call 0: a call to the rates service
//! let rate = s.pending(call, None)?;                     // 3 made 1: its future
//! let gather = s.gather(&[coroutine, rate, coroutine])?; // 4 made 2
//!
//! let awaited = s.await_object(gather)?;
//! assert_eq!(awaited.to_string(), "runs 1 start 0 7 steps 1");
//! let end = s.complete(Value::Plain(40))?;               // task 1 returns 40; the rate is not there
//! assert_eq!(end.to_string(), "waits 1 0");
//!
//! s.result(call, Outcome::Return(Value::Plain(5)))?;     // 7 done
//! let resumed = s.resume()?;
//! assert_eq!(resumed.to_string(), "runs 0 value list 2");
//! let Shown::GatherCompleted(values) = s.show(gather)? else { panic!("main goes on") };
//! assert_eq!(values, [Value::Plain(40), Value::Plain(5), Value::Plain(40)]);
//!
//! assert_eq!(s.complete(Value::Plain(9))?.to_string(), "finished plain 9");
//! # Ok(())
//! # }
//! ```
//!
//! # A host's loop
//!
//! The host runs the task that an answer names and tells the session what it does: it makes objects, awaits one,
//! returns or raises. While nothing is ready ([`Control::Waits`]) it answers calls and resumes. `examples/common` is
//! such a loop, `examples/projection.rs` a member's projection by it.
//!
//! # Refusals
//!
//! A method answers, or refuses with a row of document 01's table ([`Refusal`]) and changes nothing. The store of a
//! session is its own: refusals 1 and 2, a wrong length and a store that is not sound, never come, and no event pays
//! for the check.
//!
//! ```compile_fail,E0616
//! let session = sozgarru::Session::new();
//! let store = &session.memory; // private: only the library writes a session's store
//! ```
//!
//! # Threads and stack
//!
//! A session is [`Send`] and [`Sync`]; one thread at a time changes it. 256 KB of stack are enough for any event
//! (docs/HOST.md, "Stack"); a Rust thread has 2 MB where nothing else is said.
//!
//! ```
//! fn may_move_to_another_thread<T: Send + Sync + 'static>() {}
//! may_move_to_another_thread::<sozgarru::Session>();
//! ```
#![deny(unsafe_code)]
#![warn(missing_docs)]

mod answer;
mod checksum;
mod event;
mod numbers;
mod raw;
mod session;
mod snapshot;

pub use answer::{
    Answer, Awaited, CallId, Control, CoroutineState, Error, HeapId, How, Line, NoRefusal, Outcome, Refusal, Resumed,
    Shown, TaskEnd, TaskId, Value,
};
pub use event::{Event, NoRecord};
pub use session::Session;
pub use snapshot::NotASession;
