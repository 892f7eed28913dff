//! The only unsafe code: the archive's functions, and the memory that only they write.
//!
//! The arrays have their lengths in their types on both sides, so that a slice of a wrong length (refusal 1) cannot be
//! written down here. The declarations are made from the same table as the archive's functions (`tools/boundary.py`).
#![allow(unsafe_code)]

#[path = "declarations.rs"]
mod declarations;

use crate::{Event, HeapId, Value};
use declarations::*;
pub(crate) use declarations::{Memory, Numbers, VERSION};

/// An event's function, with the check of refusal 2 or without it, on the memory `$m`.
macro_rules! lend {
    ($check:expr, $m:ident, $checked:ident, $unchecked:ident $(, $argument:expr)*) => {
        if $check {
            $checked(&mut $m.tasks, &mut $m.objects, &mut $m.places, &mut $m.calls, &mut $m.ids, &mut $m.len $(, $argument)*)
        } else {
            $unchecked(&mut $m.tasks, &mut $m.objects, &mut $m.places, &mut $m.calls, &mut $m.ids, &mut $m.len $(, $argument)*)
        }
    };
}

/// A read's function, with the check of refusal 2 or without it, on the memory `$m`.
macro_rules! read {
    ($check:expr, $m:ident, $checked:ident, $unchecked:ident $(, $argument:expr)*) => {
        if $check {
            $checked(&$m.tasks, &$m.objects, &$m.places, &$m.ids, $m.len $(, $argument)*)
        } else {
            $unchecked(&$m.tasks, &$m.objects, &$m.places, &$m.ids, $m.len $(, $argument)*)
        }
    };
}

/// The memory of a session. It is private to this module, made by `begin` or found sound by `check`, and then written
/// by the archive's functions alone, each of which keeps a store sound (docs/PROOFS.md). So it is sound, and the
/// functions that check nothing may be called.
pub(crate) struct SoundMemory(Box<Memory>);

impl SoundMemory {
    /// A fresh session.
    pub(crate) fn begin() -> SoundMemory {
        same_version();
        let mut memory = blank();
        let m = &mut *memory;
        // SAFETY: five disjoint arrays of the lengths that the function takes; it asks nothing of their contents.
        unsafe { sozgarru_begin(&mut m.tasks, &mut m.objects, &mut m.places, &mut m.ids, &mut m.len) };
        SoundMemory(memory)
    }

    /// Memory from outside, if it is a sound store.
    pub(crate) fn check(memory: Box<Memory>) -> Option<SoundMemory> {
        same_version();
        let m = &*memory;
        // SAFETY: arrays of the lengths that the function reads; it asks nothing of their contents.
        let sound = unsafe { sozgarru_is_sound(&m.tasks, &m.objects, &m.places, &m.ids, m.len) };
        sound.then_some(SoundMemory(memory))
    }

    /// Memory that is not sound, to see that it is refused: only what checks may be called on it.
    #[cfg(test)]
    pub(crate) fn unsound() -> SoundMemory {
        let mut memory = SoundMemory::begin();
        memory.0.objects[0] = 300; // so many objects are never made
        memory
    }

    /// A fresh session whose list of calls holds these words, to see which of them a wait writes.
    #[cfg(test)]
    pub(crate) fn with_calls(words: [u64; 256]) -> SoundMemory {
        let mut memory = SoundMemory::begin();
        memory.0.calls = words;
        memory
    }

    /// What it holds, to read.
    pub(crate) fn memory(&self) -> &Memory {
        &self.0
    }

    /// An event or a read.
    pub(crate) fn event(&mut self, check: bool, event: &Event<'_>) -> Numbers {
        let m = &mut *self.0;
        // SAFETY: six disjoint pieces of memory of the lengths that the functions take; a slice goes as its pointer and
        // its whole length, and is only read; `m` is sound, as those without the check ask (see `SoundMemory`).
        unsafe {
            match event {
                Event::Coroutine(function) => {
                    lend!(check, m, sozgarru_coroutine, sozgarru_coroutine_unchecked, *function)
                }
                Event::Call => lend!(check, m, sozgarru_call, sozgarru_call_unchecked),
                Event::Pending { call, stored: None } => {
                    lend!(check, m, sozgarru_pending, sozgarru_pending_unchecked, *call)
                }
                Event::Pending { call, stored: Some(Value::Plain(number)) } => {
                    lend!(check, m, sozgarru_pending_plain, sozgarru_pending_plain_unchecked, *call, *number)
                }
                Event::Pending { call, stored: Some(Value::List(gather)) } => {
                    lend!(check, m, sozgarru_pending_list, sozgarru_pending_list_unchecked, *call, gather.number())
                }
                Event::Settled(Value::Plain(number)) => {
                    lend!(check, m, sozgarru_settled_plain, sozgarru_settled_plain_unchecked, *number)
                }
                Event::Settled(Value::List(gather)) => {
                    lend!(check, m, sozgarru_settled_list, sozgarru_settled_list_unchecked, gather.number())
                }
                Event::Gather(items) => {
                    lend!(check, m, sozgarru_gather, sozgarru_gather_unchecked, numbers_at(items), items.len())
                }
                Event::Await(object) => lend!(check, m, sozgarru_await, sozgarru_await_unchecked, object.number()),
                Event::Complete(Value::Plain(number)) => {
                    lend!(check, m, sozgarru_complete_plain, sozgarru_complete_plain_unchecked, *number)
                }
                Event::Complete(Value::List(gather)) => {
                    lend!(check, m, sozgarru_complete_list, sozgarru_complete_list_unchecked, gather.number())
                }
                Event::Fail(number) => lend!(check, m, sozgarru_fail, sozgarru_fail_unchecked, *number),
                Event::Results(bytes) => {
                    lend!(check, m, sozgarru_results, sozgarru_results_unchecked, bytes.as_ptr(), bytes.len())
                }
                Event::Resume => lend!(check, m, sozgarru_resume, sozgarru_resume_unchecked),
                Event::Cancel(task) => lend!(check, m, sozgarru_cancel, sozgarru_cancel_unchecked, task.number()),
                Event::Show(object) => self.show(check, *object),
                Event::Eager => self.eager(check),
            }
        }
    }

    /// What an object is and has.
    pub(crate) fn show(&self, check: bool, object: HeapId) -> Numbers {
        let m = &*self.0;
        // SAFETY: as for `event`, and nothing is written.
        unsafe { read!(check, m, sozgarru_show, sozgarru_show_unchecked, object.number()) }
    }

    /// May a call be answered at once?
    pub(crate) fn eager(&self, check: bool) -> Numbers {
        let m = &*self.0;
        // SAFETY: as for `show`.
        unsafe { read!(check, m, sozgarru_eager, sozgarru_eager_unchecked) }
    }

    /// A place of an awaited or completed gather.
    pub(crate) fn place(&self, gather: HeapId, place: u16) -> Numbers {
        let m = &*self.0;
        // SAFETY: as for `show`.
        unsafe { read!(false, m, sozgarru_place, sozgarru_place_unchecked, gather.number(), place) }
    }
}

impl Clone for SoundMemory {
    fn clone(&self) -> SoundMemory {
        let mut memory = blank();
        let (to, from) = (&mut *memory, &*self.0);
        to.tasks.copy_from_slice(&from.tasks);
        to.objects.copy_from_slice(&from.objects);
        to.places.copy_from_slice(&from.places);
        to.calls.copy_from_slice(&from.calls);
        to.ids.copy_from_slice(&from.ids);
        to.len = from.len;
        SoundMemory(memory)
    }
}

/// Memory that is all 0, made where it stays: it would fill a small stack.
pub(crate) fn blank() -> Box<Memory> {
    let mut memory = Box::<Memory>::new_uninit();
    // SAFETY: `Memory` is arrays of whole numbers and a whole number, of which all bytes 0 is one; all its bytes are
    // written.
    unsafe {
        memory.as_mut_ptr().write_bytes(0, 1);
        memory.assume_init()
    }
}

/// A `HeapId` is a `u16` in memory (`repr(transparent)`).
fn numbers_at(items: &[HeapId]) -> *const u16 {
    items.as_ptr().cast()
}

fn same_version() {
    // SAFETY: it takes nothing.
    let linked = unsafe { sozgarru_version() };
    assert_eq!(linked, VERSION, "the linked libsozgarru.a has another version of the layout than this crate");
}
