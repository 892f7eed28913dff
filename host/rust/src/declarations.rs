//! The functions of the archive, as Rust declares them. Made by tools/boundary.py from its table: change it there.
#![allow(dead_code)]

/// The version of the boundary and of the layout that these declarations are of.
pub(crate) const VERSION: u64 = 1;

/// An answer as document 01's numbers: the refusal (0: accepted), the word, how many values, and the values; those behind them are 0.
#[repr(C)]
#[derive(Clone, Copy, Debug, PartialEq, Eq)]
pub(crate) struct Numbers {
    pub(crate) refusal: u64,
    pub(crate) word: u64,
    pub(crate) count: u64,
    pub(crate) values: [u64; 6],
}

/// The memory of a session (docs/LAYOUT.md), with the list of calls that a wait writes.
pub(crate) struct Memory {
    pub(crate) tasks: [u64; 4104],
    pub(crate) objects: [u64; 2056],
    pub(crate) places: [u64; 2048],
    pub(crate) calls: [u64; 256],
    pub(crate) ids: [u16; 513],
    pub(crate) len: usize,
}

unsafe extern "C" {
    /// The version of this boundary and of the layout: a host compares it with the one that it was built for.
    pub(crate) fn sozgarru_version() -> u64;

    /// A fresh session, whatever the memory held: main runs, and nothing else exists.
    pub(crate) fn sozgarru_begin(
        tasks: &mut [u64; 4104],
        objects: &mut [u64; 2056],
        places: &mut [u64; 2048],
        ids: &mut [u16; 513],
        len: &mut usize,
    );

    /// Is the memory a sound store? For memory that comes from outside, as a snapshot does.
    pub(crate) fn sozgarru_is_sound(
        tasks: &[u64; 4104],
        objects: &[u64; 2056],
        places: &[u64; 2048],
        ids: &[u16; 513],
        len: usize,
    ) -> bool;

    /// The running task makes a coroutine of a function. Made: its object. Refused with 3 the session has ended, 4 no
    /// task runs, 7 a 257th object. Refused also with 2, where the store is not sound.
    pub(crate) fn sozgarru_coroutine(
        tasks: &mut [u64; 4104],
        objects: &mut [u64; 2056],
        places: &mut [u64; 2048],
        calls: &mut [u64; 256],
        ids: &mut [u16; 513],
        len: &mut usize,
        function: u32,
    ) -> Numbers;

    /// The running task calls the host. Call: the call's number. Refused with 3 the session has ended, 4 no task runs,
    /// 8 all numbers are handed out. Refused also with 2, where the store is not sound.
    pub(crate) fn sozgarru_call(
        tasks: &mut [u64; 4104],
        objects: &mut [u64; 2056],
        places: &mut [u64; 2048],
        calls: &mut [u64; 256],
        ids: &mut [u16; 513],
        len: &mut usize,
    ) -> Numbers;

    /// The external future of a call, without a stored result. Made: its object. Refused with 3 the session has ended,
    /// 4 no task runs, 5 the number was not handed out, 6 it is pending already, 7. Refused also with 2, where the
    /// store is not sound.
    pub(crate) fn sozgarru_pending(
        tasks: &mut [u64; 4104],
        objects: &mut [u64; 2056],
        places: &mut [u64; 2048],
        calls: &mut [u64; 256],
        ids: &mut [u16; 513],
        len: &mut usize,
        call: u32,
    ) -> Numbers;

    /// The external future of a call, with a stored plain value, which replaces the host's. Made: its object. Refused
    /// with 3 the session has ended, 4 no task runs, 5, 6, 7. Refused also with 2, where the store is not sound.
    pub(crate) fn sozgarru_pending_plain(
        tasks: &mut [u64; 4104],
        objects: &mut [u64; 2056],
        places: &mut [u64; 2048],
        calls: &mut [u64; 256],
        ids: &mut [u16; 513],
        len: &mut usize,
        call: u32,
        number: u64,
    ) -> Numbers;

    /// The external future of a call, with the list of a gather stored. Made: its object. Refused with 3 the session
    /// has ended, 4 no task runs, 5 also: the gather is not completed, 6, 7. Refused also with 2, where the store is
    /// not sound.
    pub(crate) fn sozgarru_pending_list(
        tasks: &mut [u64; 4104],
        objects: &mut [u64; 2056],
        places: &mut [u64; 2048],
        calls: &mut [u64; 256],
        ids: &mut [u16; 513],
        len: &mut usize,
        call: u32,
        gather: u16,
    ) -> Numbers;

    /// An external future that has a plain value already; it is handed a call number too. Made: its object. Refused
    /// with 3 the session has ended, 4 no task runs, 7, 8. Refused also with 2, where the store is not sound.
    pub(crate) fn sozgarru_settled_plain(
        tasks: &mut [u64; 4104],
        objects: &mut [u64; 2056],
        places: &mut [u64; 2048],
        calls: &mut [u64; 256],
        ids: &mut [u16; 513],
        len: &mut usize,
        number: u64,
    ) -> Numbers;

    /// An external future that has the list of a gather already. Made: its object. Refused with 3 the session has
    /// ended, 4 no task runs, 5 the gather is not completed, 7, 8. Refused also with 2, where the store is not sound.
    pub(crate) fn sozgarru_settled_list(
        tasks: &mut [u64; 4104],
        objects: &mut [u64; 2056],
        places: &mut [u64; 2048],
        calls: &mut [u64; 256],
        ids: &mut [u16; 513],
        len: &mut usize,
        gather: u16,
    ) -> Numbers;

    /// A gather of objects, by their numbers, however many. Made: its object. Refused with 3 the session has ended, 4
    /// no task runs, 5 an object is not made, 7 (also over 32 items, over 512 places). Refused also with 2, where the
    /// store is not sound.
    pub(crate) fn sozgarru_gather(
        tasks: &mut [u64; 4104],
        objects: &mut [u64; 2056],
        places: &mut [u64; 2048],
        calls: &mut [u64; 256],
        ids: &mut [u16; 513],
        len: &mut usize,
        items: *const u16,
        items_count: usize,
    ) -> Numbers;

    /// The running task awaits an object. Runs or waits, and the commit steps. Refused with 3 the session has ended, 4
    /// no task runs, 5 the object is not made. Refused also with 2, where the store is not sound.
    pub(crate) fn sozgarru_await(
        tasks: &mut [u64; 4104],
        objects: &mut [u64; 2056],
        places: &mut [u64; 2048],
        calls: &mut [u64; 256],
        ids: &mut [u16; 513],
        len: &mut usize,
        object: u16,
    ) -> Numbers;

    /// The running task returns a plain value. Runs or waits; of main: finished. Refused with 3 the session has ended,
    /// 4 no task runs. Refused also with 2, where the store is not sound.
    pub(crate) fn sozgarru_complete_plain(
        tasks: &mut [u64; 4104],
        objects: &mut [u64; 2056],
        places: &mut [u64; 2048],
        calls: &mut [u64; 256],
        ids: &mut [u16; 513],
        len: &mut usize,
        number: u64,
    ) -> Numbers;

    /// The running task returns the list of a gather. Runs or waits; of main: finished. Refused with 3 the session has
    /// ended, 4 no task runs, 5 the gather is not completed. Refused also with 2, where the store is not sound.
    pub(crate) fn sozgarru_complete_list(
        tasks: &mut [u64; 4104],
        objects: &mut [u64; 2056],
        places: &mut [u64; 2048],
        calls: &mut [u64; 256],
        ids: &mut [u16; 513],
        len: &mut usize,
        gather: u16,
    ) -> Numbers;

    /// The running task raises the error script n. Runs or waits; of main: finished. Refused with 3 the session has
    /// ended, 4 no task runs. Refused also with 2, where the store is not sound.
    pub(crate) fn sozgarru_fail(
        tasks: &mut [u64; 4104],
        objects: &mut [u64; 2056],
        places: &mut [u64; 2048],
        calls: &mut [u64; 256],
        ids: &mut [u16; 513],
        len: &mut usize,
        number: u32,
    ) -> Numbers;

    /// The host answers calls: 14 bytes each (call 4, kind 1, tag 1, value 8), a rest of 1 to 13 bytes is not read.
    /// Tasks woken go to the queue's back, lowest first. Done. Refused with 3 the session has ended, 5 a list of a
    /// gather not completed, 10 over 64 results or one that is none; then nothing is applied. Refused also with 2,
    /// where the store is not sound.
    pub(crate) fn sozgarru_results(
        tasks: &mut [u64; 4104],
        objects: &mut [u64; 2056],
        places: &mut [u64; 2048],
        calls: &mut [u64; 256],
        ids: &mut [u16; 513],
        len: &mut usize,
        results: *const u8,
        results_count: usize,
    ) -> Numbers;

    /// The host hands control back. Runs; waits, where nothing is ready; stalled, where no call is pending either.
    /// Refused with 3 the session has ended, 4 a task runs. Refused also with 2, where the store is not sound.
    pub(crate) fn sozgarru_resume(
        tasks: &mut [u64; 4104],
        objects: &mut [u64; 2056],
        places: &mut [u64; 2048],
        calls: &mut [u64; 256],
        ids: &mut [u16; 513],
        len: &mut usize,
    ) -> Numbers;

    /// The operator cancels a task, and the tasks below the gather that it waits for. Done, with the number of removed
    /// tasks that stood in the ready queue. Refused with 3 the session has ended, 4 a task runs, 5 the task is not
    /// live, 9 it is main. Refused also with 2, where the store is not sound.
    pub(crate) fn sozgarru_cancel(
        tasks: &mut [u64; 4104],
        objects: &mut [u64; 2056],
        places: &mut [u64; 2048],
        calls: &mut [u64; 256],
        ids: &mut [u16; 513],
        len: &mut usize,
        task: u16,
    ) -> Numbers;

    /// May the host answer a call at once: is no task ready and no call pending? Eager: 1 yes, 0 no. Refused also with
    /// 2, where the store is not sound.
    pub(crate) fn sozgarru_eager(
        tasks: &[u64; 4104],
        objects: &[u64; 2056],
        places: &[u64; 2048],
        ids: &[u16; 513],
        len: usize,
    ) -> Numbers;

    /// What an object is and has. Shows: sort, state, and what document 01 lists; of an awaited or completed gather how
    /// many places it has. Refused with 5 the object is not made. Refused also with 2, where the store is not sound.
    pub(crate) fn sozgarru_show(
        tasks: &[u64; 4104],
        objects: &[u64; 2056],
        places: &[u64; 2048],
        ids: &[u16; 513],
        len: usize,
        object: u16,
    ) -> Numbers;

    /// A place of an awaited or completed gather, from 0. Shows: 0 where it is open; 1 and the value's tag and number.
    /// Refused with 5 the object is not made, or shows no such place. Refused also with 2, where the store is not
    /// sound.
    pub(crate) fn sozgarru_place(
        tasks: &[u64; 4104],
        objects: &[u64; 2056],
        places: &[u64; 2048],
        ids: &[u16; 513],
        len: usize,
        object: u16,
        place: u16,
    ) -> Numbers;

    /// The running task makes a coroutine of a function. Made: its object. Refused with 3 the session has ended, 4 no
    /// task runs, 7 a 257th object. The caller owes a sound store: nothing is checked.
    pub(crate) fn sozgarru_coroutine_unchecked(
        tasks: &mut [u64; 4104],
        objects: &mut [u64; 2056],
        places: &mut [u64; 2048],
        calls: &mut [u64; 256],
        ids: &mut [u16; 513],
        len: &mut usize,
        function: u32,
    ) -> Numbers;

    /// The running task calls the host. Call: the call's number. Refused with 3 the session has ended, 4 no task runs,
    /// 8 all numbers are handed out. The caller owes a sound store: nothing is checked.
    pub(crate) fn sozgarru_call_unchecked(
        tasks: &mut [u64; 4104],
        objects: &mut [u64; 2056],
        places: &mut [u64; 2048],
        calls: &mut [u64; 256],
        ids: &mut [u16; 513],
        len: &mut usize,
    ) -> Numbers;

    /// The external future of a call, without a stored result. Made: its object. Refused with 3 the session has ended,
    /// 4 no task runs, 5 the number was not handed out, 6 it is pending already, 7. The caller owes a sound store:
    /// nothing is checked.
    pub(crate) fn sozgarru_pending_unchecked(
        tasks: &mut [u64; 4104],
        objects: &mut [u64; 2056],
        places: &mut [u64; 2048],
        calls: &mut [u64; 256],
        ids: &mut [u16; 513],
        len: &mut usize,
        call: u32,
    ) -> Numbers;

    /// The external future of a call, with a stored plain value, which replaces the host's. Made: its object. Refused
    /// with 3 the session has ended, 4 no task runs, 5, 6, 7. The caller owes a sound store: nothing is checked.
    pub(crate) fn sozgarru_pending_plain_unchecked(
        tasks: &mut [u64; 4104],
        objects: &mut [u64; 2056],
        places: &mut [u64; 2048],
        calls: &mut [u64; 256],
        ids: &mut [u16; 513],
        len: &mut usize,
        call: u32,
        number: u64,
    ) -> Numbers;

    /// The external future of a call, with the list of a gather stored. Made: its object. Refused with 3 the session
    /// has ended, 4 no task runs, 5 also: the gather is not completed, 6, 7. The caller owes a sound store: nothing is
    /// checked.
    pub(crate) fn sozgarru_pending_list_unchecked(
        tasks: &mut [u64; 4104],
        objects: &mut [u64; 2056],
        places: &mut [u64; 2048],
        calls: &mut [u64; 256],
        ids: &mut [u16; 513],
        len: &mut usize,
        call: u32,
        gather: u16,
    ) -> Numbers;

    /// An external future that has a plain value already; it is handed a call number too. Made: its object. Refused
    /// with 3 the session has ended, 4 no task runs, 7, 8. The caller owes a sound store: nothing is checked.
    pub(crate) fn sozgarru_settled_plain_unchecked(
        tasks: &mut [u64; 4104],
        objects: &mut [u64; 2056],
        places: &mut [u64; 2048],
        calls: &mut [u64; 256],
        ids: &mut [u16; 513],
        len: &mut usize,
        number: u64,
    ) -> Numbers;

    /// An external future that has the list of a gather already. Made: its object. Refused with 3 the session has
    /// ended, 4 no task runs, 5 the gather is not completed, 7, 8. The caller owes a sound store: nothing is checked.
    pub(crate) fn sozgarru_settled_list_unchecked(
        tasks: &mut [u64; 4104],
        objects: &mut [u64; 2056],
        places: &mut [u64; 2048],
        calls: &mut [u64; 256],
        ids: &mut [u16; 513],
        len: &mut usize,
        gather: u16,
    ) -> Numbers;

    /// A gather of objects, by their numbers, however many. Made: its object. Refused with 3 the session has ended, 4
    /// no task runs, 5 an object is not made, 7 (also over 32 items, over 512 places). The caller owes a sound store:
    /// nothing is checked.
    pub(crate) fn sozgarru_gather_unchecked(
        tasks: &mut [u64; 4104],
        objects: &mut [u64; 2056],
        places: &mut [u64; 2048],
        calls: &mut [u64; 256],
        ids: &mut [u16; 513],
        len: &mut usize,
        items: *const u16,
        items_count: usize,
    ) -> Numbers;

    /// The running task awaits an object. Runs or waits, and the commit steps. Refused with 3 the session has ended, 4
    /// no task runs, 5 the object is not made. The caller owes a sound store: nothing is checked.
    pub(crate) fn sozgarru_await_unchecked(
        tasks: &mut [u64; 4104],
        objects: &mut [u64; 2056],
        places: &mut [u64; 2048],
        calls: &mut [u64; 256],
        ids: &mut [u16; 513],
        len: &mut usize,
        object: u16,
    ) -> Numbers;

    /// The running task returns a plain value. Runs or waits; of main: finished. Refused with 3 the session has ended,
    /// 4 no task runs. The caller owes a sound store: nothing is checked.
    pub(crate) fn sozgarru_complete_plain_unchecked(
        tasks: &mut [u64; 4104],
        objects: &mut [u64; 2056],
        places: &mut [u64; 2048],
        calls: &mut [u64; 256],
        ids: &mut [u16; 513],
        len: &mut usize,
        number: u64,
    ) -> Numbers;

    /// The running task returns the list of a gather. Runs or waits; of main: finished. Refused with 3 the session has
    /// ended, 4 no task runs, 5 the gather is not completed. The caller owes a sound store: nothing is checked.
    pub(crate) fn sozgarru_complete_list_unchecked(
        tasks: &mut [u64; 4104],
        objects: &mut [u64; 2056],
        places: &mut [u64; 2048],
        calls: &mut [u64; 256],
        ids: &mut [u16; 513],
        len: &mut usize,
        gather: u16,
    ) -> Numbers;

    /// The running task raises the error script n. Runs or waits; of main: finished. Refused with 3 the session has
    /// ended, 4 no task runs. The caller owes a sound store: nothing is checked.
    pub(crate) fn sozgarru_fail_unchecked(
        tasks: &mut [u64; 4104],
        objects: &mut [u64; 2056],
        places: &mut [u64; 2048],
        calls: &mut [u64; 256],
        ids: &mut [u16; 513],
        len: &mut usize,
        number: u32,
    ) -> Numbers;

    /// The host answers calls: 14 bytes each (call 4, kind 1, tag 1, value 8), a rest of 1 to 13 bytes is not read.
    /// Tasks woken go to the queue's back, lowest first. Done. Refused with 3 the session has ended, 5 a list of a
    /// gather not completed, 10 over 64 results or one that is none; then nothing is applied. The caller owes a sound
    /// store: nothing is checked.
    pub(crate) fn sozgarru_results_unchecked(
        tasks: &mut [u64; 4104],
        objects: &mut [u64; 2056],
        places: &mut [u64; 2048],
        calls: &mut [u64; 256],
        ids: &mut [u16; 513],
        len: &mut usize,
        results: *const u8,
        results_count: usize,
    ) -> Numbers;

    /// The host hands control back. Runs; waits, where nothing is ready; stalled, where no call is pending either.
    /// Refused with 3 the session has ended, 4 a task runs. The caller owes a sound store: nothing is checked.
    pub(crate) fn sozgarru_resume_unchecked(
        tasks: &mut [u64; 4104],
        objects: &mut [u64; 2056],
        places: &mut [u64; 2048],
        calls: &mut [u64; 256],
        ids: &mut [u16; 513],
        len: &mut usize,
    ) -> Numbers;

    /// The operator cancels a task, and the tasks below the gather that it waits for. Done, with the number of removed
    /// tasks that stood in the ready queue. Refused with 3 the session has ended, 4 a task runs, 5 the task is not
    /// live, 9 it is main. The caller owes a sound store: nothing is checked.
    pub(crate) fn sozgarru_cancel_unchecked(
        tasks: &mut [u64; 4104],
        objects: &mut [u64; 2056],
        places: &mut [u64; 2048],
        calls: &mut [u64; 256],
        ids: &mut [u16; 513],
        len: &mut usize,
        task: u16,
    ) -> Numbers;

    /// May the host answer a call at once: is no task ready and no call pending? Eager: 1 yes, 0 no. The caller owes a
    /// sound store: nothing is checked.
    pub(crate) fn sozgarru_eager_unchecked(
        tasks: &[u64; 4104],
        objects: &[u64; 2056],
        places: &[u64; 2048],
        ids: &[u16; 513],
        len: usize,
    ) -> Numbers;

    /// What an object is and has. Shows: sort, state, and what document 01 lists; of an awaited or completed gather how
    /// many places it has. Refused with 5 the object is not made. The caller owes a sound store: nothing is checked.
    pub(crate) fn sozgarru_show_unchecked(
        tasks: &[u64; 4104],
        objects: &[u64; 2056],
        places: &[u64; 2048],
        ids: &[u16; 513],
        len: usize,
        object: u16,
    ) -> Numbers;

    /// A place of an awaited or completed gather, from 0. Shows: 0 where it is open; 1 and the value's tag and number.
    /// Refused with 5 the object is not made, or shows no such place. The caller owes a sound store: nothing is
    /// checked.
    pub(crate) fn sozgarru_place_unchecked(
        tasks: &[u64; 4104],
        objects: &[u64; 2056],
        places: &[u64; 2048],
        ids: &[u16; 513],
        len: usize,
        object: u16,
        place: u16,
    ) -> Numbers;
}
