//! A session: one method an event.
use crate::raw::{Numbers, SoundMemory};
use crate::{
    numbers, Answer, Awaited, CallId, Event, HeapId, Outcome, Refusal, Resumed, Shown, TaskEnd, TaskId, Value,
};
use std::borrow::Cow;
use std::fmt;

/// One projection of one member: tasks, calls, gathers, and what runs next.
///
/// It owns its memory (67 KB on the heap), so that nobody else writes into it and no event has to check it. A refused
/// event changes nothing, and the session goes on. [`Clone`] gives a second session that stands where this one does.
///
/// | moment | events | how it is left |
/// |---|---|---|
/// | a task runs | the makings, [`await_object`](Session::await_object), [`complete`](Session::complete), [`fail`](Session::fail) | an answer [`Control::Waits`](crate::Control::Waits); main's end |
/// | the host waits | [`resume`](Session::resume), [`cancel`](Session::cancel) | an answer [`Control::Runs`](crate::Control::Runs) |
/// | both | [`results`](Session::results) | |
/// | any, also the end | the reads [`show`](Session::show), [`eager`](Session::eager) | |
#[derive(Clone)]
pub struct Session {
    pub(crate) memory: SoundMemory,
    trace: Option<Vec<u8>>,
}

impl Session {
    /// A fresh session: main runs, and nothing else exists.
    ///
    /// # Panics
    /// If the linked archive has another version of the layout than this crate.
    pub fn new() -> Session {
        Session::of(SoundMemory::begin())
    }

    /// A fresh session that keeps its events as records: see [`Session::trace`].
    ///
    /// # Panics
    /// As [`Session::new`].
    pub fn with_trace() -> Session {
        let mut session = Session::new();
        session.trace = Some(Vec::new());
        session
    }

    pub(crate) fn of(memory: SoundMemory) -> Session {
        Session { memory, trace: None }
    }

    /// The events since [`Session::with_trace`] as document 01's records, refused ones too: a file that `drive` replays
    /// and that `tools/records.py text` prints. Reads, which change nothing, are not in it. Nor is an event of over 255
    /// items or results, which is refused and has no record ([`NoRecord`](crate::NoRecord)): the records behind it have
    /// lower numbers than their events. Nothing without `with_trace`.
    ///
    /// ```
    /// let mut s = sozgarru::Session::with_trace();
    /// s.coroutine(7)?;
    /// assert_eq!(s.trace(), [0xC3, 0x59, 1, 7, 0, 0, 0]);
    /// # Ok::<(), sozgarru::Refusal>(())
    /// ```
    pub fn trace(&self) -> &[u8] {
        self.trace.as_deref().unwrap_or_default()
    }

    /// Any event or read. The memory is this session's own and sound, so it is not checked.
    ///
    /// # Errors
    /// Refusals 3 to 10.
    pub fn dispatch(&mut self, event: &Event<'_>) -> Result<Answer, Refusal> {
        self.go(false, event)
    }

    /// The same, with the check that the memory is a sound store, which each event pays for (docs/SPEED.md). For a host
    /// that does not trust its own process.
    ///
    /// # Errors
    /// Refusals 3 to 10, and 2 where something else in the process has written into the session's memory.
    pub fn dispatch_checked(&mut self, event: &Event<'_>) -> Result<Answer, Refusal> {
        self.go(true, event)
    }

    fn go(&mut self, check: bool, event: &Event<'_>) -> Result<Answer, Refusal> {
        if let Some(trace) = self.trace.as_mut().filter(|_| !event.is_read()) {
            // an event that has no record is refused: without it the records leave the same session
            let _ = event.write_record(trace);
        }
        let given = self.memory.event(check, event);
        self.answer(&given, event)
    }

    /// The numbers that an event gave, as its answer.
    fn answer(&self, given: &Numbers, event: &Event<'_>) -> Result<Answer, Refusal> {
        numbers::answer(given, &self.memory.memory().calls, |place| match event {
            Event::Show(gather) => self.memory.place(*gather, place),
            other => unreachable!("{other:?} shows nothing"),
        })
    }

    fn made(&mut self, event: &Event<'_>) -> Result<HeapId, Refusal> {
        match self.dispatch(event)? {
            Answer::Made(object) => Ok(object),
            other => unexpected(event, &other),
        }
    }

    fn task_end(&mut self, event: &Event<'_>) -> Result<TaskEnd, Refusal> {
        match self.dispatch(event)? {
            Answer::Control(control) => Ok(TaskEnd::Control(control)),
            Answer::Finished(end) => Ok(TaskEnd::Finished(end)),
            other => unexpected(event, &other),
        }
    }

    /// The running task makes a coroutine: `function` is the host's number for what it runs.
    ///
    /// # Errors
    /// [`Refusal::Ended`], [`Refusal::WrongMoment`], [`Refusal::NoRoom`].
    pub fn coroutine(&mut self, function: u32) -> Result<HeapId, Refusal> {
        self.made(&Event::Coroutine(function))
    }

    /// The running task calls the host: the number by which the host will answer.
    ///
    /// # Errors
    /// [`Refusal::Ended`], [`Refusal::WrongMoment`], [`Refusal::NoCallNumber`].
    pub fn call(&mut self) -> Result<CallId, Refusal> {
        match self.dispatch(&Event::Call)? {
            Answer::Call(call) => Ok(call),
            other => unexpected(&Event::Call, &other),
        }
    }

    /// The external future of a call. A `stored` value replaces the one that the host will return.
    ///
    /// # Errors
    /// [`Refusal::Ended`], [`Refusal::WrongMoment`], [`Refusal::Unknown`], [`Refusal::PendingAlready`],
    /// [`Refusal::NoRoom`].
    pub fn pending(&mut self, call: CallId, stored: Option<Value>) -> Result<HeapId, Refusal> {
        self.made(&Event::Pending { call: call.number(), stored })
    }

    /// An external future that has its value already. It is handed a call number too.
    ///
    /// # Errors
    /// [`Refusal::Ended`], [`Refusal::WrongMoment`], [`Refusal::Unknown`], [`Refusal::NoRoom`],
    /// [`Refusal::NoCallNumber`].
    pub fn settled(&mut self, value: Value) -> Result<HeapId, Refusal> {
        self.made(&Event::Settled(value))
    }

    /// A gather of these objects: its result has their values by place. An object may stand in several places.
    ///
    /// # Errors
    /// [`Refusal::Ended`], [`Refusal::WrongMoment`], [`Refusal::Unknown`], [`Refusal::NoRoom`].
    pub fn gather(&mut self, items: &[HeapId]) -> Result<HeapId, Refusal> {
        self.made(&Event::Gather(Cow::Borrowed(items)))
    }

    /// The running task awaits an object. Who runs next may be another task.
    ///
    /// # Errors
    /// [`Refusal::Ended`], [`Refusal::WrongMoment`], [`Refusal::Unknown`].
    pub fn await_object(&mut self, object: HeapId) -> Result<Awaited, Refusal> {
        let event = Event::Await(object);
        match self.dispatch(&event)? {
            Answer::Awaited(awaited) => Ok(awaited),
            other => unexpected(&event, &other),
        }
    }

    /// The running task returns a value. (The end of a coroutine that runs inline is no event.)
    ///
    /// # Errors
    /// [`Refusal::Ended`], [`Refusal::WrongMoment`], [`Refusal::Unknown`].
    pub fn complete(&mut self, value: Value) -> Result<TaskEnd, Refusal> {
        self.task_end(&Event::Complete(value))
    }

    /// The running task raises the script's error `number`.
    ///
    /// # Errors
    /// [`Refusal::Ended`], [`Refusal::WrongMoment`].
    pub fn fail(&mut self, number: u32) -> Result<TaskEnd, Refusal> {
        self.task_end(&Event::Fail(number))
    }

    /// The host answers calls, at most 64 at a time. A call that is not pending is ignored: a late, a doubled or an
    /// unknown reply changes nothing. The tasks that they wake go on lowest first, in whatever order the replies stand,
    /// behind those that were ready before.
    ///
    /// # Errors
    /// [`Refusal::Ended`], [`Refusal::Unknown`], [`Refusal::BadResults`]; then none of them is applied.
    pub fn results(&mut self, results: &[(CallId, Outcome)]) -> Result<(), Refusal> {
        let event = Event::results(results);
        match self.dispatch(&event)? {
            Answer::Done => Ok(()),
            other => unexpected(&event, &other),
        }
    }

    /// The host answers one call.
    ///
    /// # Errors
    /// As [`Session::results`].
    pub fn result(&mut self, call: CallId, outcome: Outcome) -> Result<(), Refusal> {
        self.results(&[(call, outcome)])
    }

    /// The host, which waited, hands control back.
    ///
    /// # Errors
    /// [`Refusal::Ended`], [`Refusal::WrongMoment`].
    pub fn resume(&mut self) -> Result<Resumed, Refusal> {
        match self.dispatch(&Event::Resume)? {
            Answer::Control(control) => Ok(Resumed::Control(control)),
            Answer::Stalled => Ok(Resumed::Stalled),
            other => unexpected(&Event::Resume, &other),
        }
    }

    /// The operator cancels a task while the host waits: it goes, with the live tasks below the gather that it waits
    /// for. The answer is how many of them stood in the ready queue: a result had woken them, and the next
    /// [`resume`](Session::resume) would have come to them. 0 says that all of them still waited.
    ///
    /// Nothing else changes. The ready tasks that stay keep their order; the gather to which the task belongs, and what
    /// the removed tasks awaited, stay awaited; their calls stay pending, and may be answered.
    ///
    /// ```
    /// # use sozgarru::{Outcome, Refusal, Session, TaskId, Value};
    /// # fn main() -> Result<(), Refusal> {
    /// let mut s = Session::new();
    /// let branch = s.coroutine(7)?;
    /// let call = s.call()?;
    /// let rate = s.pending(call, None)?;
    /// let gather = s.gather(&[branch])?;
    /// s.await_object(gather)?; // main waits for task 1,
    /// s.await_object(rate)?; // and task 1 for its call
    /// s.result(call, Outcome::Return(Value::Plain(5)))?; // task 1 is ready
    /// assert_eq!(s.cancel(TaskId::new(1)), Ok(1));
    /// assert_eq!(s.cancel(TaskId::new(1)), Err(Refusal::Unknown)); // it is gone
    /// assert_eq!(s.cancel(TaskId::MAIN), Err(Refusal::CancelOfMain));
    /// # Ok(())
    /// # }
    /// ```
    ///
    /// # Errors
    /// [`Refusal::Ended`], [`Refusal::WrongMoment`] while a task runs, [`Refusal::Unknown`] where the task is not live,
    /// [`Refusal::CancelOfMain`].
    pub fn cancel(&mut self, task: TaskId) -> Result<u16, Refusal> {
        let event = Event::Cancel(task);
        match self.dispatch(&event)? {
            Answer::Cancelled(queued) => Ok(queued),
            other => unexpected(&event, &other),
        }
    }

    /// What an object is and has, at any moment, also after the end.
    ///
    /// # Errors
    /// [`Refusal::Unknown`], where it is not made.
    pub fn show(&self, object: HeapId) -> Result<Shown, Refusal> {
        let event = Event::Show(object);
        match self.answer(&self.memory.show(false, object), &event)? {
            Answer::Shows(shown) => Ok(shown),
            other => unexpected(&event, &other),
        }
    }

    /// May a call be answered at once: is no task ready and no call pending?
    pub fn eager(&self) -> bool {
        self.answer(&self.memory.eager(false), &Event::Eager) == Ok(Answer::Eager(true))
    }
}

impl Default for Session {
    fn default() -> Session {
        Session::new()
    }
}

impl fmt::Debug for Session {
    fn fmt(&self, f: &mut fmt::Formatter<'_>) -> fmt::Result {
        f.debug_struct("Session").finish_non_exhaustive()
    }
}

/// An answer of a sort that the contract of this event excludes.
fn unexpected(event: &Event<'_>, answer: &Answer) -> ! {
    panic!("{event:?} answered {answer}: the linked libsozgarru.a is not the one of this crate's declarations")
}

#[cfg(test)]
mod tests {
    use super::*;

    /// What `dispatch_checked` calls does check: no session of a host can show it, since its memory is sound.
    #[test]
    fn every_checked_event_refuses_memory_that_is_not_sound() {
        let values = [Value::Plain(1), Value::List(HeapId::new(0))];
        let mut events = vec![Event::Coroutine(1), Event::Call, Event::Pending { call: 0, stored: None }];
        events.extend(values.map(|value| Event::Pending { call: 0, stored: Some(value) }));
        events.extend(values.map(Event::Settled));
        events.extend(values.map(Event::Complete));
        events.extend([
            Event::Gather(Cow::Borrowed(&[])),
            Event::Await(HeapId::new(0)),
            Event::Fail(1),
            Event::results(&[]),
        ]);
        events.extend([Event::Resume, Event::Cancel(TaskId::new(1)), Event::Show(HeapId::new(0)), Event::Eager]);
        let mut session = Session::of(SoundMemory::unsound());
        let before = session.snapshot();
        for event in events {
            assert_eq!(session.dispatch_checked(&event), Err(Refusal::Unsound), "{event:?}");
        }
        assert!(session.snapshot() == before, "a refused event changes nothing");
        assert_eq!(Session::restore(&before).err(), Some(crate::NotASession::Unsound));
    }

    /// A wait writes its calls, ascending, at the list's front; the words behind them are as they were lent, or as the
    /// waits before it left them. The calls are made pending in steps of seven, or descending where seven divides their
    /// number, and answered one by one, main's last.
    #[test]
    fn a_wait_writes_its_calls_and_no_word_behind_them() -> Result<(), Refusal> {
        for made in 1..=256_usize {
            let mut list = std::array::from_fn(|word| 1_000 + word as u64);
            let mut session = Session::of(SoundMemory::with_calls(list));
            let calls = (0..made).map(|_| session.call()).collect::<Result<Vec<_>, _>>()?;
            let nth = |i| if made % 7 == 0 { made - 1 - i } else { i * 7 % made };
            let order: Vec<CallId> = (0..made).map(|i| calls[nth(i)]).collect();
            let objects = order.iter().map(|call| session.pending(*call, None)).collect::<Result<Vec<_>, _>>()?;
            session.await_object(objects[0])?;
            let mut left = calls;
            for answered in order[1..].iter().chain(&order[..1]) {
                for (word, call) in list.iter_mut().zip(&left) {
                    *word = call.number().into();
                }
                assert_eq!(session.memory.memory().calls, list, "{} of {made} calls are pending", left.len());
                session.result(*answered, Outcome::Return(Value::Plain(1)))?;
                session.resume()?;
                left.retain(|call| call != answered);
            }
            assert_eq!(session.memory.memory().calls, list, "main runs: no wait was written");
        }
        Ok(())
    }
}
