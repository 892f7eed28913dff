//! The worked example, refusals, traces, threads: what a host sees of a session.
mod common;

use sozgarru::{
    Answer, Awaited, CallId, Control, CoroutineState, Error, Event, HeapId, How, Outcome, Refusal, Resumed, Session,
    Shown, TaskEnd, TaskId, Value,
};
use std::thread;

const LINES: [&str; 10] = [
    "made 0",
    "call 0",
    "made 1",
    "made 2",
    "runs 1 start 0 7 steps 1",
    "waits 1 0",
    "done",
    "runs 0 value list 2",
    "shows gather completed 3 plain 40 plain 5 plain 40",
    "finished plain 9",
];

/// Document 01's worked example.
fn worked_example() -> Vec<Event<'static>> {
    let [zero, one, two] = [0, 1, 2].map(HeapId::new);
    vec![
        Event::Coroutine(7),
        Event::Call,
        Event::Pending { call: 0, stored: None },
        Event::Gather(vec![zero, one, zero].into()),
        Event::Await(two),
        Event::Complete(Value::Plain(40)),
        Event::results(&[(CallId::new(0), Outcome::Return(Value::Plain(5)))]),
        Event::Resume,
        Event::Show(two),
        Event::Complete(Value::Plain(9)),
    ]
}

#[test]
fn the_worked_example_by_events() {
    for checked in [false, true] {
        let mut session = Session::new();
        for (event, wanted) in worked_example().iter().zip(LINES) {
            assert_eq!(common::line(&mut session, checked, Some(event)), wanted);
        }
    }
}

#[test]
fn the_worked_example_by_methods() -> Result<(), Refusal> {
    let mut s = Session::new();
    let coroutine = s.coroutine(7)?;
    let call = s.call()?;
    let rate = s.pending(call, None)?;
    let gather = s.gather(&[coroutine, rate, coroutine])?;
    assert_eq!(s.show(gather)?, Shown::GatherPending);
    let how = How::Start { coroutine, function: 7 };
    let control = Control::Runs { task: TaskId::new(1), how };
    assert_eq!(s.await_object(gather)?, Awaited { control, steps: 1 });
    assert_eq!(s.complete(Value::Plain(40))?, TaskEnd::Control(Control::Waits(vec![call])));
    let forty = Some(Value::Plain(40));
    assert_eq!(s.show(gather)?, Shown::GatherAwaited(vec![forty, None, forty]));
    assert!(!s.eager());
    s.result(call, Outcome::Return(Value::Plain(5)))?;
    let how = How::Value(Value::List(gather));
    assert_eq!(s.resume()?, Resumed::Control(Control::Runs { task: TaskId::MAIN, how }));
    assert_eq!(s.show(gather)?, Shown::GatherCompleted([40, 5, 40].map(Value::Plain).to_vec()));
    assert!(s.eager());
    assert_eq!(s.complete(Value::Plain(9))?, TaskEnd::Finished(Ok(Value::Plain(9))));
    Ok(())
}

/// A session's bytes, to see that nothing has changed.
fn refuses(session: &mut Session, event: Event<'_>, refusal: Refusal) {
    let before = session.snapshot();
    for checked in [false, true] {
        let answer = if checked { session.dispatch_checked(&event) } else { session.dispatch(&event) };
        assert_eq!(answer, Err(refusal), "{event:?}");
    }
    assert!(session.snapshot() == before, "{event:?}: a refused event changes nothing");
}

#[test]
fn refusals_are_typed_and_change_nothing() -> Result<(), Refusal> {
    let zero = HeapId::new(0);
    let mut s = Session::new();
    refuses(&mut s, Event::Resume, Refusal::WrongMoment);
    refuses(&mut s, Event::Cancel(TaskId::MAIN), Refusal::WrongMoment);
    refuses(&mut s, Event::Await(zero), Refusal::Unknown);
    refuses(&mut s, Event::Show(zero), Refusal::Unknown);
    refuses(&mut s, Event::Complete(Value::List(zero)), Refusal::Unknown);
    refuses(&mut s, Event::Pending { call: 0, stored: None }, Refusal::Unknown);
    for call in [65_536, u32::MAX - 1, u32::MAX] {
        refuses(&mut s, Event::Pending { call, stored: None }, Refusal::Unknown);
    }
    refuses(&mut s, Event::Gather(vec![HeapId::new(u16::MAX)].into()), Refusal::Unknown);
    let call = s.call()?;
    let future = s.pending(call, None)?;
    refuses(&mut s, Event::Pending { call: 0, stored: None }, Refusal::PendingAlready);
    refuses(&mut s, Event::Gather(vec![future; 33].into()), Refusal::NoRoom);
    // an object that is not made is told before that there are too many items, wherever it stands
    let mut items = vec![future; 5000];
    refuses(&mut s, Event::Gather(items.clone().into()), Refusal::NoRoom);
    items.push(HeapId::new(9));
    refuses(&mut s, Event::Gather(items.into()), Refusal::Unknown);
    s.await_object(future)?;
    refuses(&mut s, Event::Call, Refusal::WrongMoment);
    refuses(&mut s, Event::Cancel(TaskId::MAIN), Refusal::CancelOfMain);
    refuses(&mut s, Event::Cancel(TaskId::new(1)), Refusal::Unknown);
    refuses(&mut s, Event::Cancel(TaskId::new(u16::MAX)), Refusal::Unknown);
    refuses(&mut s, Event::results(&[(call, Outcome::StillFuture); 65]), Refusal::BadResults);
    refuses(&mut s, Event::results(&[(call, Outcome::Return(Value::List(zero)))]), Refusal::Unknown);
    s.result(call, Outcome::Error(503))?;
    let how = How::Raised(Error::Host(503));
    assert_eq!(s.resume()?, Resumed::Control(Control::Runs { task: TaskId::MAIN, how }));
    assert_eq!(s.fail(3)?, TaskEnd::Finished(Err(Error::Script(3))));
    refuses(&mut s, Event::Call, Refusal::Ended);
    refuses(&mut s, Event::results(&[]), Refusal::Ended);
    assert_eq!(s.show(future)?, Shown::ExternalFailed(Error::Host(503)));
    Ok(())
}

#[test]
fn a_257th_object_is_refused() -> Result<(), Refusal> {
    let mut s = Session::new();
    for _ in 0..256 {
        s.coroutine(u32::MAX)?;
    }
    refuses(&mut s, Event::Coroutine(0), Refusal::NoRoom);
    Ok(())
}

/// A call number has 32 bits, and a result for call 65,536 + n is none for call n. (`tests/stored_cases.rs` has the last
/// number.)
#[test]
fn calls_go_past_65536() -> Result<(), Refusal> {
    let mut s = Session::new();
    for number in 0..65_536 {
        assert_eq!(s.call()?, CallId::new(number));
    }
    refuses(&mut s, Event::Pending { call: 65_536, stored: None }, Refusal::Unknown);
    assert_eq!(s.call()?, CallId::new(65_536));
    let [low, high, unknown] = [0, 65_536, 131_072].map(CallId::new);
    let host = |number| Outcome::Return(Value::Plain(number));
    let above = s.pending(high, None)?;
    refuses(&mut s, Event::Pending { call: 65_536, stored: None }, Refusal::PendingAlready);
    // call 0 is not pending yet
    s.results(&[(low, host(1)), (unknown, host(2))])?;
    assert_eq!(s.show(above)?, Shown::ExternalPending);
    let below = s.pending(low, None)?;
    let gather = s.gather(&[above, below])?;
    assert_eq!(s.await_object(gather)?.control, Control::Waits(vec![low, high]));
    s.result(high, host(5))?;
    assert_eq!(s.show(below)?, Shown::ExternalPending);
    assert_eq!(s.show(above)?, Shown::ExternalResolved(Value::Plain(5)));
    assert_eq!(s.resume()?, Resumed::Control(Control::Waits(vec![low])));
    s.results(&[(high, host(6)), (low, host(7))])?;
    let how = How::Value(Value::List(gather));
    assert_eq!(s.resume()?, Resumed::Control(Control::Runs { task: TaskId::MAIN, how }));
    assert_eq!(s.show(gather)?, Shown::GatherCompleted([5, 7].map(Value::Plain).to_vec()));
    // a settled external takes a number too
    s.settled(Value::Plain(1))?;
    assert_eq!(s.call()?, CallId::new(65_538));
    Ok(())
}

/// Task 1 waits for tasks 3, 4 and 5, task 2 for call 0; each of the three for a call of its own. One batch wakes 5,
/// the next 2 and 3: task 2 stands between the others in the queue.
fn session_with_a_queue() -> Result<Session, Refusal> {
    let mut s = Session::new();
    let coroutines = (1..=5).map(|function| s.coroutine(function)).collect::<Result<Vec<_>, _>>()?;
    let below = s.gather(&coroutines[2..])?;
    let top = s.gather(&coroutines[..2])?;
    let mut futures = Vec::new();
    for _ in 0..4 {
        let call = s.call()?;
        futures.push(s.pending(call, None)?);
    }
    for object in [&[top, below][..], &futures].concat() {
        s.await_object(object)?;
    }
    for batch in [&[3][..], &[0, 1]] {
        let host = |&call: &u32| (CallId::new(call), Outcome::Return(Value::Plain(call.into())));
        s.results(&batch.iter().map(host).collect::<Vec<_>>())?;
    }
    Ok(s)
}

#[test]
fn a_cancel_counts_the_removed_tasks_that_were_ready() -> Result<(), Refusal> {
    // a blocked task alone; a ready one; the blocked one above them, of which one has gone already
    let mut s = session_with_a_queue()?;
    assert_eq!(s.cancel(TaskId::new(4))?, 0);
    assert_eq!(s.cancel(TaskId::new(5))?, 1);
    assert_eq!(s.cancel(TaskId::new(1))?, 1);
    refuses(&mut s, Event::Cancel(TaskId::new(3)), Refusal::Unknown);
    // with both ready ones below it, by the event, checked or not: task 2 keeps its place
    for checked in [false, true] {
        let mut s = session_with_a_queue()?;
        let event = Event::Cancel(TaskId::new(1));
        let answer = if checked { s.dispatch_checked(&event) } else { s.dispatch(&event) };
        assert_eq!(answer, Ok(Answer::Cancelled(2)));
        assert_eq!(common::line(&mut s, checked, Some(&event)), "refused 5");
        let how = How::Value(Value::Plain(0));
        assert_eq!(s.resume()?, Resumed::Control(Control::Runs { task: TaskId::new(2), how }));
    }
    Ok(())
}

#[test]
fn every_refusal_has_its_number_and_its_meaning() {
    for number in 1..=11 {
        let refusal = Refusal::try_from(number).expect("a row of the table");
        assert_eq!(refusal.number(), number);
        assert_eq!(refusal.to_string(), format!("refused {number}: {}", refusal.meaning()));
    }
    for number in [0, 12, u16::MAX] {
        assert_eq!(Refusal::try_from(number).map_err(|error| error.0), Err(number));
    }
}

#[test]
fn values_and_results_of_every_sort() -> Result<(), Refusal> {
    let mut s = Session::new();
    let empty = s.gather(&[])?;
    let awaited = s.await_object(empty)?;
    assert_eq!(awaited.to_string(), "runs 0 value list 0 steps 1");
    let list = Value::List(empty);
    let settled = s.settled(list)?;
    assert_eq!(s.show(settled)?, Shown::ExternalResolved(list));
    // a stored value replaces what the host returns
    let mut futures = Vec::new();
    for stored in [None, Some(Value::Plain(u64::MAX)), Some(list)] {
        let call = s.call()?;
        futures.push((call, s.pending(call, stored)?));
    }
    let host = Outcome::Return(Value::Plain(1));
    let results: Vec<(CallId, Outcome)> = futures.iter().map(|(call, _)| (*call, host)).collect();
    s.results(&results)?;
    let wanted = [Value::Plain(1), Value::Plain(u64::MAX), list];
    for ((_, future), value) in futures.iter().zip(wanted) {
        assert_eq!(s.show(*future)?, Shown::ExternalResolved(value));
    }
    for (outcome, error) in [
        (Outcome::Error(u32::MAX), Error::Host(u32::MAX)),
        (Outcome::NotFound, Error::NotFound),
        (Outcome::ModuleFile, Error::ModuleFile),
    ] {
        let call = s.call()?;
        let future = s.pending(call, None)?;
        s.result(call, Outcome::StillFuture)?;
        assert_eq!(s.show(future)?, Shown::ExternalPending);
        s.result(call, outcome)?;
        assert_eq!(s.show(future)?, Shown::ExternalFailed(error));
    }
    assert_eq!(s.complete(list)?, TaskEnd::Finished(Ok(list)));
    Ok(())
}

/// Numbers go in and come back whole.
#[test]
fn the_greatest_numbers() -> Result<(), Refusal> {
    let mut s = Session::new();
    let coroutine = s.coroutine(u32::MAX)?;
    let state = CoroutineState::New;
    assert_eq!(s.show(coroutine)?, Shown::Coroutine { state, function: u32::MAX });
    let gather = s.gather(&[coroutine])?;
    let how = How::Start { coroutine, function: u32::MAX };
    assert_eq!(s.await_object(gather)?.control, Control::Runs { task: TaskId::new(1), how });
    let how = How::Raised(Error::Script(u32::MAX));
    assert_eq!(s.fail(u32::MAX)?, TaskEnd::Control(Control::Runs { task: TaskId::MAIN, how }));
    assert_eq!(s.show(gather)?, Shown::GatherFailed(Error::Script(u32::MAX)));
    assert_eq!(s.complete(Value::Plain(u64::MAX))?, TaskEnd::Finished(Ok(Value::Plain(u64::MAX))));
    Ok(())
}

/// A record has 8 bytes for a list's gather: one above 16 bits is no gather, and not the one of its lower bits.
#[test]
fn a_list_above_every_gather_is_refused() -> Result<(), Refusal> {
    let mut s = Session::new();
    let gather = s.gather(&[])?;
    s.await_object(gather)?;
    for number in [65_536_u64, 1 << 32, u64::MAX - 65_535] {
        let record = [&[0xC3, 0x59, 7, 1][..], &number.to_le_bytes()].concat();
        let (event, length) = Event::read_record(&record).expect("a record");
        assert_eq!(length, 12);
        assert_eq!(s.dispatch(&event), Err(Refusal::Unknown));
    }
    assert_eq!(s.complete(Value::List(gather))?, TaskEnd::Finished(Ok(Value::List(gather))));
    Ok(())
}

#[test]
fn a_trace_is_the_record_file_and_replays() {
    let mut traced = Session::with_trace();
    let mut plain = Session::new();
    for event in worked_example() {
        assert_eq!(traced.dispatch(&event), plain.dispatch(&event));
    }
    assert!(plain.trace().is_empty());
    let mut records = Vec::new();
    for event in worked_example().iter().filter(|event| !event.is_read()) {
        event.write_record(&mut records).expect("a record");
    }
    assert_eq!(traced.trace(), records);
    let mut again = Session::new();
    for event in common::events(traced.trace()).iter().flatten() {
        again.dispatch(event).expect("as before");
    }
    assert!(again.snapshot() == traced.snapshot());
}

#[test]
fn records_are_written_as_they_were_read() {
    for case in common::cases() {
        let mut written = Vec::new();
        for event in common::events(&case.records).iter().flatten() {
            event.write_record(&mut written).expect("it was a record");
        }
        // what is no record ends a file; the stored value of a pending without one is not kept, nor a list number over
        // 16 bits
        let read: Vec<_> = common::events(&case.records).into_iter().flatten().collect();
        let again: Vec<_> = common::events(&written).into_iter().flatten().collect();
        assert!(read == again, "{}", case.name);
    }
    let mut bytes = vec![1];
    assert!(Event::Gather(vec![HeapId::new(0); 256].into()).write_record(&mut bytes).is_err());
    assert!(Event::Results(vec![0; 256 * 14].into()).write_record(&mut bytes).is_err());
    assert_eq!(bytes, [1], "nothing is written");
}

#[test]
fn the_worked_example_as_records_is_the_stored_file() {
    let mut records = Vec::new();
    for event in worked_example() {
        event.write_record(&mut records).expect("a record");
    }
    assert_eq!(records, include_bytes!("cases/00-worked-example.bin"));
}

#[test]
fn eight_sessions_on_eight_threads() {
    let run = || {
        for _ in 0..200 {
            let mut session = Session::new();
            for (event, wanted) in worked_example().iter().zip(LINES) {
                assert_eq!(common::line(&mut session, false, Some(event)), wanted);
            }
        }
    };
    let threads: Vec<_> = (0..8).map(|_| thread::spawn(run)).collect();
    for thread in threads {
        thread.join().expect("no panic");
    }
}

#[test]
fn a_session_goes_from_thread_to_thread() {
    let mut session = Session::new();
    for (event, wanted) in worked_example().into_iter().zip(LINES) {
        let step = move || {
            let mut session = session;
            assert_eq!(common::line(&mut session, false, Some(&event)), wanted);
            session
        };
        session = thread::spawn(step).join().expect("no panic");
    }
    assert_eq!(session.dispatch(&Event::Call), Err(Refusal::Ended));
    assert_eq!(session.dispatch(&Event::Eager), Ok(Answer::Eager(true)));
}
