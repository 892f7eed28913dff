//! Document 01's own layer: one record to one line, refusals, numbers and moments. Every answer
//! and state comes from the published code behind `VM`.

use std::{
    collections::BTreeMap,
    fmt::{Debug, Write as _},
    panic,
};

use monty_types::{ExcType, MontyException};

use crate::{
    asyncio::{Awaiter, CallId, Coroutine, CoroutineState, ExternalFutureState, GatherFuture, GatherState, TaskId},
    bytecode::vm::{AwaitResult, FrameExit, VM},
    exception_private::{RunError, RunResult, SimpleException},
    heap::{DropWithContext, HeapData, HeapId, HeapReader},
    intern::{Code, FunctionId, Interns},
    object_bridge::MontyObject,
    records::{Raw, RawResult, Reader, Record},
    run_progress::ExtFunctionResult,
    value::Value,
};

const OBJECTS: usize = 256;
const ITEMS: usize = 32;
const PLACES: usize = 512;
/// Document 02, No. 1: the last number handed out is 4,294,967,294.
const CALLS: u32 = 4_294_967_295;
const RESULTS: usize = 64;

/// A refusal's number.
type Refused = u32;

#[derive(Debug, Clone, Copy, PartialEq, Eq)]
pub(crate) enum Moment {
    Running,
    Waiting,
    Ended,
}

pub(crate) struct Session<'h> {
    pub vm: VM<'h>,
    /// Document 01's object numbers; the driver owns one reference on each.
    pub objects: Vec<HeapId>,
    pub moment: Moment,
    pub calls_handed_out: u32,
    pub places: usize,
    pub rule: Rule,
    /// Where nobody asks nothing is looked up: it would be timed as the Rust's.
    pub notes: Option<Notes>,
}

/// In which order the tasks stand in the queue that one batch of results has woken.
#[derive(Debug, Clone, Copy, PartialEq, Eq)]
pub(crate) enum Rule {
    /// as the published text leaves them: as the batch woke them
    Published,
    /// document 02, No. 7: lowest first
    Amended,
}

/// What was met in a run.
#[derive(Default)]
pub(crate) struct Notes {
    /// of the accepted cancels: what the task was, and what went with it
    pub cancels: BTreeMap<&'static str, u64>,
    /// of the accepted batches of results that woke two tasks or more
    pub batches: BTreeMap<String, u64>,
    /// whether a batch woke a task behind a higher one, which No. 7 puts in order
    pub out_of_order: bool,
}

impl<'h> Session<'h> {
    pub fn new(vm: VM<'h>) -> Self {
        Self {
            vm,
            objects: Vec::new(),
            moment: Moment::Running,
            calls_handed_out: 0,
            places: 0,
            rule: Rule::Published,
            notes: None,
        }
    }

    /// One record's answer, without its number.
    pub fn answer(&mut self, record: Record) -> Result<String, Refused> {
        use Moment::{Ended, Running, Waiting};

        // 3 and 4. Reads meet neither.
        let belongs: &[Moment] = match record {
            Record::Show { .. } | Record::Eager => &[Running, Waiting, Ended],
            Record::Results { .. } => &[Running, Waiting],
            Record::Resume | Record::Cancel { .. } => &[Waiting],
            _ => &[Running],
        };
        if !belongs.contains(&self.moment) {
            return Err(if self.moment == Ended { 3 } else { 4 });
        }

        match record {
            Record::Coroutine { function } => {
                self.refuse_object(0)?;
                let coroutine = Coroutine::new(FunctionId(function), Vec::new(), None);
                let id = self.vm.heap.allocate(HeapData::Coroutine(coroutine));
                Ok(self.made(id))
            }
            Record::Call => {
                self.refuse_call_number()?;
                let call = self.vm.allocate_call_id();
                self.calls_handed_out = call.raw() + 1;
                Ok(format!("call {}", call.raw()))
            }
            Record::Pending { call, stored } => {
                refuse(call >= self.calls_handed_out, 5)?;
                stored.map_or(Ok(()), |stored| self.refuse_value(stored))?;
                let call = CallId::new(call);
                refuse(self.vm.scheduler.pending_call_ids().contains(&call), 6)?;
                self.refuse_object(0)?;
                match stored {
                    None => self.vm.add_pending_call(call),
                    Some(stored) => {
                        let stored = self.value(stored);
                        self.vm.add_pending_sleep(call, stored);
                    }
                }
                let future = self.vm.pop();
                Ok(self.made(reference(future)))
            }
            Record::Settled { value } => {
                self.refuse_value(value)?;
                self.refuse_object(0)?;
                self.refuse_call_number()?;
                let value = self.value(value);
                let future = reference(self.vm.settled_awaitable(value));
                let HeapData::ExternalFuture(it) = self.vm.heap.data(future) else {
                    panic!("a settled awaitable is an external")
                };
                self.calls_handed_out = it.call_id.raw() + 1;
                Ok(self.made(future))
            }
            Record::Gather { items } => {
                let items: Vec<HeapId> = items.into_iter().map(|item| self.object(item)).collect::<Result<_, _>>()?;
                self.refuse_object(items.len())?;
                items.iter().for_each(|&item| self.vm.heap.inc_ref(item));
                self.places += items.len();
                let id = self.vm.heap.allocate(HeapData::GatherFuture(GatherFuture::new(items)));
                Ok(self.made(id))
            }
            Record::Await { object } => {
                let id = self.object(object)?;
                Ok(self.await_object(id))
            }
            Record::Complete { value } => {
                self.refuse_value(value)?;
                let value = self.value(value);
                Ok(if self.running().is_main() {
                    let line = format!("finished {}", self.value_text(&value));
                    value.drop_with(&mut self.vm);
                    self.end();
                    line
                } else {
                    let outcome = self.vm.oracle_complete(value);
                    self.after_switch(outcome)
                })
            }
            Record::Fail { number } => {
                let error = RunError::from(SimpleException::new_msg(ExcType::Script, number));
                Ok(if self.running().is_main() {
                    self.end();
                    format!("finished error {}", error.name())
                } else {
                    let outcome = self.vm.oracle_fail(error);
                    self.after_switch(outcome.map(|()| AwaitResult::FramePushed))
                })
            }
            Record::Results { results } => {
                for result in &results {
                    // A return's list value; in the other kinds the tag meets only 10.
                    if result.kind == 0 {
                        self.refuse_value(result.value)?;
                    }
                }
                refuse(results.len() > RESULTS, 10)?;
                for RawResult { kind, value, .. } in &results {
                    refuse(*kind > 4 || value.tag > 1, 10)?;
                    refuse(*kind == 1 && u32::try_from(value.bits).is_err(), 10)?;
                }
                let results = results
                    .into_iter()
                    .map(|RawResult { call, kind, value }| {
                        let result = match kind {
                            0 => ExtFunctionResult::Return(MontyObject(self.value(value))),
                            1 => ExtFunctionResult::Error(MontyException::new(ExcType::Host, value.bits)),
                            2 => ExtFunctionResult::Future(call),
                            3 => ExtFunctionResult::NotFound("f".into()),
                            _ => ExtFunctionResult::ModuleFile("f".into()),
                        };
                        (call, result)
                    })
                    .collect();
                let queued = self.vm.scheduler.ready_queue().len();
                self.vm
                    .apply_future_results(results)
                    .expect("applying results fails only in bridging a value");
                self.note_batch(queued);
                if self.rule == Rule::Amended {
                    self.wake_in_order(queued);
                }
                Ok("done".into())
            }
            Record::Resume => Ok(match self.vm.resume_with_resolved_futures(Vec::new()) {
                Ok(FrameExit::Runs) => self.after_switch(Ok(AwaitResult::FramePushed)),
                Ok(FrameExit::Raised(error)) => self.after_switch(Err(error)),
                Ok(FrameExit::ResolveFutures(calls)) => self.waits(calls),
                Err(RunError::Internal(msg)) if msg.starts_with("asyncio scheduler stalled") => "stalled".into(),
                Err(error) => panic!("resume failed: {error:?}"),
            }),
            Record::Cancel { task } => {
                let task = TaskId::new(u32::from(task));
                refuse(!self.is_live(task), 5)?;
                refuse(task.is_main(), 9)?;
                self.note_cancel(task);
                let live = self.vm.scheduler.task_count();
                let queued = self.vm.scheduler.ready_queue().len();
                self.vm.scheduler.cancel_task(task, self.vm.heap);
                let lost = queued - self.vm.scheduler.ready_queue().len();
                if live - self.vm.scheduler.task_count() > 1 {
                    self.note_cancelled("that removed other tasks too");
                }
                self.note_cancelled(match lost {
                    0 => "with count 0",
                    1 => "with count 1",
                    2 => "with count 2",
                    _ => "with a count of 3 or more",
                });
                // "The VM must discard this task's loaded context before activating another."
                if self.vm.scheduler.current_task_id().is_none() {
                    self.vm.cleanup_current_task();
                }
                Ok(format!("done {lost}"))
            }
            Record::Show { object } => {
                let id = self.object(object)?;
                Ok(self.shows(id))
            }
            Record::Eager => {
                let eager = self.vm.scheduler.can_await_eagerly();
                Ok(format!("eager {}", if eager { "yes" } else { "no" }))
            }
        }
    }

    // ---- events ----

    fn await_object(&mut self, id: HeapId) -> String {
        self.vm.heap.inc_ref(id);
        self.vm.push(Value::Ref(id));
        let outcome = self.vm.oracle_await();
        let steps = self.vm.heap.tracker.take_steps();
        let line = match outcome {
            Ok(AwaitResult::ValueReady(value)) => {
                let line = format!("runs {} value {}", number(&self.running()), self.value_text(&value));
                value.drop_with(&mut self.vm);
                line
            }
            Ok(AwaitResult::FramePushed) if matches!(self.vm.heap.data(id), HeapData::Coroutine(_)) => {
                format!("runs {} inline {}", number(&self.running()), self.number_of(id))
            }
            outcome => self.after_switch(outcome),
        };
        format!("{line} steps {steps}")
    }

    /// The line for what runs next, or for the wait, after the published code has chosen.
    fn after_switch(&mut self, outcome: RunResult<AwaitResult>) -> String {
        match outcome {
            Ok(AwaitResult::ValueReady(_)) => panic!("a switch has no value of its own"),
            Ok(AwaitResult::Yield(calls)) => self.waits(calls),
            Ok(AwaitResult::FramePushed) if self.vm.scheduler.current_task_id().is_some() => {
                self.moment = Moment::Running;
                self.loaded()
            }
            // Known difference: a spawned task failed, none was ready and none is loaded.
            Ok(AwaitResult::FramePushed) => self.waits(self.vm.scheduler.pending_call_ids()),
            Err(error) => {
                self.moment = Moment::Running;
                assert!(self.vm.stack.is_empty(), "a raising task has no delivered value");
                format!("runs {} raised {}", number(&self.running()), error.name())
            }
        }
    }

    /// A task just loaded without an error: with a delivered value, or at its start.
    fn loaded(&mut self) -> String {
        let task = self.running();
        let line = if let Some(value) = self.vm.stack.pop() {
            let line = format!("runs {} value {}", number(&task), self.value_text(&value));
            value.drop_with(&mut self.vm);
            line
        } else {
            let id = self.vm.scheduler.get_task_mut(task).coroutine_id;
            let id = id.expect("only a spawned task is loaded without a value");
            let function = self.vm.current_frame.function_id.expect("a started task is in its function").0;
            format!("runs {} start {} {function}", number(&task), self.number_of(id))
        };
        assert!(self.vm.stack.is_empty(), "at most one delivered value");
        line
    }

    fn waits(&mut self, calls: Vec<CallId>) -> String {
        self.moment = Moment::Waiting;
        let mut calls: Vec<u32> = calls.into_iter().map(CallId::raw).collect();
        calls.sort_unstable();
        let mut line = format!("waits {}", calls.len());
        for call in calls {
            write!(line, " {call}").expect("writing to a string");
        }
        line
    }

    fn end(&mut self) {
        self.vm.scheduler.cleanup(self.vm.heap);
        self.vm.cleanup_current_task();
        self.moment = Moment::Ended;
    }

    pub fn running(&self) -> TaskId {
        self.vm.scheduler.current_task_id().expect("a task is loaded")
    }

    /// The published scheduler keeps its tasks to itself, and `get_task_mut` panics on a dead one.
    fn is_live(&mut self, task: TaskId) -> bool {
        quietly(|| self.vm.scheduler.get_task_mut(task).id == task)
    }

    // ---- cancels ----

    /// The live tasks but main, ascending. The published scheduler keeps them to itself, so they are read from its `Debug` text.
    pub fn spawned_tasks(&self) -> Vec<u16> {
        let text = format!("{:?}", self.vm.scheduler);
        let numbers = text.split(": Task { id: TaskId(").skip(1).map(|task| task.split(')').next().expect("a number ends"));
        let mut tasks: Vec<u16> = numbers.map(|n| n.parse().expect("a task's number")).filter(|&n| n != 0).collect();
        tasks.sort_unstable();
        tasks
    }

    fn note_cancelled(&mut self, what: &'static str) {
        if let Some(notes) = &mut self.notes {
            *notes.cancels.entry(what).or_default() += 1;
        }
    }

    fn note_cancel(&mut self, task: TaskId) {
        if self.notes.is_none() {
            return;
        }
        let text = format!("{:?}", self.vm.scheduler.get_task_mut(task));
        let state = text.split("state: ").last().expect("a task has a state").to_owned();
        let gather = match self.vm.scheduler.get_task_mut(task).awaiter {
            Some(Awaiter::GatherSlot { gather, .. }) => gather,
            _ => panic!("a spawned task's result goes to a gather"),
        };
        self.note_cancelled("accepted");
        self.note_cancelled(match state.strip_prefix("Blocked(").map(|id| id.chars().filter(char::is_ascii_digit).collect::<String>()) {
            None => "of a ready task",
            Some(id) if self.is_gather(&id) => "of a task blocked on a gather",
            Some(_) => "of a task blocked on a call",
        });
        match self.vm.heap.data(gather) {
            HeapData::GatherFuture(it) if matches!(it.state, GatherState::Awaited(_)) => {
                if self.objects.iter().any(|&id| self.holds(id, gather)) {
                    self.note_cancelled("of a task below a nested gather");
                }
            }
            _ => self.note_cancelled("of an orphan: its gather has failed"),
        }
    }

    /// Whether the object of that heap number, as text, is a gather.
    fn is_gather(&self, heap_number: &str) -> bool {
        let of = |&&id: &&HeapId| number(&id) == heap_number;
        self.objects.iter().find(of).is_some_and(|&id| matches!(self.vm.heap.data(id), HeapData::GatherFuture(_)))
    }

    /// Whether `id` is an awaited gather with `item` among its open items.
    fn holds(&self, id: HeapId, item: HeapId) -> bool {
        match self.vm.heap.data(id) {
            HeapData::GatherFuture(it) => match &it.state {
                GatherState::Awaited(awaited) => awaited.pending_children.keys().any(|&child| child == item),
                _ => false,
            },
            _ => false,
        }
    }

    // ---- batches ----

    /// Document 02, No. 7, which the published text has not: the tasks behind the first `queued`, which one batch has woken, lowest first.
    fn wake_in_order(&mut self, queued: usize) {
        let queue = self.vm.scheduler.ready_queue().make_contiguous();
        queue[queued..].sort_unstable_by_key(|task| task.number());
    }

    /// Of a batch just applied: how many tasks stand behind the first `queued`, and whether they ascend as they were woken.
    fn note_batch(&mut self, queued: usize) {
        let Some(notes) = &mut self.notes else { return };
        let woken: Vec<u32> = self.vm.scheduler.ready_queue().iter().skip(queued).map(|task| task.number()).collect();
        if woken.len() < 2 {
            return;
        }
        let in_order = woken.is_sorted();
        notes.out_of_order |= !in_order;
        let mut note = |what: &str| *notes.batches.entry(format!("{what}, {} order", if in_order { "in" } else { "out of" })).or_default() += 1;
        note(if woken.len() == 2 { "2 tasks woken" } else { "3 tasks or more woken" });
        if self.moment == Moment::Running {
            note("of these while a task ran");
        }
        if queued > 0 {
            note("of these behind tasks in the queue");
        }
        if woken.contains(&0) {
            note("of these with main");
        }
    }

    /// The task that a result of this call would wake, if it wakes one: that at the end of the call's awaiters.
    pub fn waiter(&self, call: u32) -> Option<u32> {
        let mut awaiter = self.objects.iter().find_map(|&id| match self.vm.heap.data(id) {
            HeapData::ExternalFuture(it) if it.call_id.raw() == call => match &it.state {
                ExternalFutureState::Pending { awaiter } => awaiter.as_ref(),
                _ => None,
            },
            _ => None,
        })?;
        loop {
            let gather = match awaiter {
                Awaiter::Task(task) => return Some(task.number()),
                Awaiter::GatherSlot { gather, .. } => self.vm.heap.data(*gather),
            };
            awaiter = match gather {
                HeapData::GatherFuture(GatherFuture { state: GatherState::Awaited(awaited), .. }) => &awaited.awaiter,
                _ => return None,
            };
        }
    }

    // ---- refusals ----

    fn object(&self, number: u16) -> Result<HeapId, Refused> {
        self.objects.get(usize::from(number)).copied().ok_or(5)
    }

    fn refuse_value(&self, value: Raw) -> Result<(), Refused> {
        refuse(value.tag == 1 && self.list(value.bits).is_none(), 5)
    }

    fn refuse_object(&self, items: usize) -> Result<(), Refused> {
        refuse(
            self.objects.len() == OBJECTS || items > ITEMS || self.places + items > PLACES,
            7,
        )
    }

    fn refuse_call_number(&self) -> Result<(), Refused> {
        refuse(self.calls_handed_out == CALLS, 8)
    }

    // ---- numbers and values ----

    fn made(&mut self, id: HeapId) -> String {
        self.objects.push(id);
        format!("made {}", self.objects.len() - 1)
    }

    fn number_of(&self, id: HeapId) -> usize {
        self.objects.iter().position(|&it| it == id).expect("an object that the driver made")
    }

    /// The heap list that gather `number` cached, if it completed.
    pub fn list(&self, number: u64) -> Option<HeapId> {
        let id = *self.objects.get(usize::try_from(number).ok()?)?;
        match self.vm.heap.data(id) {
            HeapData::GatherFuture(gather) => match &gather.state {
                GatherState::Completed(Value::Ref(list)) => Some(*list),
                _ => None,
            },
            _ => None,
        }
    }

    /// Whether the object is a gather that was not awaited yet.
    pub fn is_pending_gather(&self, id: HeapId) -> bool {
        matches!(self.vm.heap.data(id), HeapData::GatherFuture(gather) if matches!(gather.state, GatherState::Pending))
    }

    fn value(&self, raw: Raw) -> Value {
        if raw.tag == 0 {
            Value::Plain(raw.bits)
        } else {
            let list = self.list(raw.bits).expect("checked by refuse_value");
            self.vm.heap.inc_ref(list);
            Value::Ref(list)
        }
    }

    fn value_text(&self, value: &Value) -> String {
        match value {
            Value::Plain(n) => format!("plain {n}"),
            Value::Ref(list) => {
                let gather = (0..self.objects.len() as u64).find(|&n| self.list(n) == Some(*list));
                format!("list {}", gather.expect("a list value names a completed gather"))
            }
        }
    }

    fn shows(&self, id: HeapId) -> String {
        let mut line = String::from("shows ");
        match self.vm.heap.data(id) {
            HeapData::Coroutine(it) => {
                let state = match it.state {
                    CoroutineState::New => "new",
                    CoroutineState::Running => "running",
                    CoroutineState::Completed => "completed",
                };
                line += &format!("coroutine {state} {}", it.func_id.0);
            }
            HeapData::ExternalFuture(it) => {
                line += &match &it.state {
                    ExternalFutureState::Pending { .. } => "external pending".into(),
                    ExternalFutureState::Resolved(value) => format!("external resolved {}", self.value_text(value)),
                    ExternalFutureState::Failed(error) => format!("external failed {}", error.name()),
                };
            }
            HeapData::GatherFuture(it) => match &it.state {
                GatherState::Pending => line += "gather pending",
                GatherState::Failed(error) => line += &format!("gather failed {}", error.name()),
                GatherState::Awaited(awaited) => {
                    line += &format!("gather awaited {}", awaited.results.len());
                    for place in &awaited.results {
                        line.push(' ');
                        line += &place.as_ref().map_or("open".into(), |value| self.value_text(value));
                    }
                }
                GatherState::Completed(Value::Ref(list)) => {
                    let HeapData::List(list) = self.vm.heap.data(*list) else {
                        panic!("a completed gather caches a list")
                    };
                    line += &format!("gather completed {}", list.items().len());
                    for value in list.items() {
                        line.push(' ');
                        line += &self.value_text(value);
                    }
                }
                GatherState::Completed(Value::Plain(_)) => panic!("a completed gather caches a list"),
            },
            HeapData::List(_) => panic!("a list is not an object"),
        }
        line
    }
}

fn refuse(met: bool, number: Refused) -> Result<(), Refused> {
    if met { Err(number) } else { Ok(()) }
}

fn reference(value: Value) -> HeapId {
    match value {
        Value::Ref(id) => id,
        Value::Plain(_) => panic!("an awaitable is a reference"),
    }
}

/// The number in a published number type that shows it only by `Debug`, as "TaskId(3)".
pub(crate) fn number(id: &impl Debug) -> String {
    format!("{id:?}").chars().filter(char::is_ascii_digit).collect()
}

/// Whether `f` gives true, a panic counting as false and not being printed.
fn quietly(f: impl FnOnce() -> bool) -> bool {
    let hook = panic::take_hook();
    panic::set_hook(Box::new(|_| {}));
    let outcome = panic::catch_unwind(panic::AssertUnwindSafe(f));
    panic::set_hook(hook);
    outcome.unwrap_or(false)
}

/// Has `f` see a fresh session.
pub(crate) fn with_session<T>(f: impl FnOnce(&mut Session) -> T) -> T {
    let interns = Interns::default();
    let module_code = Code;
    let mut heap = HeapReader::default();
    f(&mut Session::new(VM::new(&mut heap, &interns, &module_code)))
}

/// The lines of one input, as document 01's driver prints them.
pub(crate) fn lines(bytes: &[u8], rule: Rule) -> String {
    with_session(|session| {
        session.rule = rule;
        answers(session, bytes)
    })
}

/// The lines, and what was met.
pub(crate) fn lines_and_notes(bytes: &[u8], rule: Rule) -> (String, Notes) {
    with_session(|session| {
        session.rule = rule;
        session.notes = Some(Notes::default());
        let out = answers(session, bytes);
        (out, session.notes.take().unwrap_or_default())
    })
}

/// The lines of a session that goes on with these records.
fn answers(session: &mut Session, bytes: &[u8]) -> String {
    let mut reader = Reader { bytes };
    let mut out = String::new();
    let mut count = 0u64;
    while !reader.bytes.is_empty() {
        count += 1;
        let Some(record) = reader.record() else {
            writeln!(out, "{count} refused 11").expect("writing to a string");
            break;
        };
        match session.answer(record) {
            Ok(line) => writeln!(out, "{count} {line}"),
            Err(refusal) => writeln!(out, "{count} refused {refusal}"),
        }
        .expect("writing to a string");
    }
    out
}
