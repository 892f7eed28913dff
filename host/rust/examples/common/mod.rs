//! A small script host, shared by the examples: it runs the function of the task that the session names, until main
//! ends.
//!
//! A script's function is a closure, called each time its task runs; what it keeps between two turns it captures. It
//! gets the desk, to make objects and to ask the bureau's services, and what its await came to.
#![allow(dead_code)] // each example uses a part of it

use sozgarru::{CallId, Control, Error, HeapId, How, Outcome, Refusal, Resumed, Session, TaskEnd, TaskId, Value};
use std::collections::HashMap;
use std::{env, fs};

/// What a function goes on with.
#[derive(Clone, Copy, Debug)]
pub enum Input {
    /// It starts.
    Start,
    /// What it awaited has this value.
    Value(Value),
    /// What it awaited has failed.
    Raised(Error),
}

/// What a function does at the end of its turn.
pub enum Turn {
    /// It awaits an object.
    Await(HeapId),
    /// It returns a value.
    Return(Value),
    /// It raises an error of its own.
    Raise(u32),
}

/// A function of the script between two turns.
pub type Function = Box<dyn FnMut(&mut Desk, Input) -> Result<Turn, Refusal>>;

/// Where a script works: its session, and the requests that are on their way to the bureau's services.
pub struct Desk {
    pub session: Session,
    /// Each call that was asked, and what for.
    pub asked: Vec<(CallId, &'static str)>,
}

impl Desk {
    pub fn new() -> Desk {
        Desk { session: Session::with_trace(), asked: Vec::new() }
    }

    /// Asks a service: the future of its answer.
    pub fn ask(&mut self, what: &'static str) -> Result<HeapId, Refusal> {
        let call = self.session.call()?;
        self.asked.push((call, what));
        self.session.pending(call, None)
    }

    /// What a call was asked for.
    pub fn asked_for(&self, call: CallId) -> &'static str {
        let found = self.asked.iter().find(|(asked, _)| *asked == call);
        found.map_or("unknown", |(_, what)| what)
    }
}

/// Writes the session's events to the file that the command line names, if it names one: records that `drive` replays
/// and that `tools/timeline.py` draws.
pub fn write_trace(session: &Session) {
    if let Some(path) = env::args().nth(1) {
        fs::write(&path, session.trace()).unwrap_or_else(|error| panic!("{path}: {error}"));
    }
}

/// How a session came to its end.
#[derive(Debug)]
pub enum End {
    /// Main returned or raised.
    Finished(Result<Value, Error>),
    /// Nothing is ready and no call is pending: what main waits for will not come.
    Stalled,
    /// Nobody answers any more.
    Waiting(Vec<CallId>),
}

/// Runs a script from main's start to its end. `function` gives the function of a coroutine by its number; `replies`
/// has the answers that have come while the session waits, none where no more will come.
pub fn run(
    desk: &mut Desk,
    main: Function,
    function: impl Fn(u32) -> Function,
    mut replies: impl FnMut(&mut Desk) -> Vec<(CallId, Outcome)>,
) -> Result<End, Refusal> {
    let mut functions = HashMap::from([(TaskId::MAIN, main)]);
    let (mut task, mut input) = (TaskId::MAIN, Input::Start);
    loop {
        let running = functions.get_mut(&task).expect("a task that runs has a function");
        let mut control = match running(desk, input)? {
            Turn::Await(object) => desk.session.await_object(object)?.control,
            Turn::Return(value) => match desk.session.complete(value)? {
                TaskEnd::Control(control) => control,
                TaskEnd::Finished(end) => return Ok(End::Finished(end)),
            },
            Turn::Raise(number) => match desk.session.fail(number)? {
                TaskEnd::Control(control) => control,
                TaskEnd::Finished(end) => return Ok(End::Finished(end)),
            },
        };
        let how = loop {
            match control {
                Control::Runs { task: next, how } => {
                    task = next;
                    break how;
                }
                Control::Waits(calls) => {
                    let results = replies(desk);
                    if results.is_empty() {
                        return Ok(End::Waiting(calls));
                    }
                    desk.session.results(&results)?;
                    control = match desk.session.resume()? {
                        Resumed::Control(control) => control,
                        Resumed::Stalled => return Ok(End::Stalled),
                    };
                }
            }
        };
        input = match how {
            How::Start { function: number, .. } => {
                functions.insert(task, function(number));
                Input::Start
            }
            How::Value(value) => Input::Value(value),
            How::Raised(error) => Input::Raised(error),
            How::Inline(coroutine) => panic!("no script of these examples awaits coroutine {coroutine} by itself"),
        };
    }
}

/// A plain value's number.
pub fn plain(value: Value) -> u64 {
    match value {
        Value::Plain(number) => number,
        Value::List(gather) => panic!("a number is wanted, not the list of gather {gather}"),
    }
}

/// Thousands apart: 5200000 is 5,200,000.
fn grouped(number: u64) -> String {
    let digits = number.to_string();
    let mut text = String::new();
    for (i, digit) in digits.chars().enumerate() {
        if i > 0 && (digits.len() - i) % 3 == 0 {
            text.push(',');
        }
        text.push(digit);
    }
    text
}

/// Money is counted in cents.
pub fn money(cents: u64) -> String {
    format!("{}.{:02}", grouped(cents / 100), cents % 100)
}

/// Rates are counted in basis points, hundredths of a percent.
pub fn rate(basis_points: u64) -> String {
    format!("{}.{:02} %", basis_points / 100, basis_points % 100)
}

/// Annuity factors are counted in thousandths.
pub fn factor(thousandths: u64) -> String {
    format!("{}.{:03}", thousandths / 1000, thousandths % 1000)
}

/// The pension that a year of service earns: the accrual rate of the salary.
pub fn pension(salary: u64, basis_points: u64) -> u64 {
    salary * basis_points / 10_000
}

/// What that pension is worth at retirement: as many times its amount as the annuity factor says.
pub fn capital(pension: u64, thousandths: u64) -> u64 {
    pension * thousandths / 1000
}
