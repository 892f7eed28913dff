//! What goes in and what comes back: numbers, values, errors, answers, refusals. `Display` is document 01's text.
use std::fmt::{self, Display, Formatter};

macro_rules! identifier {
    ($(#[$doc:meta])* $name:ident($number:ty)) => {
        $(#[$doc])*
        #[derive(Clone, Copy, Debug, PartialEq, Eq, PartialOrd, Ord, Hash)]
        #[repr(transparent)]
        pub struct $name($number);

        impl $name {
            /// The identifier with this number.
            pub const fn new(number: $number) -> Self {
                Self(number)
            }

            /// Its number.
            pub const fn number(self) -> $number {
                self.0
            }
        }

        impl Display for $name {
            fn fmt(&self, f: &mut Formatter<'_>) -> fmt::Result {
                self.0.fmt(f)
            }
        }
    };
}

identifier!(
    /// The number of an external call, from 0 in the order of handing out. The last one handed out is 4,294,967,294:
    /// [`u32::MAX`] is the number of no call.
    CallId(u32)
);
identifier!(
    /// The number of a task; 0 is main, and spawned tasks count from 1.
    TaskId(u16)
);
identifier!(
    /// The number of an object (a coroutine, an external future or a gather), from 0 in the order of making.
    HeapId(u16)
);

impl TaskId {
    /// The main task: the member's script itself.
    pub const MAIN: TaskId = TaskId(0);
}

/// A value of the script.
#[derive(Clone, Copy, Debug, PartialEq, Eq, Hash)]
pub enum Value {
    /// 64 bits, which mean what the host and the script agree on.
    Plain(u64),
    /// The list of the results of a completed gather; [`Session::show`](crate::Session::show) has them by place.
    List(HeapId),
}

impl Display for Value {
    fn fmt(&self, f: &mut Formatter<'_>) -> fmt::Result {
        match self {
            Value::Plain(number) => write!(f, "plain {number}"),
            Value::List(gather) => write!(f, "list {gather}"),
        }
    }
}

/// An error that a task raises or gets.
#[derive(Clone, Copy, Debug, PartialEq, Eq, Hash)]
pub enum Error {
    /// The host answered a call with this error.
    Host(u32),
    /// A task of the script failed with this error.
    Script(u32),
    /// A coroutine was awaited that had been started already.
    CoroutineReuse,
    /// An external future was awaited that has an awaiter already.
    FutureReuse,
    /// A gather was awaited that has an awaiter already.
    GatherReuse,
    /// The host does not know the function that was called.
    NotFound,
    /// The host answered that the name is a module's file.
    ModuleFile,
}

impl Display for Error {
    fn fmt(&self, f: &mut Formatter<'_>) -> fmt::Result {
        match self {
            Error::Host(number) => write!(f, "host {number}"),
            Error::Script(number) => write!(f, "script {number}"),
            Error::CoroutineReuse => f.write_str("coroutine-reuse"),
            Error::FutureReuse => f.write_str("future-reuse"),
            Error::GatherReuse => f.write_str("gather-reuse"),
            Error::NotFound => f.write_str("not-found"),
            Error::ModuleFile => f.write_str("module-file"),
        }
    }
}

impl std::error::Error for Error {}

/// What the host found for a call.
#[derive(Clone, Copy, Debug, PartialEq, Eq, Hash)]
pub enum Outcome {
    /// The call returned this value. A list names a completed gather.
    Return(Value),
    /// The call failed: the script gets [`Error::Host`] with this number.
    Error(u32),
    /// Still to come: nothing changes.
    StillFuture,
    /// The script gets [`Error::NotFound`].
    NotFound,
    /// The script gets [`Error::ModuleFile`].
    ModuleFile,
}

/// How a task goes on.
#[derive(Clone, Copy, Debug, PartialEq, Eq, Hash)]
pub enum How {
    /// From its start: it runs this coroutine, whose function has this number.
    Start {
        /// The coroutine.
        coroutine: HeapId,
        /// Its function, as [`Session::coroutine`](crate::Session::coroutine) got it.
        function: u32,
    },
    /// What it awaited has this value.
    Value(Value),
    /// What it awaited has failed.
    Raised(Error),
    /// In this coroutine, which it awaits and which runs inside it. That coroutine's end is no event: the host gives
    /// its value to the awaiting code.
    Inline(HeapId),
}

impl Display for How {
    fn fmt(&self, f: &mut Formatter<'_>) -> fmt::Result {
        match self {
            How::Start { coroutine, function } => write!(f, "start {coroutine} {function}"),
            How::Value(value) => write!(f, "value {value}"),
            How::Raised(error) => write!(f, "raised {error}"),
            How::Inline(coroutine) => write!(f, "inline {coroutine}"),
        }
    }
}

/// Who has control.
#[derive(Clone, Debug, PartialEq, Eq, Hash)]
pub enum Control {
    /// A task: the host runs it.
    Runs {
        /// The task.
        task: TaskId,
        /// How it goes on.
        how: How,
    },
    /// The host: nothing is ready, and these calls are pending, ascending. It answers some of them and resumes.
    Waits(Vec<CallId>),
}

impl Display for Control {
    fn fmt(&self, f: &mut Formatter<'_>) -> fmt::Result {
        match self {
            Control::Runs { task, how } => write!(f, "runs {task} {how}"),
            Control::Waits(calls) => {
                write!(f, "waits {}", calls.len())?;
                calls.iter().try_for_each(|call| write!(f, " {call}"))
            }
        }
    }
}

/// What an await answers.
#[derive(Clone, Debug, PartialEq, Eq, Hash)]
pub struct Awaited {
    /// Who has control now; it may be another task than the one that awaited.
    pub control: Control,
    /// The steps of the commit: 0 without one; 2 n - 1 where n gathers were opened; n + k on an error, k of them
    /// settled.
    pub steps: u16,
}

impl Display for Awaited {
    fn fmt(&self, f: &mut Formatter<'_>) -> fmt::Result {
        write!(f, "{} steps {}", self.control, self.steps)
    }
}

/// What the end of a task answers.
#[derive(Clone, Debug, PartialEq, Eq, Hash)]
pub enum TaskEnd {
    /// The session goes on.
    Control(Control),
    /// It was main: the session has ended with its value or its error.
    Finished(Result<Value, Error>),
}

impl Display for TaskEnd {
    fn fmt(&self, f: &mut Formatter<'_>) -> fmt::Result {
        match self {
            TaskEnd::Control(control) => control.fmt(f),
            TaskEnd::Finished(end) => write_finished(f, end),
        }
    }
}

/// What a resume answers.
#[derive(Clone, Debug, PartialEq, Eq, Hash)]
pub enum Resumed {
    /// The session goes on, or waits again.
    Control(Control),
    /// Nothing is ready and no call is pending: what main waits for will not come, as after a cancel of a task that its
    /// gather needs.
    Stalled,
}

impl Display for Resumed {
    fn fmt(&self, f: &mut Formatter<'_>) -> fmt::Result {
        match self {
            Resumed::Control(control) => control.fmt(f),
            Resumed::Stalled => f.write_str("stalled"),
        }
    }
}

/// A coroutine's state.
#[derive(Clone, Copy, Debug, PartialEq, Eq, Hash)]
pub enum CoroutineState {
    /// Made, not run.
    New,
    /// A task runs it, or it ran inside one.
    Running,
    /// Its task returned.
    Completed,
}

impl Display for CoroutineState {
    fn fmt(&self, f: &mut Formatter<'_>) -> fmt::Result {
        f.write_str(match self {
            CoroutineState::New => "new",
            CoroutineState::Running => "running",
            CoroutineState::Completed => "completed",
        })
    }
}

/// What an object is and has.
///
/// ```
/// assert_eq!(sozgarru::Shown::GatherPending.to_string(), "shows gather pending");
/// ```
#[derive(Clone, Debug, PartialEq, Eq, Hash)]
pub enum Shown {
    /// A coroutine.
    Coroutine {
        /// Its state.
        state: CoroutineState,
        /// Its function.
        function: u32,
    },
    /// An external future whose call is not answered.
    ExternalPending,
    /// An external future with its value.
    ExternalResolved(Value),
    /// An external future that failed.
    ExternalFailed(Error),
    /// A gather that nobody awaited yet.
    GatherPending,
    /// An awaited gather: each place in the order of its items, `None` where it is open.
    GatherAwaited(Vec<Option<Value>>),
    /// A completed gather: each value in its place.
    GatherCompleted(Vec<Value>),
    /// A gather that failed, with the first error.
    GatherFailed(Error),
}

impl Display for Shown {
    fn fmt(&self, f: &mut Formatter<'_>) -> fmt::Result {
        f.write_str("shows ")?;
        match self {
            Shown::Coroutine { state, function } => write!(f, "coroutine {state} {function}"),
            Shown::ExternalPending => f.write_str("external pending"),
            Shown::ExternalResolved(value) => write!(f, "external resolved {value}"),
            Shown::ExternalFailed(error) => write!(f, "external failed {error}"),
            Shown::GatherPending => f.write_str("gather pending"),
            Shown::GatherAwaited(places) => {
                write!(f, "gather awaited {}", places.len())?;
                places.iter().try_for_each(|place| match place {
                    None => f.write_str(" open"),
                    Some(value) => write!(f, " {value}"),
                })
            }
            Shown::GatherCompleted(values) => {
                write!(f, "gather completed {}", values.len())?;
                values.iter().try_for_each(|value| write!(f, " {value}"))
            }
            Shown::GatherFailed(error) => write!(f, "gather failed {error}"),
        }
    }
}

/// The answer to an accepted event or read, whichever it was. Its `Display` is document 01's line without the record's
/// number.
///
/// ```
/// assert_eq!(sozgarru::Answer::Done.to_string(), "done");
/// assert_eq!(sozgarru::Answer::Cancelled(2).to_string(), "done 2");
/// ```
#[derive(Clone, Debug, PartialEq, Eq, Hash)]
pub enum Answer {
    /// Of coroutine, pending, settled and gather: the object.
    Made(HeapId),
    /// Of call: the number handed out.
    Call(CallId),
    /// Of complete, fail and resume.
    Control(Control),
    /// Of await.
    Awaited(Awaited),
    /// Of results.
    Done,
    /// Of cancel: how many of the removed tasks stood in the ready queue.
    Cancelled(u16),
    /// Of resume.
    Stalled,
    /// Of complete and fail, where main ended.
    Finished(Result<Value, Error>),
    /// Of eager.
    Eager(bool),
    /// Of show.
    Shows(Shown),
}

impl Display for Answer {
    fn fmt(&self, f: &mut Formatter<'_>) -> fmt::Result {
        match self {
            Answer::Made(object) => write!(f, "made {object}"),
            Answer::Call(call) => write!(f, "call {call}"),
            Answer::Control(control) => control.fmt(f),
            Answer::Awaited(awaited) => awaited.fmt(f),
            Answer::Done => f.write_str("done"),
            Answer::Cancelled(queued) => write!(f, "done {queued}"),
            Answer::Stalled => f.write_str("stalled"),
            Answer::Finished(end) => write_finished(f, end),
            Answer::Eager(true) => f.write_str("eager yes"),
            Answer::Eager(false) => f.write_str("eager no"),
            Answer::Shows(shown) => shown.fmt(f),
        }
    }
}

fn write_finished(f: &mut Formatter<'_>, end: &Result<Value, Error>) -> fmt::Result {
    match end {
        Ok(value) => write!(f, "finished {value}"),
        Err(error) => write!(f, "finished error {error}"),
    }
}

/// Document 01's line of a whole answer, accepted or refused, without the record's number.
///
/// ```
/// use sozgarru::{Line, Refusal};
/// assert_eq!(Line(&Err(Refusal::WrongMoment)).to_string(), "refused 4");
/// ```
#[derive(Clone, Copy, Debug)]
pub struct Line<'a>(pub &'a Result<Answer, Refusal>);

impl Display for Line<'_> {
    fn fmt(&self, f: &mut Formatter<'_>) -> fmt::Result {
        match self.0 {
            Ok(answer) => answer.fmt(f),
            Err(refusal) => write!(f, "refused {}", refusal.number()),
        }
    }
}

/// Why an event was refused: a row of document 01's table. Nothing has changed.
///
/// ```
/// use sozgarru::Refusal;
/// assert_eq!(Refusal::try_from(9), Ok(Refusal::CancelOfMain));
/// assert_eq!(Refusal::CancelOfMain.number(), 9);
/// assert_eq!(Refusal::CancelOfMain.to_string(), "refused 9: cancel of main");
/// assert!(Refusal::try_from(12).is_err());
/// ```
#[derive(Clone, Copy, Debug, PartialEq, Eq, Hash)]
#[repr(u16)]
pub enum Refusal {
    /// A lent slice has a wrong length. The arrays of a [`Session`](crate::Session) have theirs: it never meets this.
    WrongLength = 1,
    /// The store is not sound. A [`Session`](crate::Session)'s is, unless something else in the process wrote into its
    /// memory: only [`dispatch_checked`](crate::Session::dispatch_checked) looks.
    Unsound = 2,
    /// The session has ended.
    Ended = 3,
    /// The event does not belong to this moment: a task runs, or none does.
    WrongMoment = 4,
    /// An object is not made, a task not live, a call number not handed out, or a list is of a gather that is not
    /// completed.
    Unknown = 5,
    /// The call is pending already.
    PendingAlready = 6,
    /// A 257th object, over 32 items, or over 512 item places in all.
    NoRoom = 7,
    /// All call numbers, 0 to 4,294,967,294, are handed out.
    NoCallNumber = 8,
    /// A cancel of main.
    CancelOfMain = 9,
    /// Over 64 results, or one that is none; nothing of the batch is applied.
    BadResults = 10,
    /// Bytes that are no record; only what reads records meets it.
    BadRecord = 11,
}

impl Refusal {
    const ALL: [Refusal; 11] = [
        Refusal::WrongLength,
        Refusal::Unsound,
        Refusal::Ended,
        Refusal::WrongMoment,
        Refusal::Unknown,
        Refusal::PendingAlready,
        Refusal::NoRoom,
        Refusal::NoCallNumber,
        Refusal::CancelOfMain,
        Refusal::BadResults,
        Refusal::BadRecord,
    ];

    /// Its number in document 01's table.
    pub const fn number(self) -> u16 {
        self as u16
    }

    /// What document 01's table says of it.
    pub const fn meaning(self) -> &'static str {
        match self {
            Refusal::WrongLength => "a store slice of wrong length, or under 256 words for the call list",
            Refusal::Unsound => "store not sound",
            Refusal::Ended => "session ended",
            Refusal::WrongMoment => "wrong moment",
            Refusal::Unknown => "object not made, task not live, call number not handed out, or list value of a gather not completed",
            Refusal::PendingAlready => "call number pending already",
            Refusal::NoRoom => "a 257th object, over 32 items, or over 512 item places in all",
            Refusal::NoCallNumber => "numbers 0 to 4,294,967,294 all handed out",
            Refusal::CancelOfMain => "cancel of main",
            Refusal::BadResults => "over 64 results, a kind above 4, a value tag above 1, or an error number of 2^32 or more; nothing applied",
            Refusal::BadRecord => "wrong mark, unknown kind, short record, flag or, outside results, tag above 1",
        }
    }
}

/// A number that is none of document 01's refusals.
#[derive(Clone, Copy, Debug, PartialEq, Eq, Hash)]
pub struct NoRefusal(pub u16);

impl Display for NoRefusal {
    fn fmt(&self, f: &mut Formatter<'_>) -> fmt::Result {
        write!(f, "{} is the number of no refusal: they are 1 to 11", self.0)
    }
}

impl std::error::Error for NoRefusal {}

impl TryFrom<u16> for Refusal {
    type Error = NoRefusal;

    fn try_from(number: u16) -> Result<Self, NoRefusal> {
        let found = Refusal::ALL.into_iter().find(|refusal| refusal.number() == number);
        found.ok_or(NoRefusal(number))
    }
}

impl Display for Refusal {
    fn fmt(&self, f: &mut Formatter<'_>) -> fmt::Result {
        write!(f, "refused {}: {}", self.number(), self.meaning())
    }
}

impl std::error::Error for Refusal {}
