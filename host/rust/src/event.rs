//! Events and reads as values, and as the records of document 01.
use crate::{CallId, HeapId, Outcome, TaskId, Value};
use std::borrow::Cow;

/// What every record starts with.
const MARK: [u8; 2] = [0xC3, 0x59];
/// The bytes of one result in a batch.
const RESULT: usize = 14;

/// An event or a read as one value, for a host that stores, replays or logs them.
#[derive(Clone, Debug, PartialEq, Eq)]
pub enum Event<'a> {
    /// The running task makes a coroutine of this function.
    Coroutine(u32),
    /// The running task calls the host.
    Call,
    /// The running task makes the external future of a call.
    Pending {
        /// The call. A number that was not handed out is refused with 5, [`u32::MAX`] always.
        call: u32,
        /// A result that replaces the host's.
        stored: Option<Value>,
    },
    /// The running task makes an external future that has its value already.
    Settled(Value),
    /// The running task makes a gather of these objects.
    Gather(Cow<'a, [HeapId]>),
    /// The running task awaits an object.
    Await(HeapId),
    /// The running task returns.
    Complete(Value),
    /// The running task raises the error script n.
    Fail(u32),
    /// The host answers calls, 14 bytes each: call 4, kind 1, tag 1, value 8, little-endian. A rest of 1 to 13 bytes is
    /// not read. [`Event::results`] makes it of typed results.
    Results(Cow<'a, [u8]>),
    /// The host hands control back.
    Resume,
    /// The operator cancels a task.
    Cancel(TaskId),
    /// What an object is and has: a read.
    Show(HeapId),
    /// May a call be answered at once: a read.
    Eager,
}

impl<'a> Event<'a> {
    /// The event that answers these calls.
    pub fn results(results: &[(CallId, Outcome)]) -> Event<'static> {
        let mut bytes = Vec::with_capacity(results.len() * RESULT);
        for (call, outcome) in results {
            bytes.extend_from_slice(&result_bytes(*call, *outcome));
        }
        Event::Results(Cow::Owned(bytes))
    }

    /// The kind byte of its record.
    pub fn kind(&self) -> u8 {
        match self {
            Event::Coroutine(_) => 1,
            Event::Call => 2,
            Event::Pending { .. } => 3,
            Event::Settled(_) => 4,
            Event::Gather(_) => 5,
            Event::Await(_) => 6,
            Event::Complete(_) => 7,
            Event::Fail(_) => 8,
            Event::Results(_) => 9,
            Event::Resume => 10,
            Event::Cancel(_) => 11,
            Event::Show(_) => 12,
            Event::Eager => 13,
        }
    }

    /// Is it a read, which changes nothing?
    pub fn is_read(&self) -> bool {
        matches!(self, Event::Show(_) | Event::Eager)
    }

    /// Appends the event as a record of document 01: records one after the other are a file that `drive` replays and
    /// `tools/records.py text` prints.
    ///
    /// ```
    /// use sozgarru::Event;
    /// let mut trace = Vec::new();
    /// Event::Coroutine(7).write_record(&mut trace)?;
    /// Event::Call.write_record(&mut trace)?;
    /// assert_eq!(trace, [0xC3, 0x59, 1, 7, 0, 0, 0, 0xC3, 0x59, 2]);
    /// # Ok::<(), sozgarru::NoRecord>(())
    /// ```
    ///
    /// # Errors
    /// A record counts its items or results in one byte: over 255 of them have no record, and nothing is written.
    /// (Every session refuses them.)
    pub fn write_record(&self, to: &mut Vec<u8>) -> Result<(), NoRecord> {
        let count = self.record_count()?;
        to.extend_from_slice(&MARK);
        to.push(self.kind());
        match self {
            Event::Coroutine(number) | Event::Fail(number) => to.extend_from_slice(&number.to_le_bytes()),
            Event::Pending { call, stored } => {
                to.extend_from_slice(&call.to_le_bytes());
                to.push(u8::from(stored.is_some()));
                to.extend_from_slice(&value_bytes(stored.unwrap_or(Value::Plain(0))));
            }
            Event::Settled(value) | Event::Complete(value) => to.extend_from_slice(&value_bytes(*value)),
            Event::Gather(items) => {
                to.push(count);
                to.extend(items.iter().flat_map(|item| item.number().to_le_bytes()));
            }
            Event::Await(object) | Event::Show(object) => to.extend_from_slice(&object.number().to_le_bytes()),
            Event::Cancel(task) => to.extend_from_slice(&task.number().to_le_bytes()),
            Event::Results(bytes) => {
                to.push(count);
                to.extend_from_slice(&bytes[..usize::from(count) * RESULT]);
            }
            Event::Call | Event::Resume | Event::Eager => {}
        }
        Ok(())
    }

    /// How many items or results its record has.
    fn record_count(&self) -> Result<u8, NoRecord> {
        let count = match self {
            Event::Gather(items) => items.len(),
            Event::Results(bytes) => bytes.len() / RESULT,
            _ => 0,
        };
        u8::try_from(count).map_err(|_| NoRecord { count })
    }

    /// Reads the record at the front of `bytes`: the event, and how many bytes it has. `None` is refusal 11: what
    /// stands there is no record.
    ///
    /// ```
    /// use sozgarru::{Event, HeapId};
    /// let bytes = [0xC3, 0x59, 6, 2, 0, 0xC3];
    /// assert_eq!(Event::read_record(&bytes), Some((Event::Await(HeapId::new(2)), 5)));
    /// assert_eq!(Event::read_record(&bytes[5..]), None);
    /// ```
    ///
    /// A record has 8 bytes for the number of a list. A list of a gather above 65,535 is read as list 65535: neither is
    /// ever made, and what names one gets the same refusal.
    pub fn read_record(bytes: &'a [u8]) -> Option<(Event<'a>, usize)> {
        let mut reader = Reader { rest: bytes };
        let event = reader.record()?;
        Some((event, bytes.len() - reader.rest.len()))
    }
}

/// An event that has no record: it counts over 255 items or results.
#[derive(Clone, Copy, Debug, PartialEq, Eq)]
pub struct NoRecord {
    /// How many items or results it has.
    pub count: usize,
}

impl std::fmt::Display for NoRecord {
    fn fmt(&self, f: &mut std::fmt::Formatter<'_>) -> std::fmt::Result {
        write!(f, "{} items or results: a record has at most 255", self.count)
    }
}

impl std::error::Error for NoRecord {}

/// A tag byte and 8 bytes.
fn value_bytes(value: Value) -> [u8; 9] {
    let (tag, number) = match value {
        Value::Plain(number) => (0, number),
        Value::List(gather) => (1, u64::from(gather.number())),
    };
    let mut bytes = [tag; 9];
    bytes[1..].copy_from_slice(&number.to_le_bytes());
    bytes
}

/// One result of a batch.
fn result_bytes(call: CallId, outcome: Outcome) -> [u8; RESULT] {
    let (kind, value) = match outcome {
        Outcome::Return(value) => (0, value),
        Outcome::Error(number) => (1, Value::Plain(u64::from(number))),
        Outcome::StillFuture => (2, Value::Plain(0)),
        Outcome::NotFound => (3, Value::Plain(0)),
        Outcome::ModuleFile => (4, Value::Plain(0)),
    };
    let mut bytes = [0; RESULT];
    bytes[..4].copy_from_slice(&call.number().to_le_bytes());
    bytes[4] = kind;
    bytes[5..].copy_from_slice(&value_bytes(value));
    bytes
}

/// What of a record is not read yet.
struct Reader<'a> {
    rest: &'a [u8],
}

impl<'a> Reader<'a> {
    fn take(&mut self, count: usize) -> Option<&'a [u8]> {
        let (taken, rest) = self.rest.split_at_checked(count)?;
        self.rest = rest;
        Some(taken)
    }

    fn array<const N: usize>(&mut self) -> Option<[u8; N]> {
        self.take(N)?.try_into().ok()
    }

    fn byte(&mut self) -> Option<u8> {
        self.array().map(u8::from_le_bytes)
    }

    fn short(&mut self) -> Option<u16> {
        self.array().map(u16::from_le_bytes)
    }

    fn number(&mut self) -> Option<u32> {
        self.array().map(u32::from_le_bytes)
    }

    fn object(&mut self) -> Option<HeapId> {
        self.short().map(HeapId::new)
    }

    fn value(&mut self) -> Option<Value> {
        let tag = self.byte()?;
        let number = self.array().map(u64::from_le_bytes)?;
        match tag {
            0 => Some(Value::Plain(number)),
            1 => Some(Value::List(HeapId::new(u16::try_from(number).unwrap_or(u16::MAX)))),
            _ => None,
        }
    }

    fn pending(&mut self) -> Option<Event<'a>> {
        let call = self.number()?;
        let stored = match self.byte()? {
            0 => {
                self.take(9)?;
                None
            }
            1 => Some(self.value()?),
            _ => return None,
        };
        Some(Event::Pending { call, stored })
    }

    fn gather(&mut self) -> Option<Event<'a>> {
        let count = usize::from(self.byte()?);
        let items: Option<Vec<HeapId>> = (0..count).map(|_| self.object()).collect();
        items.map(|items| Event::Gather(Cow::Owned(items)))
    }

    fn results(&mut self) -> Option<Event<'a>> {
        let count = usize::from(self.byte()?);
        self.take(count * RESULT).map(|bytes| Event::Results(Cow::Borrowed(bytes)))
    }

    fn record(&mut self) -> Option<Event<'a>> {
        if self.array()? != MARK {
            return None;
        }
        match self.byte()? {
            1 => self.number().map(Event::Coroutine),
            2 => Some(Event::Call),
            3 => self.pending(),
            4 => self.value().map(Event::Settled),
            5 => self.gather(),
            6 => self.object().map(Event::Await),
            7 => self.value().map(Event::Complete),
            8 => self.number().map(Event::Fail),
            9 => self.results(),
            10 => Some(Event::Resume),
            11 => self.short().map(TaskId::new).map(Event::Cancel),
            12 => self.object().map(Event::Show),
            13 => Some(Event::Eager),
            _ => None,
        }
    }
}
