//! The numbers of an answer (`crates/machine/specs/Answers.antt`) as types.
//!
//! The archive's contracts say which numbers an answer has. Others can only come of an archive that is not the one of
//! this crate's declarations: that is no event of a session, and panics.
use crate::raw::Numbers;
use crate::{Answer, Awaited, CallId, Control, CoroutineState, Error, HeapId, How, Refusal, Shown, TaskId, Value};

/// The answer that the numbers are. `calls` is the list as the event left it; `place` reads one place of the gather that
/// is shown.
pub(crate) fn answer(numbers: &Numbers, calls: &[u64], place: impl Fn(u16) -> Numbers) -> Result<Answer, Refusal> {
    let mut values = accepted(numbers)?;
    Ok(match numbers.word {
        1 => Answer::Made(values.object()),
        2 => Answer::Call(CallId::new(values.number())),
        3 => {
            let control = values.runs();
            values.control(control)
        }
        4 => {
            let control = values.waits(calls);
            values.control(control)
        }
        5 => values.done(),
        6 => Answer::Stalled,
        7 => Answer::Finished(values.finished()),
        8 => Answer::Eager(values.yes()),
        10 => Answer::Shows(values.shown(place)),
        word => impossible("an answer's word", word),
    })
}

/// The values of an accepted answer.
fn accepted(numbers: &Numbers) -> Result<Values<'_>, Refusal> {
    match numbers.refusal {
        0 => Ok(Values::of(numbers)),
        number => Err(refusal(number)),
    }
}

fn refusal(number: u64) -> Refusal {
    let refusal = u16::try_from(number).ok().and_then(|number| Refusal::try_from(number).ok());
    refusal.unwrap_or_else(|| impossible("a refusal", number))
}

fn impossible(what: &str, number: u64) -> ! {
    panic!("{number} is not {what}: the linked libsozgarru.a is not the one of this crate's declarations")
}

/// The values of an answer that are not read yet.
struct Values<'a> {
    rest: &'a [u64],
}

impl<'a> Values<'a> {
    fn of(numbers: &'a Numbers) -> Values<'a> {
        let count = usize::try_from(numbers.count).ok();
        let values = count.and_then(|count| numbers.values.get(..count));
        Values { rest: values.unwrap_or_else(|| impossible("a count of values", numbers.count)) }
    }

    fn next(&mut self) -> u64 {
        let Some((first, rest)) = self.rest.split_first() else { impossible("enough values", 0) };
        self.rest = rest;
        *first
    }

    fn yes(&mut self) -> bool {
        match self.next() {
            0 => false,
            1 => true,
            number => impossible("yes or no", number),
        }
    }

    fn short(&mut self) -> u16 {
        let number = self.next();
        u16::try_from(number).unwrap_or_else(|_| impossible("a number of 16 bits", number))
    }

    fn number(&mut self) -> u32 {
        let number = self.next();
        u32::try_from(number).unwrap_or_else(|_| impossible("a number of 32 bits", number))
    }

    fn object(&mut self) -> HeapId {
        HeapId::new(self.short())
    }

    fn value(&mut self) -> Value {
        match self.next() {
            0 => Value::Plain(self.next()),
            1 => Value::List(self.object()),
            tag => impossible("a value's tag", tag),
        }
    }

    fn error(&mut self) -> Error {
        let (tag, number) = (self.next(), self.number());
        match tag {
            0 => Error::Host(number),
            1 => Error::Script(number),
            2 => Error::CoroutineReuse,
            3 => Error::FutureReuse,
            4 => Error::GatherReuse,
            5 => Error::NotFound,
            6 => Error::ModuleFile,
            tag => impossible("an error's tag", tag),
        }
    }

    fn finished(&mut self) -> Result<Value, Error> {
        match self.next() {
            0 => Ok(self.value()),
            1 => Err(self.error()),
            tag => impossible("an end's tag", tag),
        }
    }

    fn how(&mut self) -> How {
        match self.next() {
            0 => How::Start { coroutine: self.object(), function: self.number() },
            1 => How::Value(self.value()),
            2 => How::Raised(self.error()),
            3 => How::Inline(self.object()),
            tag => impossible("a way to go on", tag),
        }
    }

    fn runs(&mut self) -> Control {
        Control::Runs { task: TaskId::new(self.short()), how: self.how() }
    }

    fn waits(&mut self, calls: &[u64]) -> Control {
        let count = self.next();
        let waiting = usize::try_from(count).ok().and_then(|count| calls.get(..count));
        let waiting = waiting.unwrap_or_else(|| impossible("a count of calls", count));
        let call = |&number: &u64| CallId::new(u32::try_from(number).unwrap_or_else(|_| impossible("a call", number)));
        Control::Waits(waiting.iter().map(call).collect())
    }

    /// An await's values end with its steps; no other answer's do.
    fn control(&mut self, control: Control) -> Answer {
        if self.rest.is_empty() {
            Answer::Control(control)
        } else {
            let steps = self.short();
            Answer::Awaited(Awaited { control, steps })
        }
    }

    /// A cancel has its count; results have no value.
    fn done(&mut self) -> Answer {
        match self.rest {
            [] => Answer::Done,
            [_] => Answer::Cancelled(self.short()),
            more => impossible("a count of values", more.len() as u64),
        }
    }

    fn coroutine_state(&mut self) -> CoroutineState {
        match self.next() {
            0 => CoroutineState::New,
            1 => CoroutineState::Running,
            2 => CoroutineState::Completed,
            state => impossible("a coroutine's state", state),
        }
    }

    fn shown(&mut self, place: impl Fn(u16) -> Numbers) -> Shown {
        match self.next() {
            0 => Shown::Coroutine { state: self.coroutine_state(), function: self.number() },
            1 => self.external(),
            2 => self.gather(place),
            sort => impossible("an object's sort", sort),
        }
    }

    fn external(&mut self) -> Shown {
        match self.next() {
            0 => Shown::ExternalPending,
            1 => Shown::ExternalResolved(self.value()),
            2 => Shown::ExternalFailed(self.error()),
            state => impossible("an external's state", state),
        }
    }

    fn gather(&mut self, place: impl Fn(u16) -> Numbers) -> Shown {
        match self.next() {
            0 => Shown::GatherPending,
            1 => Shown::GatherAwaited((0..self.short()).map(|i| place_value(&place(i))).collect()),
            2 => Shown::GatherCompleted((0..self.short()).map(|i| filled(&place(i))).collect()),
            3 => Shown::GatherFailed(self.error()),
            state => impossible("a gather's state", state),
        }
    }
}

/// A place of an awaited gather.
fn place_value(numbers: &Numbers) -> Option<Value> {
    if numbers.word != 10 {
        impossible("a place's word", numbers.word);
    }
    let mut values = Values::of(numbers);
    match values.next() {
        0 => None,
        1 => Some(values.value()),
        tag => impossible("a place's tag", tag),
    }
}

/// A place of a completed gather: none of them is open.
fn filled(numbers: &Numbers) -> Value {
    place_value(numbers).unwrap_or_else(|| impossible("a filled place", 0))
}

#[cfg(test)]
mod tests {
    use super::*;

    /// What a word 5 with these values is.
    fn done(values: &[u64]) -> Result<Answer, Refusal> {
        let mut all = [0; 6];
        all[..values.len()].copy_from_slice(values);
        let numbers = Numbers { refusal: 0, word: 5, count: values.len() as u64, values: all };
        answer(&numbers, &[], |_| unreachable!("nothing is shown"))
    }

    #[test]
    fn done_has_a_count_or_none() {
        assert_eq!(done(&[]), Ok(Answer::Done));
        for queued in [0, 1, 2, 125, u16::MAX] {
            assert_eq!(done(&[queued.into()]), Ok(Answer::Cancelled(queued)));
        }
    }

    #[test]
    #[should_panic(expected = "65536 is not a number of 16 bits")]
    fn a_count_has_16_bits() {
        let _ = done(&[65_536]);
    }

    #[test]
    #[should_panic(expected = "2 is not a count of values")]
    fn done_has_one_value_at_most() {
        let _ = done(&[1, 0]);
    }
}
