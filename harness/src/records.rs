//! Document 01's records: reading one, and how many bytes it has.

const MARK: [u8; 2] = [0xC3, 0x59];

/// A value as it stands in a record. The tag is checked by the reader, except in results.
#[derive(Clone, Copy)]
pub(crate) struct Raw {
    pub tag: u8,
    pub bits: u64,
}

pub(crate) struct RawResult {
    pub call: u32,
    pub kind: u8,
    pub value: Raw,
}

pub(crate) enum Record {
    Coroutine { function: u32 },
    Call,
    Pending { call: u32, stored: Option<Raw> },
    Settled { value: Raw },
    Gather { items: Vec<u16> },
    Await { object: u16 },
    Complete { value: Raw },
    Fail { number: u32 },
    Results { results: Vec<RawResult> },
    Resume,
    Cancel { task: u16 },
    Show { object: u16 },
    Eager,
}

pub(crate) struct Reader<'a> {
    pub bytes: &'a [u8],
}

impl Reader<'_> {
    fn take<const N: usize>(&mut self) -> Option<[u8; N]> {
        let (head, rest) = self.bytes.split_first_chunk::<N>()?;
        self.bytes = rest;
        Some(*head)
    }

    fn byte(&mut self) -> Option<u8> {
        self.take::<1>().map(|[b]| b)
    }

    fn u16(&mut self) -> Option<u16> {
        self.take().map(u16::from_le_bytes)
    }

    fn u32(&mut self) -> Option<u32> {
        self.take().map(u32::from_le_bytes)
    }

    fn any_value(&mut self) -> Option<Raw> {
        let tag = self.byte()?;
        let bits = u64::from_le_bytes(self.take()?);
        Some(Raw { tag, bits })
    }

    fn value(&mut self) -> Option<Raw> {
        self.any_value().filter(|value| value.tag <= 1)
    }

    /// The next record; `None` is refusal 11.
    pub fn record(&mut self) -> Option<Record> {
        if self.take()? != MARK {
            return None;
        }
        Some(match self.byte()? {
            1 => Record::Coroutine { function: self.u32()? },
            2 => Record::Call,
            3 => {
                let call = self.u32()?;
                let flag = self.byte()?;
                // The nine bytes stand there at flag 0 too, and are not looked at.
                let stored = self.any_value()?;
                let stored = match flag {
                    0 => None,
                    1 if stored.tag <= 1 => Some(stored),
                    _ => return None,
                };
                Record::Pending { call, stored }
            }
            4 => Record::Settled { value: self.value()? },
            5 => {
                let count = self.byte()?;
                let items = (0..count).map(|_| self.u16()).collect::<Option<_>>()?;
                Record::Gather { items }
            }
            6 => Record::Await { object: self.u16()? },
            7 => Record::Complete { value: self.value()? },
            8 => Record::Fail { number: self.u32()? },
            9 => {
                let count = self.byte()?;
                let results = (0..count)
                    .map(|_| {
                        Some(RawResult {
                            call: self.u32()?,
                            kind: self.byte()?,
                            value: self.any_value()?,
                        })
                    })
                    .collect::<Option<_>>()?;
                Record::Results { results }
            }
            10 => Record::Resume,
            11 => Record::Cancel { task: self.u16()? },
            12 => Record::Show { object: self.u16()? },
            13 => Record::Eager,
            _ => return None,
        })
    }
}
