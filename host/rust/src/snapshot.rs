//! A session as bytes, and back.
use crate::checksum::crc32;
use crate::raw::{blank, Memory, SoundMemory, VERSION};
use crate::Session;
use std::fmt;

const MARK: [u8; 8] = *b"SOZGARRU";

/// Why bytes are no session. They are not run.
#[derive(Clone, Copy, Debug, PartialEq, Eq, Hash)]
pub enum NotASession {
    /// Not as many bytes as a snapshot has.
    Length,
    /// They do not begin with the mark.
    Mark,
    /// A snapshot of another version of the layout.
    Version,
    /// Its bytes are not those that its checksum is of.
    Damaged,
    /// The store in it is not sound: it was made up, with its checksum.
    Unsound,
}

impl fmt::Display for NotASession {
    fn fmt(&self, f: &mut fmt::Formatter<'_>) -> fmt::Result {
        f.write_str(match self {
            NotASession::Length => "no snapshot: it has not its length",
            NotASession::Mark => "no snapshot: it has not its mark",
            NotASession::Version => "a snapshot of another version of the layout",
            NotASession::Damaged => "a damaged snapshot: its checksum is of other bytes",
            NotASession::Unsound => "no snapshot of a session: the store in it is not sound",
        })
    }
}

impl std::error::Error for NotASession {}

impl Session {
    /// How many bytes a snapshot has: 66,718.
    pub const SNAPSHOT_LENGTH: usize = 16 + 8 * (4104 + 2056 + 2048) + 2 * 513 + 8 + 4;

    /// The session as bytes: the mark, the version of the layout, the words of the store, the ready queue, its count,
    /// and the CRC-32 (IEEE) of all these, little-endian. A trace is not in it.
    ///
    /// ```
    /// use sozgarru::{Session, Value};
    /// let mut s = Session::new();
    /// s.coroutine(7)?;
    /// let bytes = s.snapshot();
    /// assert_eq!(bytes.len(), Session::SNAPSHOT_LENGTH);
    /// let mut again = Session::restore(&bytes).expect("what snapshot wrote");
    /// assert_eq!(again.complete(Value::Plain(9))?.to_string(), "finished plain 9");
    /// # Ok::<(), sozgarru::Refusal>(())
    /// ```
    pub fn snapshot(&self) -> Vec<u8> {
        let m = self.memory.memory();
        let mut bytes = Vec::with_capacity(Session::SNAPSHOT_LENGTH);
        bytes.extend_from_slice(&MARK);
        bytes.extend_from_slice(&VERSION.to_le_bytes());
        for words in [&m.tasks[..], &m.objects[..], &m.places[..]] {
            bytes.extend(words.iter().flat_map(|word| word.to_le_bytes()));
        }
        bytes.extend(m.ids.iter().flat_map(|id| id.to_le_bytes()));
        // a queue's count is at most 513
        bytes.extend_from_slice(&(m.len as u64).to_le_bytes());
        bytes.extend_from_slice(&crc32(&bytes).to_le_bytes());
        bytes
    }

    /// The session of a snapshot. Its bytes are checked: damaged ones are refused, and so is what is no sound store; they
    /// are never run. The checksum is for damage by chance: who writes another sound store writes its checksum too.
    ///
    /// # Errors
    /// [`NotASession`] says what the bytes are not: the first of its rows that holds.
    ///
    /// # Panics
    /// If the linked archive has another version of the layout than this crate.
    pub fn restore(bytes: &[u8]) -> Result<Session, NotASession> {
        if bytes.len() != Session::SNAPSHOT_LENGTH {
            return Err(NotASession::Length);
        }
        let (summed, sum) = bytes.split_last_chunk().expect("as many bytes as a snapshot has");
        let mut rest = Rest(summed);
        if rest.next() != MARK {
            return Err(NotASession::Mark);
        }
        if u64::from_le_bytes(rest.next()) != VERSION {
            return Err(NotASession::Version);
        }
        if u32::from_le_bytes(*sum) != crc32(summed) {
            return Err(NotASession::Damaged);
        }
        let memory = read_memory(&mut rest).ok_or(NotASession::Unsound)?;
        SoundMemory::check(memory).map(Session::of).ok_or(NotASession::Unsound)
    }
}

/// The bytes of a snapshot that are not read yet. The length was checked: there are enough of them.
struct Rest<'a>(&'a [u8]);

impl Rest<'_> {
    fn next<const N: usize>(&mut self) -> [u8; N] {
        let (first, rest) = self.0.split_first_chunk().expect("as many bytes as a snapshot has");
        self.0 = rest;
        *first
    }
}

/// The memory of a snapshot; nothing where its count is above every count.
fn read_memory(rest: &mut Rest<'_>) -> Option<Box<Memory>> {
    let mut memory = blank();
    let m = &mut *memory;
    for words in [&mut m.tasks[..], &mut m.objects[..], &mut m.places[..]] {
        words.fill_with(|| u64::from_le_bytes(rest.next()));
    }
    m.ids.fill_with(|| u16::from_le_bytes(rest.next()));
    m.len = usize::try_from(u64::from_le_bytes(rest.next())).ok()?;
    Some(memory)
}
