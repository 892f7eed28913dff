//! The checksum of a snapshot: CRC-32 (IEEE), as zlib has it, eight bytes at a time.

/// `TABLES[k][b]`: what the byte b leaves after k bytes of 0 behind it.
static TABLES: [[u32; 256]; 8] = tables();

const fn tables() -> [[u32; 256]; 8] {
    let mut tables = [[0; 256]; 8];
    let mut byte: u32 = 0;
    while byte < 256 {
        let mut state = byte;
        let mut k = 0;
        while k < 8 {
            state = after_zero(state);
            tables[k][byte as usize] = state;
            k += 1;
        }
        byte += 1;
    }
    tables
}

/// The state after one byte of 0.
const fn after_zero(mut state: u32) -> u32 {
    let mut bit = 0;
    while bit < 8 {
        state = (state >> 1) ^ if state & 1 == 1 { 0xEDB8_8320 } else { 0 };
        bit += 1;
    }
    state
}

/// The checksum of all these bytes.
pub(crate) fn crc32(bytes: &[u8]) -> u32 {
    let mut state = u32::MAX;
    let (eights, rest) = bytes.split_at(bytes.len() / 8 * 8);
    for eight in eights.chunks_exact(8) {
        let word = u64::from_le_bytes(eight.try_into().expect("eight bytes")) ^ u64::from(state);
        state =
            word.to_le_bytes().iter().zip(TABLES.iter().rev()).fold(0, |sum, (b, table)| sum ^ table[usize::from(*b)]);
    }
    for byte in rest {
        state = after_zero(state ^ u32::from(*byte));
    }
    !state
}
