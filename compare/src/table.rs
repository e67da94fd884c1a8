//! The table of refusals of docs/SCOPE.md, and trace reading, written down
//! plainly. A refusal of 0 is none.

use reference::{holds_blank_line, line_starts, EVENT_LENGTH, FIELD_LENGTH, LAST_LENGTH};

/// docs/SCOPE.md, What is read and given: at most 1,000,000 bytes.
pub const LIMIT: usize = 1_000_000;

/// The refusal of an output buffer.
pub const NO_ROOM: u8 = 7;

/// docs/SCOPE.md, Old traces across and back: the refusal of a trace that has a
/// field which two bytes do not hold.
pub const NOT_NARROW: u8 = 11;

/// The refusal of a bulletin and its flags.
pub fn bulletin(bulletin: &[u8], flags: &[u8]) -> u8 {
    if bulletin.len() > LIMIT {
        1
    } else if flags.len() != line_starts(bulletin).len() {
        2
    } else if flags.iter().any(|flag| *flag > 3) {
        3
    } else {
        0
    }
}

/// The refusal of a block scan.
pub fn block(text: &[u8], flags: &[u8], index: usize) -> u8 {
    let refusal = bulletin(text, flags);
    if refusal == 0 && !line_starts(text).contains(&index) {
        return 4;
    }
    refusal
}

/// The refusal of an inline scan.
pub fn inline(text: &[u8], index: usize, carry: u8) -> u8 {
    if text.len() > LIMIT {
        1
    } else if index > text.len() {
        4
    } else if carry > 5 {
        5
    } else if holds_blank_line(text) {
        6
    } else {
        0
    }
}

/// The bytes of the record of a number, counted from 0, or the refusal.
pub fn record(trace: &[u8], number: usize) -> Result<&[u8], u8> {
    let mut rest = trace;
    let mut passed = 0;
    loop {
        let length = match rest.first() {
            None => return Err(9),
            Some(1..=12) => EVENT_LENGTH,
            Some(13 | 14) => LAST_LENGTH,
            Some(_) => return Err(8),
        };
        if rest.len() < length {
            return Err(9);
        }
        if passed == number {
            return Ok(&rest[..length]);
        }
        rest = &rest[length..];
        passed += 1;
    }
}

/// The number in a field of a record, by its place behind the kind: 0, 1 and 2 are
/// the line, column and index of an event, 0 is the stop of the last record.
pub fn field(record: &[u8], place: usize) -> usize {
    let from = 1 + place * FIELD_LENGTH;
    let bytes = &record[from..from + FIELD_LENGTH];
    bytes
        .iter()
        .rev()
        .fold(0, |number, byte| 256 * number + usize::from(*byte))
}
