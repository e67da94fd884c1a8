//! Trace bytes: one byte of kind, then its body, numbers low byte first.

use crate::scan::{block, inline, Block, Ev, Inline};

const INLINE_END: u8 = 13;
const BLOCK_END: u8 = 14;

/// How many bytes a line, a column, an index or a stop has.
pub const FIELD_LENGTH: usize = 4;

/// How many an event's record has: kind, line, column, index, vs.
pub const EVENT_LENGTH: usize = 1 + 3 * FIELD_LENGTH + 1;

/// How many the last record has: kind, stop, and the carry or block kind.
pub const LAST_LENGTH: usize = 1 + FIELD_LENGTH + 1;

/// Trace of an inline scan: its events, then 13, stop, carry.
pub fn trace_inline(text: &[u8], index: usize, carry: usize) -> Vec<u8> {
    inline(text, index, carry).trace()
}

/// Trace of a block scan: its events, then 14, stop, block kind.
pub fn trace_block(bulletin: &[u8], flags: &[u8], index: usize) -> Vec<u8> {
    block(bulletin, flags, index).trace()
}

impl Inline {
    pub fn trace(&self) -> Vec<u8> {
        let carry = u8::try_from(self.carry).expect("a carry is at most 5");
        trace(&self.events, INLINE_END, self.stop, carry)
    }
}

impl Block {
    pub fn trace(&self) -> Vec<u8> {
        trace(&self.events, BLOCK_END, self.stop, self.kind)
    }
}

fn trace(events: &[Ev], end: u8, stop: usize, last: u8) -> Vec<u8> {
    let mut out = Vec::with_capacity(EVENT_LENGTH * events.len() + LAST_LENGTH);
    for event in events {
        out.push(event.kind);
        field(&mut out, event.line);
        field(&mut out, event.column);
        field(&mut out, event.index);
        out.push(u8::try_from(event.vs).expect("a tab has at most 4 readings"));
    }
    out.push(end);
    field(&mut out, stop);
    out.push(last);
    out
}

fn field(out: &mut Vec<u8>, number: usize) {
    let number = u32::try_from(number).expect("a field has four bytes");
    let bytes: [u8; FIELD_LENGTH] = number.to_le_bytes();
    out.extend_from_slice(&bytes);
}
