//! Which states a scan visits, and on what byte: noted in the dispatch, for
//! each thread by itself.

use crate::state::Name;
use crate::tokenizer::Tokenizer;
use std::cell::Cell;

/// How many states may be noted.
const STATES: usize = 80;

/// How many classes of bytes are told apart.
pub const CLASSES: usize = 28;

thread_local! {
    static VISITED: [Cell<u32>; STATES] = const { [const { Cell::new(0) }; STATES] };
}

/// For each state in the order of `Name`, a bit for each class of byte.
pub type Visited = [u32; STATES];

/// What was visited since the last call, which forgets it.
pub fn take_visited() -> Visited {
    let mut all = [0; STATES];
    VISITED.with(|visited| {
        for (bits, cell) in all.iter_mut().zip(visited) {
            *bits = cell.replace(0);
        }
    });
    all
}

/// The places of the states of html_flow.rs.
pub fn flow_states() -> core::ops::RangeInclusive<usize> {
    Name::HtmlFlowStart as usize..=Name::HtmlFlowBlankLineBefore as usize
}

/// The places of the states of html_text.rs.
pub fn text_states() -> core::ops::RangeInclusive<usize> {
    Name::HtmlTextStart as usize..=Name::HtmlTextLineEndingAfterPrefix as usize
}

/// Called before each state.
#[inline]
pub(crate) fn note(tokenizer: &Tokenizer, name: Name) {
    let bit = 1 << class(tokenizer);
    VISITED.with(|visited| {
        let cell = &visited[name as usize];
        cell.set(cell.get() | bit);
    });
}

/// Class of the byte that a state sees; the three line endings, and a tab's
/// first and further readings, are told apart.
fn class(tokenizer: &Tokenizer) -> u32 {
    let Some(byte) = tokenizer.current else {
        return 0;
    };
    let index = tokenizer.point.index;
    let bytes = tokenizer.parse_state.bytes;
    match byte {
        b'\n' if bytes.get(index) == Some(&b'\r') => 1,
        b'\n' if index > 0 && bytes[index - 1] == b'\r' => 2,
        b'\n' => 3,
        b'\t' => 4,
        b' ' if tokenizer.point.vs > 0 => 5,
        b' ' => 6,
        b'<' => 7,
        b'>' => 8,
        b'!' => 9,
        b'?' => 10,
        b'-' => 11,
        b'/' => 12,
        b'=' => 13,
        b'"' => 14,
        b'\'' => 15,
        b'`' => 16,
        b'[' => 17,
        b']' => 18,
        b'_' => 19,
        b':' => 20,
        b'.' => 21,
        b'0'..=b'9' => 22,
        b'C' | b'D' | b'A' | b'T' => 23,
        b'B' | b'E'..=b'S' | b'U'..=b'Z' => 24,
        b'a'..=b'z' => 25,
        0..=0x7f => 26,
        _ => 27,
    }
}
