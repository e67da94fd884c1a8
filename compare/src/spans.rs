//! docs/SCOPE.md, Find first, show afterwards, by the plain rule, each sentence over
//! the whole list: which lists of spans are taken, what is shown beside them, and the
//! stretches between them; and rules that are wrong.

use crate::library::Part;
use crate::table;

/// How many numbers a span has: start, stop, and 0 for inline or 1 for a block.
pub const NUMBERS: usize = 3;

/// The refusal of spans.
pub const WRONG_SPANS: u8 = 12;

/// No stretch.
pub const NO_PART: Part = Part {
    start: 0,
    length: 0,
};

/// More than any number of a list.
const ANY: i64 = 1 << 40;

/// The numbers of a rule.
#[derive(Clone, Copy)]
pub struct Rule {
    /// A list has a multiple of so many numbers.
    whole: usize,
    /// A start stands at most so far before the stop of the span before.
    back: i64,
    /// A stop stands at least so far behind its start.
    least: i64,
    /// A stop stands at most so far behind the bulletin's end.
    past: i64,
    /// The greatest kind.
    kind: i64,
}

pub const RIGHT: Rule = Rule {
    whole: NUMBERS,
    back: 0,
    least: 1,
    past: 0,
    kind: 1,
};

/// Rules that have one number wrong, each by the name of what it wrongly takes or does
/// not take. By the lists of a run each must be told from the right one, as the library's
/// would then be, were it that one.
pub const WRONG: [(&str, Rule); 11] = [
    ("cut off", Rule { whole: 1, ..RIGHT }),
    ("any order", Rule { back: ANY, ..RIGHT }),
    ("overlapping by one", Rule { back: 1, ..RIGHT }),
    ("none touching", Rule { back: -1, ..RIGHT }),
    (
        "stop before start",
        Rule {
            least: -ANY,
            ..RIGHT
        },
    ),
    ("stop at start", Rule { least: 0, ..RIGHT }),
    ("no single byte", Rule { least: 2, ..RIGHT }),
    ("past the end", Rule { past: ANY, ..RIGHT }),
    ("past by one", Rule { past: 1, ..RIGHT }),
    ("kind 2", Rule { kind: 2, ..RIGHT }),
    ("no block", Rule { kind: 0, ..RIGHT }),
];

/// The spans of a list, each with its start, stop and kind.
fn spans(list: &[u32]) -> impl Iterator<Item = [i64; NUMBERS]> + '_ {
    let whole = list.chunks_exact(NUMBERS);
    whole.map(|span| [span[0], span[1], span[2]].map(i64::from))
}

impl Rule {
    /// Whether a list is taken for a bulletin of so many bytes.
    pub fn takes(&self, list: &[u32], length: usize) -> bool {
        let end = length as i64;
        let is_whole = list.len() % self.whole == 0;
        let mut pairs = spans(list).zip(spans(list).skip(1));
        let in_order = pairs.all(|(one, next)| one[1] - next[0] <= self.back);
        let are_long = spans(list).all(|[start, stop, _]| stop - start >= self.least);
        let are_within = spans(list).all(|[_, stop, _]| stop - end <= self.past);
        let are_of_kind = spans(list).all(|[_, _, kind]| kind <= self.kind);
        is_whole && in_order && are_long && are_within && are_of_kind
    }
}

/// The refusal of showing, but for that of the buffer.
pub fn refusal(bulletin: &[u8], list: &[u32]) -> u8 {
    if bulletin.len() > table::LIMIT {
        1
    } else if RIGHT.takes(list, bulletin.len()) {
        0
    } else {
        WRONG_SPANS
    }
}

/// The bytes of a bulletin that no span of a list holds.
pub fn beside(bulletin: &[u8], list: &[u32]) -> Vec<u8> {
    let mut held = vec![false; bulletin.len()];
    for [start, stop, _] in spans(list) {
        if let Some(part) = held.get_mut(start as usize..stop as usize) {
            part.fill(true);
        }
    }
    let bytes = bulletin.iter().zip(held);
    bytes
        .filter(|(_, held)| !held)
        .map(|(byte, _)| *byte)
        .collect()
}

/// The stretch of a number, of a list that is taken: between two spans, as if one stopped
/// at the bulletin's start and one began at its end.
pub fn stretch(list: &[u32], length: usize, number: usize) -> Part {
    let stops = spans(list).map(|[_, stop, _]| stop as usize);
    let starts = spans(list).map(|[start, ..]| start as usize);
    let start = [0].into_iter().chain(stops).nth(number);
    let stop = starts.chain([length]).nth(number);
    match (start, stop) {
        (Some(start), Some(stop)) => Part {
            start,
            length: stop - start,
        },
        _ => NO_PART,
    }
}

/// Which wrong rules a list tells from the right one.
pub fn told(bulletin: &[u8], list: &[u32]) -> [bool; WRONG.len()] {
    let length = bulletin.len();
    let taken = RIGHT.takes(list, length);
    WRONG.map(|(_, wrong)| length <= table::LIMIT && wrong.takes(list, length) != taken)
}
