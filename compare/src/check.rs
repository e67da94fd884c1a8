//! One comparison of each kind: what the Rust and the table and rules of
//! docs/SCOPE.md say against what the library says.

use crate::closer;
use crate::conversion::{self, Way};
use crate::families::ALL_STRETCHES;
use crate::filter;
use crate::lent::{same_units, Lent};
use crate::library;
use crate::spans;
use crate::table;
use crate::withhold::{self, Pieces};
use reference::EVENT_LENGTH;
use std::fmt::Debug;
use std::mem::take;

/// The most records of a trace of which each is read, and about how many are, beside
/// the last ones, where there are more.
const ALL_READ: usize = 64;
const READ_OF_LONG: usize = 8;

/// About how many stretches are asked for, beside the last ones, of more spans than all
/// are asked for of.
const SOME_STRETCHES: usize = 8;

/// The rooms of a buffer with which a call is tried that is refused whatever the
/// room.
const ROOMS: [usize; 2] = [0, 40];

/// What differs where a record does, and with what begins what differs where the
/// conversion of a scan's trace does.
pub const RECORD: &str = "the record read";
pub const CONVERSION: &str = "the trace taken across: ";

/// Where the two differ: what was asked, the Rust's answer, the library's.
pub struct Difference {
    pub what: String,
    pub wanted: String,
    pub given: String,
}

/// A comparison's outcome: whether something was found, or the difference.
pub type Outcome = Result<bool, Difference>;

/// Counts of what the comparisons do besides scanning, a buffer and a list.
#[derive(Default)]
pub struct Work {
    /// Scans of the Rust.
    pub scans: u64,
    /// Traces that were read back.
    pub traces: u64,
    /// Records of them that were asked for, and that were given.
    pub records: u64,
    pub given: u64,
    /// Conversions of them, and those that were not refused.
    pub conversions: u64,
    pub converted: u64,
    /// Stretches that were asked for.
    pub stretches: u64,
    out: Lent<u8>,
    list: Lent<u32>,
}

impl Work {
    /// How many calls had a buffer or a list that is one short, since it was asked.
    pub fn take_short(&mut self) -> u64 {
        take(&mut self.out.short) + take(&mut self.list.short)
    }
}

pub fn same<T: Debug + PartialEq>(what: &str, wanted: T, given: T) -> Result<(), Difference> {
    if wanted == given {
        return Ok(());
    }
    Err(Difference {
        what: what.to_string(),
        wanted: format!("{wanted:?}"),
        given: format!("{given:?}"),
    })
}

fn nothing_written(refusal: u8) -> library::Written {
    library::Written { refusal, length: 0 }
}

/// An inline scan, its trace, and the trace's records.
pub fn inline(text: &[u8], index: usize, carry: u8, work: &mut Work) -> Outcome {
    let refusal = table::inline(text, index, carry);
    let given = library::inline_scan(text, index, carry);
    let trace = |out: &mut [u8]| library::inline_trace(text, index, carry, out);
    if refusal != 0 {
        let wanted = library::Inline {
            refusal,
            found: 0,
            carry,
            stop: 0,
        };
        same("the inline scan", wanted, given)?;
        work.out.refuses(&ROOMS, nothing_written(refusal), trace)?;
        return Ok(false);
    }

    work.scans += 1;
    let answer = reference::inline(text, index, usize::from(carry));
    let wanted = library::Inline {
        refusal: 0,
        found: u8::from(answer.found),
        carry: answer.carry as u8,
        stop: if answer.found { answer.stop } else { 0 },
    };
    same("the inline scan", wanted, given)?;
    traced(&answer.trace(), trace, work)?;
    Ok(answer.found)
}

/// A block scan, its trace, and the trace's records.
pub fn block(bulletin: &[u8], flags: &[u8], index: usize, work: &mut Work) -> Outcome {
    let refusal = table::block(bulletin, flags, index);
    let given = library::block_scan(bulletin, flags, index);
    let trace = |out: &mut [u8]| library::block_trace(bulletin, flags, index, out);
    if refusal != 0 {
        let wanted = library::Block {
            refusal,
            kind: 0,
            closed: 0,
            name: library::NO_NAME,
            stop: 0,
            closer: 0,
        };
        same("the block scan", wanted, given)?;
        work.out.refuses(&ROOMS, nothing_written(refusal), trace)?;
        return Ok(false);
    }

    work.scans += 1;
    let answer = reference::block(bulletin, flags, index);
    let found = answer.kind != 0;
    let wanted = library::Block {
        refusal: 0,
        kind: answer.kind,
        closed: u8::from(answer.closed),
        // The Rust keeps no name.
        name: given.name,
        stop: if found { answer.stop } else { 0 },
        closer: if found { answer.closer } else { 0 },
    };
    same("the block scan", wanted, given)?;
    if found {
        let by_rule = closer::plain(bulletin, answer.kind, index, answer.stop);
        same("the closer by the plain rule", by_rule, given.closer)?;
    }
    traced(&answer.trace(), trace, work)?;
    Ok(found)
}

/// The trace of a scan, each record of it, and the trace taken narrow and back.
fn traced(
    trace: &[u8],
    call: impl FnMut(&mut [u8]) -> library::Written,
    work: &mut Work,
) -> Result<(), Difference> {
    let length = trace.len();
    let wanted = library::Written { refusal: 0, length };
    let refused = nothing_written(table::NO_ROOM);
    work.out.writes(trace, 0, wanted, refused, call)?;

    work.traces += 1;
    // Events, and the last record, which is shorter than one.
    let count = length / EVENT_LENGTH + 1;
    // Reading walks from the first record: in a long trace, a few.
    let step = if count <= ALL_READ {
        1
    } else {
        count / READ_OF_LONG
    };
    for number in (0..count - 1).step_by(step).chain([count - 1, count]) {
        work.records += 1;
        work.given += u64::from(read(trace, number)?);
    }
    across(trace, work).map_err(|difference| Difference {
        what: format!("{CONVERSION}{}", difference.what),
        ..difference
    })
}

/// The trace of a scan taken narrow and, where it fits, wide again, with exact room.
fn across(trace: &[u8], work: &mut Work) -> Result<(), Difference> {
    match conversion::converted(trace, Way::Narrow) {
        Ok(narrow) => {
            work.conversions += 2;
            work.converted += 2;
            becomes(trace, Way::Narrow, &narrow, work)?;
            becomes(&narrow, Way::Widen, trace, work)
        }
        Err(refusal) => {
            work.conversions += 1;
            same("the only refusal", table::NOT_NARROW, refusal)?;
            convert(trace, Way::Narrow, trace.len(), work)?;
            Ok(())
        }
    }
}

/// What a trace becomes in a buffer of exact room.
fn becomes(trace: &[u8], way: Way, bytes: &[u8], work: &mut Work) -> Result<(), Difference> {
    let length = bytes.len();
    let wanted = library::Written { refusal: 0, length };
    let mut call = |out: &mut [u8]| library::convert(way, trace, out);
    work.out.fills(length, bytes, wanted, &mut call)
}

/// A conversion of any bytes: what it writes; also with no room, and with some other
/// room.
pub fn convert(trace: &[u8], way: Way, other: usize, work: &mut Work) -> Outcome {
    let call = |out: &mut [u8]| library::convert(way, trace, out);
    match conversion::converted(trace, way) {
        Err(refusal) => {
            // The last would do for all: no record has more than twice its bytes.
            let rooms = [0, other, 2 * trace.len()];
            work.out.refuses(&rooms, nothing_written(refusal), call)?;
            Ok(false)
        }
        Ok(bytes) => {
            let length = bytes.len();
            let wanted = library::Written { refusal: 0, length };
            let refused = nothing_written(table::NO_ROOM);
            work.out.writes(&bytes, other, wanted, refused, call)?;
            let rooms = [0, other.min(length - 1)];
            work.out.refuses(&rooms, refused, call)?;
            Ok(true)
        }
    }
}

/// A record of a trace.
pub fn read(trace: &[u8], number: usize) -> Outcome {
    let given = library::read_trace(trace, number);
    let mut wanted = library::Record {
        refusal: 0,
        kind: 0,
        last: 0,
        line: 0,
        column: 0,
        index: 0,
    };
    match table::record(trace, number) {
        Err(refusal) => wanted.refusal = refusal,
        Ok(bytes) => {
            wanted.kind = bytes[0];
            wanted.last = bytes[bytes.len() - 1];
            if bytes.len() == EVENT_LENGTH {
                wanted.line = table::field(bytes, 0);
                wanted.column = table::field(bytes, 1);
                wanted.index = table::field(bytes, 2);
            } else {
                wanted.index = table::field(bytes, 0);
            }
        }
    }
    same(RECORD, wanted, given)?;
    Ok(wanted.refusal == 0)
}

/// A bulletin with its flags: the refusal by the table and, where there is none,
/// the pieces by the Rust's scans, their spans, and what is shown without them.
pub struct Screen<'a> {
    bulletin: &'a [u8],
    flags: &'a [u8],
    refusal: u8,
    pieces: Pieces,
    spans: Vec<u32>,
    shown: Vec<u8>,
}

impl Screen<'_> {
    pub fn new<'a>(bulletin: &'a [u8], flags: &'a [u8], work: &mut Work) -> Screen<'a> {
        let refusal = table::bulletin(bulletin, flags);
        let (pieces, shown) = if refusal == 0 {
            let pieces = withhold::pieces(bulletin, flags);
            let shown = pieces.withheld(bulletin);
            (pieces, shown)
        } else {
            Default::default()
        };
        work.scans += pieces.scans;
        Screen {
            bulletin,
            flags,
            refusal,
            spans: pieces.spans(),
            pieces,
            shown,
        }
    }

    /// The room of a list that suffices for any bulletin as long.
    fn most(&self) -> usize {
        spans::NUMBERS * self.bulletin.len()
    }
}

/// Withholding: with a list and a buffer that both have room to spare, exact room, and
/// the room that always suffices; and with one of them one short.
pub fn withhold(screen: &Screen, work: &mut Work) -> Outcome {
    let (spans, shown) = (screen.spans.len(), screen.shown.len());
    let (most, length) = (screen.most(), screen.bulletin.len());
    if screen.refusal != 0 {
        for room in ROOMS {
            withholds(screen, room, room, work)?;
        }
        return Ok(false);
    }

    withholds(screen, spans + 2, shown + 3, work)?;
    withholds(screen, spans, shown, work)?;
    withholds(screen, most, length, work)?;
    if shown > 0 {
        withholds(screen, spans, shown - 1, work)?;
    }
    if spans > 0 {
        withholds(screen, spans - 1, length, work)?;
    }
    Ok(spans > 0)
}

/// Withholding with a list of so many numbers, and a buffer of so many bytes.
fn withholds(screen: &Screen, list: usize, out: usize, work: &mut Work) -> Result<(), Difference> {
    let is_short = list < screen.spans.len() || out < screen.shown.len();
    work.list.short += u64::from(is_short);
    let refusal = match screen.refusal {
        0 if is_short => table::NO_ROOM,
        refusal => refusal,
    };
    let is_shown = refusal == 0;
    let wanted = library::Shown {
        refusal,
        length: if is_shown { screen.shown.len() } else { 0 },
        pieces: if is_shown { screen.pieces.all.len() } else { 0 },
    };
    let (list, out) = (work.list.with(list), work.out.with(out));
    let given = library::withhold(screen.bulletin, screen.flags, list, out);
    same("the answer of withholding", wanted, given)?;
    if !is_shown {
        work.list.keeps(0)?;
        return work.out.keeps(0);
    }
    work.list.holds(&screen.spans)?;
    work.out.holds(&screen.shown)
}

/// Finding, and showing beside what was found.
pub fn find(screen: &Screen, work: &mut Work) -> Outcome {
    let found = |refusal, count| library::Spans { refusal, count };
    let call = |list: &mut [u32]| library::find(screen.bulletin, screen.flags, list);
    if screen.refusal != 0 {
        let refused = found(screen.refusal, 0);
        work.list.refuses(&ROOMS, refused, call)?;
        return Ok(false);
    }

    let (spans, most) = (&screen.spans, screen.most());
    let wanted = found(0, screen.pieces.all.len());
    let refused = found(table::NO_ROOM, 0);
    work.list.writes(spans, most, wanted, refused, call)?;
    shows(screen.bulletin, spans, &screen.shown, work)?;
    Ok(wanted.count > 0)
}

/// Showing beside any list. Where something is found, it is taken.
pub fn show(bulletin: &[u8], list: &[u32], work: &mut Work) -> Outcome {
    let refusal = spans::refusal(bulletin, list);
    if refusal == 0 {
        shows(bulletin, list, &spans::beside(bulletin, list), work)?;
        no_stretch(bulletin, list, usize::MAX, work)?;
        return Ok(true);
    }

    let call = |out: &mut [u8]| library::show(bulletin, list, out);
    let rooms = [0, bulletin.len()];
    work.out.refuses(&rooms, nothing_written(refusal), call)?;
    for number in [0, list.len() / spans::NUMBERS, usize::MAX] {
        no_stretch(bulletin, list, number, work)?;
    }
    Ok(false)
}

/// A number that no stretch has.
fn no_stretch(
    bulletin: &[u8],
    list: &[u32],
    number: usize,
    work: &mut Work,
) -> Result<(), Difference> {
    work.stretches += 1;
    let given = library::stretch(bulletin, list, number);
    same("what is no stretch", spans::NO_PART, given)
}

/// What is shown beside a list that is taken, and the stretches.
fn shows(bulletin: &[u8], list: &[u32], shown: &[u8], work: &mut Work) -> Result<(), Difference> {
    let call = |out: &mut [u8]| library::show(bulletin, list, out);
    let length = shown.len();
    let wanted = library::Written { refusal: 0, length };
    let refused = nothing_written(table::NO_ROOM);
    work.out
        .writes(shown, bulletin.len(), wanted, refused, call)?;

    let count = list.len() / spans::NUMBERS;
    if count <= ALL_STRETCHES {
        let numbers = 0..=count;
        let joined = stretches(bulletin, list, numbers, work)?;
        same_units("the stretches, one after the other", shown, &joined)?;
    } else {
        let numbers = (0..count).step_by(count / SOME_STRETCHES).chain([count]);
        stretches(bulletin, list, numbers, work)?;
    }
    no_stretch(bulletin, list, count + 1, work)
}

/// The stretches of these numbers, one after the other.
fn stretches(
    bulletin: &[u8],
    list: &[u32],
    numbers: impl Iterator<Item = usize>,
    work: &mut Work,
) -> Result<Vec<u8>, Difference> {
    let mut joined = Vec::with_capacity(bulletin.len());
    for number in numbers {
        work.stretches += 1;
        let given = library::stretch(bulletin, list, number);
        let wanted = spans::stretch(list, bulletin.len(), number);
        same("the stretch", wanted, given)?;
        joined.extend_from_slice(&bulletin[given.start..][..given.length]);
    }
    Ok(joined)
}

/// The tag filter. Where something is found, a tag is replaced.
pub fn filter(screen: &Screen, work: &mut Work) -> Outcome {
    let bulletin = screen.bulletin;
    let call = |out: &mut [u8]| library::filter(bulletin, screen.flags, out);
    if screen.refusal != 0 {
        work.out
            .refuses(&ROOMS, nothing_written(screen.refusal), call)?;
        return Ok(false);
    }

    let shown = screen.pieces.replaced(bulletin, |piece, out| {
        filter::write(bulletin, piece.range.clone(), piece.block, out);
    });
    let length = shown.len();
    let wanted = library::Written { refusal: 0, length };
    let refused = nothing_written(table::NO_ROOM);
    // The shortest such tag, `<xmp>`, has five bytes and becomes eight: so much
    // room always suffices.
    let room = bulletin.len() * 8 / 5;
    work.out.writes(&shown, room, wanted, refused, call)?;
    Ok(length > bulletin.len())
}
