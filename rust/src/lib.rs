//! Raw HTML in bulletins written in Markdown: what it is, what is shown without it, and what GitHub's tag filter makes of it.
//!
//! The functions of the C interface (include/foringamo.h), over slices. Behind each stands one that is proved to give what its definition says; what is here only
//! hands its answer on. None allocates, and nothing is kept when it returns.
//!
//! A bulletin has one line more than it has line endings (LF, CR LF, or CR), and a flag for each line: 0, [`LAZY`], [`INTERRUPT`], or both. [`count_lines`] says how
//! many. An index and a stop count bytes from 0; a stop is behind the last byte taken.
//!
//! There are two readings. [`standard_block_scan`], [`standard_inline_scan`], [`standard_find`] and [`standard_withhold`] read to the letter of CommonMark 0.31.2; the
//! other functions read as the Rust crate markdown 1.0.0 does, with its eight changes to it.
//!
//! What is refused comes back as a [`Refusal`], and nothing has changed in an output buffer or a list of spans. On an answer what stands there past what was written
//! stays as it is. [`count_lines`] and [`stretch`] refuse nothing.
//!
//! Each call looks through its whole input for refusals, and [`read_trace`] walks from the first record. To scan at every line of a long bulletin, or to read every
//! record of a long trace by its number, therefore takes the square of its length in time. Instead, hand an inline scan the paragraph's text only, scan for blocks
//! only at lines that begin with `<` behind at most three spaces, as no other opens one, and walk the trace's bytes: see [`Record`].
//!
//! [`find`], [`withhold`], those of the standard and [`filter`] go through a bulletin once where there is the room that always suffices, else twice: first to count
//! what they would write.
//!
//! ```
//! let bulletin = b"door <!-- x -->9\n<div>\nold\n\nok";
//! let flags = vec![0; foringamo::count_lines(bulletin)];
//! let mut spans = vec![foringamo::Span::default(); bulletin.len()];
//! let mut out = vec![0; bulletin.len()];
//! let shown = foringamo::withhold(bulletin, &flags, &mut spans, &mut out)?;
//! assert_eq!(&out[..shown.length], b"door 9\n\n\nok");
//! assert_eq!(shown.pieces, 2);
//! assert_eq!(&bulletin[spans[0].range()], b"<!-- x -->");
//! # Ok::<(), foringamo::Refusal>(())
//! ```
#![no_std]
#![warn(missing_docs)]

use core::fmt;
use core::ops::Range;
use core::slice;

/// How many bytes a bulletin or a text has at most.
pub const LIMIT: usize = 1_000_000;

/// The flag of a lazy line.
pub const LAZY: u8 = 1;

/// The flag of a line that would have to interrupt a paragraph.
pub const INTERRUPT: u8 = 2;

/// Why an input is refused, with its number. Of 1 to 7 the first that applies is given; converting a trace, 8 or 9 comes first, then 10, 11 and 7; showing, 1, then 12,
/// then 7. A later version may have more of them, for functions that it adds.
#[derive(Clone, Copy, Debug, PartialEq, Eq, Hash)]
#[non_exhaustive]
#[repr(u8)]
pub enum Refusal {
    /// The bulletin or text has over [`LIMIT`] bytes.
    TooLong = 1,
    /// The count of flags is not the number of lines.
    WrongCount = 2,
    /// A flag is above 3.
    WrongFlag = 3,
    /// In a bulletin the index is not a line's first byte; in an inline text it is above the length.
    WrongIndex = 4,
    /// The carry is above 5.
    WrongCarry = 5,
    /// The inline text has two line endings with only spaces, tabs or no bytes between.
    BlankLine = 6,
    /// The output buffer, or the list of spans, is shorter than the output needs.
    NoRoom = 7,
    /// Reading or converting a trace: a kind byte is 0 or above 14.
    WrongKind = 8,
    /// Reading or converting a trace: a record is cut off; reading it, also: there are not so many.
    CutOff = 9,
    /// Converting a trace: it has not exactly one last record, at its end.
    NotEnded = 10,
    /// Making a trace narrow: a line, column, index or stop is above 65,535.
    NotNarrow = 11,
    /// Showing: the spans given are out of order, overlapping, past the bulletin's end, with a stop not above the start, or of a sort above 1. Not whole, as in C, they
    /// cannot be.
    WrongSpans = 12,
}

impl Refusal {
    /// Its number, 1 to 12.
    pub fn number(self) -> u8 {
        self as u8
    }
}

impl fmt::Display for Refusal {
    fn fmt(&self, f: &mut fmt::Formatter<'_>) -> fmt::Result {
        f.write_str(match self {
            Refusal::TooLong => "the bulletin or text has over 1,000,000 bytes",
            Refusal::WrongCount => "the count of flags is not the number of lines",
            Refusal::WrongFlag => "a flag is above 3",
            Refusal::WrongIndex => "the index is not a line's first byte, or above the text's length",
            Refusal::WrongCarry => "the carry is above 5",
            Refusal::BlankLine => "the inline text has a blank line",
            Refusal::NoRoom => "the output buffer, or the list of spans, is shorter than the output needs",
            Refusal::WrongKind => "a kind byte of the trace is 0 or above 14",
            Refusal::CutOff => "a record of the trace is cut off or not there",
            Refusal::NotEnded => "the trace has not exactly one last record, at its end",
            Refusal::NotNarrow => "a line, column, index or stop of the trace is above 65,535",
            Refusal::WrongSpans => "the spans are out of order, overlapping, past the bulletin's end, with a stop not above the start, or of a sort above 1",
        })
    }
}

impl core::error::Error for Refusal {}

/// The kinds of blocks.
#[derive(Clone, Copy, Debug, PartialEq, Eq, Hash)]
#[repr(u8)]
pub enum Kind {
    /// `<script`, `<pre`, `<style` and `<textarea`.
    Raw = 1,
    /// `<!--`.
    Comment = 2,
    /// `<?`.
    Instruction = 3,
    /// `<!` and a letter.
    Declaration = 4,
    /// `<![CDATA[`.
    Cdata = 5,
    /// A tag with one of the block names, as `<div`.
    Basic = 6,
    /// A whole tag on a line of its own.
    Complete = 7,
}

impl Kind {
    /// Its number, 1 to 7.
    pub fn number(self) -> u8 {
        self as u8
    }
}

/// The names of kind 1, each in its place.
pub const RAW_NAMES: [&str; 4] = ["pre", "script", "style", "textarea"];

/// The names of kind 6, each in its place.
pub const BLOCK_NAMES: [&str; 62] = [
    "address", "article", "aside", "base", "basefont", "blockquote", "body", "caption", "center", "col", "colgroup", "dd", "details", "dialog", "dir",
    "div", "dl", "dt", "fieldset", "figcaption", "figure", "footer", "form", "frame", "frameset", "h1", "h2", "h3", "h4", "h5", "h6", "head",
    "header", "hr", "html", "iframe", "legend", "li", "link", "main", "menu", "menuitem", "nav", "noframes", "ol", "optgroup", "option", "p", "param",
    "search", "section", "summary", "table", "tbody", "td", "tfoot", "th", "thead", "title", "tr", "track", "ul",
];

/// A block, from the line's first byte on.
#[derive(Clone, Copy, Debug, PartialEq, Eq, Hash)]
pub struct Block {
    /// What opens it.
    pub kind: Kind,
    /// The place of its name, in [`RAW_NAMES`] for kind 1 and in [`BLOCK_NAMES`] for kind 6. Other kinds have none.
    pub name: Option<u8>,
    /// Where it ends.
    pub stop: usize,
    /// Whether a closer was met: never for kinds 6 and 7.
    pub closed: bool,
    /// The first byte of its closer: an end tag with a raw name, `-->`, `?>`, `>` or `]]>`, of a longer run of `-` or `]` only the last two. Where none was met, the
    /// stop.
    pub closer: usize,
}

impl Block {
    /// Its name, in lower case.
    pub fn tag_name(self) -> Option<&'static str> {
        let names: &[&str] = match self.kind {
            Kind::Raw => &RAW_NAMES,
            Kind::Basic => &BLOCK_NAMES,
            _ => &[],
        };
        names.get(usize::from(self.name?)).copied()
    }
}

/// What an inline scan finds. The carry counts the letters of `CDATA[` read so far, 0 to 5.
#[derive(Clone, Copy, Debug, PartialEq, Eq, Hash)]
pub enum Inline {
    /// A piece, from the index to the stop.
    Found {
        /// Where it ends.
        stop: usize,
        /// The carry for the next scan.
        carry: u8,
    },
    /// None.
    Missing {
        /// The carry for the next scan.
        carry: u8,
    },
}

/// What an event enters or exits. The names are those of the Rust crate markdown.
#[derive(Clone, Copy, Debug, PartialEq, Eq, Hash)]
pub enum Name {
    /// A block.
    HtmlFlow,
    /// A block's content in a line.
    HtmlFlowData,
    /// A line ending.
    LineEnding,
    /// An inline piece.
    HtmlText,
    /// An inline piece's content in a line.
    HtmlTextData,
    /// Spaces and tabs in front of a line.
    SpaceOrTab,
}

/// Where an event stands.
#[derive(Clone, Copy, Debug, PartialEq, Eq, Hash)]
pub struct Point {
    /// From 1.
    pub line: usize,
    /// From 1.
    pub column: usize,
    /// From 0.
    pub index: usize,
    /// The readings already made of a tab.
    pub vs: u8,
}

/// A record of a trace. In the trace an event has 14 bytes: the kind, line, column and index in four bytes each, low byte first, and vs. A last record has 6: the
/// kind, the stop in four bytes, low byte first, and the carry or block kind.
///
/// Such a trace is wide. Before version 0.4 traces were narrow, with two bytes for each line, column, index and stop: an event has 8 bytes there, a last record 4.
/// Only [`widen_trace`] takes a narrow trace, and only [`narrow_trace`] writes one.
#[derive(Clone, Copy, Debug, PartialEq, Eq, Hash)]
pub enum Record {
    /// Kinds 1, 3, 5, 7, 9 and 11.
    Enter(Name, Point),
    /// Kinds 2, 4, 6, 8, 10 and 12.
    Exit(Name, Point),
    /// Kind 13: the last record of an inline trace.
    LastInline {
        /// Where the piece ends; where none is found, the index.
        stop: usize,
        /// The carry.
        carry: u8,
    },
    /// Kind 14: the last record of a block trace.
    LastBlock {
        /// Where the block ends; where there is none, the index.
        stop: usize,
        /// The byte in the trace: a block's kind by its number, 0 for none.
        kind: u8,
    },
}

impl Record {
    /// The number of its kind, 1 to 14.
    pub fn number(self) -> u8 {
        match self {
            Record::Enter(name, _) => 2 * (name as u8) + 1,
            Record::Exit(name, _) => 2 * (name as u8) + 2,
            Record::LastInline { .. } => 13,
            Record::LastBlock { .. } => 14,
        }
    }
}

/// What was shown.
#[derive(Clone, Copy, Debug, PartialEq, Eq, Hash)]
pub struct Shown {
    /// Bytes written.
    pub length: usize,
    /// Blocks and inline pieces withheld, together: as many spans were written.
    pub pieces: usize,
}

/// The span of a piece, which is a block or an inline piece. The default, all 0, is none: it makes room for one in a list.
#[derive(Clone, Copy, Debug, Default, PartialEq, Eq, Hash)]
#[repr(C)]
pub struct Span {
    /// The index of its first byte.
    pub start: u32,
    /// The stop behind its last.
    pub stop: u32,
    /// 0 for inline, 1 for a block.
    pub sort: u32,
}

impl Span {
    /// Whether the piece is a block.
    pub fn is_block(self) -> bool {
        self.sort == 1
    }

    /// From its start to its stop: `bulletin[span.range()]` is the piece.
    pub fn range(self) -> Range<usize> {
        self.start as usize..self.stop as usize
    }
}

mod c {
    #[repr(C)]
    pub struct Block {
        pub refusal: u8,
        pub kind: u8,
        pub closed: u8,
        pub name: u8,
        pub stop: usize,
        pub closer: usize,
    }

    #[repr(C)]
    pub struct Inline {
        pub refusal: u8,
        pub found: u8,
        pub carry: u8,
        pub stop: usize,
    }

    // Of traces, the filter, conversions and showing.
    #[repr(C)]
    pub struct Written {
        pub refusal: u8,
        pub length: usize,
    }

    #[repr(C)]
    pub struct Record {
        pub refusal: u8,
        pub kind: u8,
        pub last: u8,
        pub line: usize,
        pub column: usize,
        pub index: usize,
    }

    #[repr(C)]
    pub struct Shown {
        pub refusal: u8,
        pub length: usize,
        pub pieces: usize,
    }

    #[repr(C)]
    pub struct Spans {
        pub refusal: u8,
        pub count: usize,
    }

    #[repr(C)]
    pub struct Part {
        pub start: usize,
        pub length: usize,
    }

    #[link(name = "foringamo", kind = "static")]
    extern "C" {
        pub fn foringamo_count_lines(text: *const u8, text_len: usize) -> usize;
        pub fn foringamo_block_scan(bulletin: *const u8, bulletin_len: usize, flags: *const u8, flags_len: usize, index: usize) -> Block;
        pub fn foringamo_standard_block_scan(
            bulletin: *const u8,
            bulletin_len: usize,
            flags: *const u8,
            flags_len: usize,
            index: usize,
        ) -> Block;
        pub fn foringamo_inline_scan(text: *const u8, text_len: usize, index: usize, carry: u8) -> Inline;
        pub fn foringamo_standard_inline_scan(text: *const u8, text_len: usize, index: usize, carry: u8) -> Inline;
        pub fn foringamo_block_trace(
            bulletin: *const u8,
            bulletin_len: usize,
            flags: *const u8,
            flags_len: usize,
            index: usize,
            out: *mut u8,
            out_len: usize,
        ) -> Written;
        pub fn foringamo_inline_trace(text: *const u8, text_len: usize, index: usize, carry: u8, out: *mut u8, out_len: usize) -> Written;
        pub fn foringamo_read_trace(trace: *const u8, trace_len: usize, number: usize) -> Record;
        pub fn foringamo_widen_trace(trace: *const u8, trace_len: usize, out: *mut u8, out_len: usize) -> Written;
        pub fn foringamo_narrow_trace(trace: *const u8, trace_len: usize, out: *mut u8, out_len: usize) -> Written;
        pub fn foringamo_find(
            bulletin: *const u8,
            bulletin_len: usize,
            flags: *const u8,
            flags_len: usize,
            spans: *mut u32,
            spans_len: usize,
        ) -> Spans;
        pub fn foringamo_standard_find(
            bulletin: *const u8,
            bulletin_len: usize,
            flags: *const u8,
            flags_len: usize,
            spans: *mut u32,
            spans_len: usize,
        ) -> Spans;
        pub fn foringamo_show(
            bulletin: *const u8,
            bulletin_len: usize,
            spans: *const u32,
            spans_len: usize,
            out: *mut u8,
            out_len: usize,
        ) -> Written;
        pub fn foringamo_stretch(bulletin: *const u8, bulletin_len: usize, spans: *const u32, spans_len: usize, number: usize) -> Part;
        pub fn foringamo_withhold(
            bulletin: *const u8,
            bulletin_len: usize,
            flags: *const u8,
            flags_len: usize,
            spans: *mut u32,
            spans_len: usize,
            out: *mut u8,
            out_len: usize,
        ) -> Shown;
        pub fn foringamo_standard_withhold(
            bulletin: *const u8,
            bulletin_len: usize,
            flags: *const u8,
            flags_len: usize,
            spans: *mut u32,
            spans_len: usize,
            out: *mut u8,
            out_len: usize,
        ) -> Shown;
        pub fn foringamo_filter(
            bulletin: *const u8,
            bulletin_len: usize,
            flags: *const u8,
            flags_len: usize,
            out: *mut u8,
            out_len: usize,
        ) -> Written;
    }
}

// The answer, unless there is a refusal.
fn unless_refused<T>(refusal: u8, answer: impl FnOnce() -> T) -> Result<T, Refusal> {
    Err(match refusal {
        0 => return Ok(answer()),
        1 => Refusal::TooLong,
        2 => Refusal::WrongCount,
        3 => Refusal::WrongFlag,
        4 => Refusal::WrongIndex,
        5 => Refusal::WrongCarry,
        6 => Refusal::BlankLine,
        7 => Refusal::NoRoom,
        8 => Refusal::WrongKind,
        9 => Refusal::CutOff,
        10 => Refusal::NotEnded,
        11 => Refusal::NotNarrow,
        12 => Refusal::WrongSpans,
        _ => unreachable!(),
    })
}

// A kind by its number. 0: none.
fn kind(number: u8) -> Option<Kind> {
    Some(match number {
        0 => return None,
        1 => Kind::Raw,
        2 => Kind::Comment,
        3 => Kind::Instruction,
        4 => Kind::Declaration,
        5 => Kind::Cdata,
        6 => Kind::Basic,
        7 => Kind::Complete,
        _ => unreachable!(),
    })
}

// The name of a block that has none.
const NO_NAME: u8 = 255;

fn block(got: c::Block) -> Option<Block> {
    let name = (got.name != NO_NAME).then_some(got.name);
    kind(got.kind).map(|kind| Block { kind, name, stop: got.stop, closed: got.closed == 1, closer: got.closer })
}

fn inline(got: c::Inline) -> Inline {
    if got.found == 1 {
        Inline::Found { stop: got.stop, carry: got.carry }
    } else {
        Inline::Missing { carry: got.carry }
    }
}

fn shown(got: c::Shown) -> Shown {
    Shown { length: got.length, pieces: got.pieces }
}

// The name of an event by the number of its kind.
fn name(kind: u8) -> Name {
    match kind {
        1 | 2 => Name::HtmlFlow,
        3 | 4 => Name::HtmlFlowData,
        5 | 6 => Name::LineEnding,
        7 | 8 => Name::HtmlText,
        9 | 10 => Name::HtmlTextData,
        11 | 12 => Name::SpaceOrTab,
        _ => unreachable!(),
    }
}

fn record(got: c::Record) -> Record {
    let point = Point { line: got.line, column: got.column, index: got.index, vs: got.last };
    match got.kind {
        13 => Record::LastInline { stop: got.index, carry: got.last },
        14 => Record::LastBlock { stop: got.index, kind: got.last },
        kind if kind % 2 == 1 => Record::Enter(name(kind), point),
        kind => Record::Exit(name(kind), point),
    }
}

// How many numbers a span has.
const SPAN_NUMBERS: usize = 3;

// The numbers of spans, as C has them. By repr(C) a span is its three numbers, with nothing between or behind them, and is aligned as they are. A slice has at most
// isize::MAX bytes, so that three times its length is no overflow.
fn numbers(spans: &[Span]) -> &[u32] {
    unsafe { slice::from_raw_parts(spans.as_ptr().cast(), spans.len() * SPAN_NUMBERS) }
}

// The same, to be written to: any three numbers are a span.
fn numbers_mut(spans: &mut [Span]) -> &mut [u32] {
    unsafe { slice::from_raw_parts_mut(spans.as_mut_ptr().cast(), spans.len() * SPAN_NUMBERS) }
}

// Each call below lends whole slices for its time: a pointer that is not null, the length in bytes or numbers, and what is written to is no other slice's.

/// The number of lines of a text of any length: as many flags as a bulletin takes. An empty text has one line.
///
/// ```
/// assert_eq!(foringamo::count_lines(b""), 1);
/// assert_eq!(foringamo::count_lines(b"a\nb\r\nc\r"), 4);
/// ```
pub fn count_lines(text: &[u8]) -> usize {
    unsafe { c::foringamo_count_lines(text.as_ptr(), text.len()) }
}

/// The block that the line at the index opens. Refusals 1, 2, 3, 4.
///
/// ```
/// use foringamo::{block_scan, Block, Kind, Refusal};
///
/// let bulletin = b"door\n<!-- x\ny -->\nok";
/// let block = Block { kind: Kind::Comment, name: None, stop: 17, closed: true, closer: 14 };
/// assert_eq!(block_scan(bulletin, &[0; 4], 5), Ok(Some(block)));
/// assert_eq!(block_scan(bulletin, &[0; 4], 0), Ok(None));
/// assert_eq!(block_scan(bulletin, &[0; 4], 1), Err(Refusal::WrongIndex));
/// ```
pub fn block_scan(bulletin: &[u8], flags: &[u8], index: usize) -> Result<Option<Block>, Refusal> {
    let got = unsafe { c::foringamo_block_scan(bulletin.as_ptr(), bulletin.len(), flags.as_ptr(), flags.len(), index) };
    unless_refused(got.refusal, || block(got))
}

/// [`block_scan`] by the standard. Refusals 1, 2, 3, 4.
///
/// ```
/// use foringamo::{block_scan, standard_block_scan};
///
/// assert_eq!(standard_block_scan(b"<pre/>", &[0], 0), Ok(None));
/// assert!(block_scan(b"<pre/>", &[0], 0).is_ok_and(|block| block.is_some()));
/// ```
pub fn standard_block_scan(bulletin: &[u8], flags: &[u8], index: usize) -> Result<Option<Block>, Refusal> {
    let got = unsafe { c::foringamo_standard_block_scan(bulletin.as_ptr(), bulletin.len(), flags.as_ptr(), flags.len(), index) };
    unless_refused(got.refusal, || block(got))
}

/// The inline piece at the index of a paragraph's text; none where the byte there is not `<`. Of `CDATA[`, the letters that the carry counts are taken as read.
/// Refusals 1, 4, 5, 6.
///
/// ```
/// use foringamo::{inline_scan, Inline};
///
/// assert_eq!(inline_scan(b"a <b> c", 2, 0), Ok(Inline::Found { stop: 5, carry: 0 }));
/// assert_eq!(inline_scan(b"a <b> c", 3, 0), Ok(Inline::Missing { carry: 0 }));
/// ```
pub fn inline_scan(text: &[u8], index: usize, carry: u8) -> Result<Inline, Refusal> {
    let got = unsafe { c::foringamo_inline_scan(text.as_ptr(), text.len(), index, carry) };
    unless_refused(got.refusal, || inline(got))
}

/// [`inline_scan`] by the standard: the carry has no effect and comes back as it was passed. Refusals 1, 4, 5, 6.
///
/// ```
/// use foringamo::{inline_scan, standard_inline_scan, Inline};
///
/// assert_eq!(standard_inline_scan(b"<a b=c/d>", 0, 0), Ok(Inline::Found { stop: 9, carry: 0 }));
/// assert_eq!(inline_scan(b"<a b=c/d>", 0, 0), Ok(Inline::Missing { carry: 0 }));
/// ```
pub fn standard_inline_scan(text: &[u8], index: usize, carry: u8) -> Result<Inline, Refusal> {
    let got = unsafe { c::foringamo_standard_inline_scan(text.as_ptr(), text.len(), index, carry) };
    unless_refused(got.refusal, || inline(got))
}

/// Writes the trace of a block scan and gives its length. Room for `bulletin.len() * 28 + 6` bytes always suffices. Refusals 1, 2, 3, 4, 7.
pub fn block_trace(bulletin: &[u8], flags: &[u8], index: usize, out: &mut [u8]) -> Result<usize, Refusal> {
    let got = unsafe {
        c::foringamo_block_trace(bulletin.as_ptr(), bulletin.len(), flags.as_ptr(), flags.len(), index, out.as_mut_ptr(), out.len())
    };
    unless_refused(got.refusal, || got.length)
}

/// Writes the trace of an inline scan and gives its length. Room for `text.len() * 28 + 6` bytes always suffices. Refusals 1, 4, 5, 6, 7.
pub fn inline_trace(text: &[u8], index: usize, carry: u8, out: &mut [u8]) -> Result<usize, Refusal> {
    let got = unsafe { c::foringamo_inline_trace(text.as_ptr(), text.len(), index, carry, out.as_mut_ptr(), out.len()) };
    unless_refused(got.refusal, || got.length)
}

/// The record of a number, counted from 0. The first bad record on the way decides; later ones are not looked at. Refusals 8, 9.
///
/// ```
/// use foringamo::{inline_trace, read_trace, Record, Refusal};
///
/// let mut trace = [0; 64];
/// let length = inline_trace(b"<b>", 0, 0, &mut trace)?;
/// assert_eq!(read_trace(&trace[..length], 4), Ok(Record::LastInline { stop: 3, carry: 0 }));
/// assert_eq!(read_trace(&trace[..length], 5), Err(Refusal::CutOff));
/// # Ok::<(), Refusal>(())
/// ```
pub fn read_trace(trace: &[u8], number: usize) -> Result<Record, Refusal> {
    let got = unsafe { c::foringamo_read_trace(trace.as_ptr(), trace.len(), number) };
    unless_refused(got.refusal, || record(got))
}

/// Writes a narrow trace as a wide one (see [`Record`]) and gives its length: the same records, with their kinds and values, in their order. They always fit:
/// `8 * e + 4` bytes, where `e` counts the events, become `14 * e + 6`, of which [`narrow_trace`] makes the first bytes again. Refusals 8, 9, 10, 7.
///
/// A trace here is whole records, the last and no other of kind 13 or 14. It may have any length; events may be of any kinds in any order, and vs, carry and block
/// kind any byte. The first bad record decides between 8 and 9, and all are looked at, those behind a last record too; 10 is for the empty trace too. The time is
/// linear in the trace's length.
///
/// ```
/// use foringamo::{widen_trace, Refusal};
///
/// let narrow = [7, 1, 0, 1, 0, 0, 0, 0, 8, 1, 0, 4, 0, 3, 0, 0, 13, 3, 0, 0];
/// let wide = [7, 1, 0, 0, 0, 1, 0, 0, 0, 0, 0, 0, 0, 0, 8, 1, 0, 0, 0, 4, 0, 0, 0, 3, 0, 0, 0, 0, 13, 3, 0, 0, 0, 0];
/// let mut out = [0; 2 * 14 + 6];
/// assert_eq!(widen_trace(&narrow, &mut out), Ok(out.len()));
/// assert_eq!(out, wide);
/// assert_eq!(widen_trace(&narrow[..16], &mut out), Err(Refusal::NotEnded));
/// ```
pub fn widen_trace(trace: &[u8], out: &mut [u8]) -> Result<usize, Refusal> {
    let got = unsafe { c::foringamo_widen_trace(trace.as_ptr(), trace.len(), out.as_mut_ptr(), out.len()) };
    unless_refused(got.refusal, || got.length)
}

/// Writes a wide trace as a narrow one and gives its length: `14 * e + 6` bytes become `8 * e + 4`, of which [`widen_trace`] makes the first bytes again. Where a
/// line, column, index or stop is above 65,535 it is refused; all else is as there. Refusals 8, 9, 10, 11, 7.
///
/// ```
/// use foringamo::{inline_trace, narrow_trace, Refusal};
///
/// let (mut trace, mut out) = ([0; 62], [0; 36]);
/// inline_trace(b"<b>", 0, 0, &mut trace)?;
/// assert_eq!(narrow_trace(&trace, &mut out), Ok(36));
/// assert_eq!(&out[..8], [7, 1, 0, 1, 0, 0, 0, 0]);
/// assert_eq!(&out[32..], [13, 3, 0, 0]);
/// assert_eq!(narrow_trace(&[13, 0, 0, 1, 0, 0], &mut out), Err(Refusal::NotNarrow));
/// # Ok::<(), Refusal>(())
/// ```
pub fn narrow_trace(trace: &[u8], out: &mut [u8]) -> Result<usize, Refusal> {
    let got = unsafe { c::foringamo_narrow_trace(trace.as_ptr(), trace.len(), out.as_mut_ptr(), out.len()) };
    unless_refused(got.refusal, || got.length)
}

/// Finds what is withheld, so that a screen can show the rest and draw a bar where something is not, and gives the number of spans. Refusals 1, 2, 3, 7.
///
/// A piece is a block or an inline piece; a block begins with its line, spaces included. The list is filled from its front with the span of each, in text order: they
/// do not overlap, though two may touch. Room for `bulletin.len()` spans always suffices. In a paragraph a `<` behind an odd number of backslashes in a row is text, in
/// both readings, for withholding and for the filter too.
///
/// ```
/// use foringamo::{find, Refusal, Span};
///
/// let mut spans = [Span::default(); 9];
/// assert_eq!(find(b"a<b>c</b>", &[0], &mut spans), Ok(2));
/// assert_eq!(spans[..2], [Span { start: 1, stop: 4, sort: 0 }, Span { start: 5, stop: 9, sort: 0 }]);
/// assert_eq!(find(b"a<b>c</b>", &[0], &mut spans[..1]), Err(Refusal::NoRoom));
/// assert_eq!(find(br"a\<b>c", &[0], &mut spans), Ok(0));
/// assert_eq!(find(br"a\\<b>c", &[0], &mut spans), Ok(1));
/// ```
pub fn find(bulletin: &[u8], flags: &[u8], spans: &mut [Span]) -> Result<usize, Refusal> {
    let spans = numbers_mut(spans);
    let got = unsafe {
        c::foringamo_find(bulletin.as_ptr(), bulletin.len(), flags.as_ptr(), flags.len(), spans.as_mut_ptr(), spans.len())
    };
    unless_refused(got.refusal, || got.count)
}

/// [`find`] by the standard, over its own blocks and inline pieces. Refusals 1, 2, 3, 7.
///
/// ```
/// use foringamo::{find, standard_find, Span};
///
/// let mut spans = [Span::default(); 11];
/// assert_eq!(standard_find(b"a <b c=d/e>", &[0], &mut spans), Ok(1));
/// assert_eq!(spans[0].range(), 2..11);
/// assert_eq!(find(b"a <b c=d/e>", &[0], &mut spans), Ok(0));
/// ```
pub fn standard_find(bulletin: &[u8], flags: &[u8], spans: &mut [Span]) -> Result<usize, Refusal> {
    let spans = numbers_mut(spans);
    let got = unsafe {
        c::foringamo_standard_find(bulletin.as_ptr(), bulletin.len(), flags.as_ptr(), flags.len(), spans.as_mut_ptr(), spans.len())
    };
    unless_refused(got.refusal, || got.count)
}

/// Writes the bytes of a bulletin that no span holds, in their order, and gives their number. Pass the spans that were found, not the whole list; spans from elsewhere
/// are taken too, and their sort is checked but makes no difference. Room for the bulletin's length always suffices. Refusals 1, 12, 7.
///
/// ```
/// use foringamo::{show, Refusal, Span};
///
/// let (bulletin, mut out) = (b"berth 12, bay 3", [0; 15]);
/// assert_eq!(show(bulletin, &[Span { start: 5, stop: 9, sort: 0 }], &mut out), Ok(11));
/// assert_eq!(&out[..11], b"berth bay 3");
/// assert_eq!(show(bulletin, &[Span::default()], &mut out), Err(Refusal::WrongSpans));
/// ```
pub fn show(bulletin: &[u8], spans: &[Span], out: &mut [u8]) -> Result<usize, Refusal> {
    let spans = numbers(spans);
    let got = unsafe {
        c::foringamo_show(bulletin.as_ptr(), bulletin.len(), spans.as_ptr(), spans.len(), out.as_mut_ptr(), out.len())
    };
    unless_refused(got.refusal, || got.length)
}

/// The stretch of a number, counted from 0, as a part of the bulletin itself: what is shown before the span of that number, or after the last one. There is one more
/// than there are spans, and all of them, one after the other, are what [`show`] writes.
///
/// A stretch can be empty, where two spans touch, or one begins or ends the bulletin. It is empty too for a number past the last, and for a bulletin or spans that
/// [`show`] refuses by 1 or 12. Each call looks through all spans: a caller of many reads their ends from the list instead, start from the stop before and stop from
/// the next start.
///
/// ```
/// use foringamo::{find, stretch, Span};
///
/// let (bulletin, mut spans) = (b"door <!-- x -->9", [Span::default(); 16]);
/// let count = find(bulletin, &[0], &mut spans)?;
/// assert_eq!(stretch(bulletin, &spans[..count], 0), b"door ");
/// assert_eq!(stretch(bulletin, &spans[..count], 1), b"9");
/// assert_eq!(stretch(bulletin, &spans[..count], 2), b"");
/// # Ok::<(), foringamo::Refusal>(())
/// ```
pub fn stretch<'a>(bulletin: &'a [u8], spans: &[Span], number: usize) -> &'a [u8] {
    let spans = numbers(spans);
    let got = unsafe { c::foringamo_stretch(bulletin.as_ptr(), bulletin.len(), spans.as_ptr(), spans.len(), number) };
    &bulletin[got.start..][..got.length]
}

/// Writes the bulletin without its raw HTML: [`find`], and then [`show`] beside what was found. A refusal leaves the list as it was, too. Room for `bulletin.len()`
/// spans and as many bytes always suffices. Refusals 1, 2, 3, 7.
///
/// Two bulletins that differ only in private pieces, in any number of them, show alike, and their lists have as many spans. Such a piece is the body of a comment, an
/// instruction, a declaration or a CDATA section that is withheld with its opening and closer, or whole lines, as many in both, between the first line of a block of
/// kinds 1 to 5 and the one with its closer, all and the line before ended by LF. It has no `<`, `>`, `"`, `'`, `?`, `]`, `-` or CR, and a body no LF. But a list tells
/// how long each withheld piece is, and so does a bar of that length: do not show either where a length is private.
///
/// ```
/// use foringamo::{withhold, Shown, Span};
///
/// let (mut spans, mut out) = ([Span::default(); 9], [0; 9]);
/// assert_eq!(withhold(b"a<b>c</b>", &[0], &mut spans, &mut out), Ok(Shown { length: 2, pieces: 2 }));
/// assert_eq!(&out[..2], b"ac");
/// assert_eq!(spans[1], Span { start: 5, stop: 9, sort: 0 });
/// ```
pub fn withhold(bulletin: &[u8], flags: &[u8], spans: &mut [Span], out: &mut [u8]) -> Result<Shown, Refusal> {
    let spans = numbers_mut(spans);
    let got = unsafe {
        c::foringamo_withhold(
            bulletin.as_ptr(),
            bulletin.len(),
            flags.as_ptr(),
            flags.len(),
            spans.as_mut_ptr(),
            spans.len(),
            out.as_mut_ptr(),
            out.len(),
        )
    };
    unless_refused(got.refusal, || shown(got))
}

/// [`withhold`] by the standard: [`standard_find`], and then [`show`]. Refusals 1, 2, 3, 7.
///
/// ```
/// use foringamo::{standard_withhold, withhold, Shown, Span};
///
/// let (mut spans, mut out) = ([Span::default(); 11], [0; 11]);
/// assert_eq!(standard_withhold(b"a <b c=d/e>", &[0], &mut spans, &mut out), Ok(Shown { length: 2, pieces: 1 }));
/// assert_eq!(withhold(b"a <b c=d/e>", &[0], &mut spans, &mut out), Ok(Shown { length: 11, pieces: 0 }));
/// ```
pub fn standard_withhold(bulletin: &[u8], flags: &[u8], spans: &mut [Span], out: &mut [u8]) -> Result<Shown, Refusal> {
    let spans = numbers_mut(spans);
    let got = unsafe {
        c::foringamo_standard_withhold(
            bulletin.as_ptr(),
            bulletin.len(),
            flags.as_ptr(),
            flags.len(),
            spans.as_mut_ptr(),
            spans.len(),
            out.as_mut_ptr(),
            out.len(),
        )
    };
    unless_refused(got.refusal, || shown(got))
}

/// Writes the bulletin as GitHub's tag filter shows it (GitHub Flavored Markdown Spec, Disallowed Raw HTML) and gives the length. Refusals 1, 2, 3, 7.
///
/// The blocks and inline pieces are those that [`withhold`] leaves out; here they are written, but the `<` of a tag named title, textarea, style, xmp, iframe,
/// noembed, noframes, script or plaintext, in any letter case, opening or closing, as `&lt;`. Such a tag is `<`, an optional `/` and the name, with a space, a
/// tab, a line ending, `>` or `/>` behind it in the bulletin, even beyond the block's stop; `<script` at the bulletin's very end has nothing behind it and stays.
/// In a block every such place counts, of an inline piece only its first byte can, and outside of both nothing changes.
///
/// What is written is HTML, with all that [`withhold`] would hide. Room for `bulletin.len() * 8 / 5` bytes always suffices: the 5 bytes of `<xmp>` become 8,
/// and no five bytes become more.
///
/// ```
/// let bulletin = b"a <b> <XMP>\n<div>\n</style\n";
/// let flags = vec![0; foringamo::count_lines(bulletin)];
/// let mut out = vec![0; bulletin.len() * 8 / 5];
/// let length = foringamo::filter(bulletin, &flags, &mut out)?;
/// assert_eq!(&out[..length], b"a <b> &lt;XMP>\n<div>\n&lt;/style\n");
/// # Ok::<(), foringamo::Refusal>(())
/// ```
pub fn filter(bulletin: &[u8], flags: &[u8], out: &mut [u8]) -> Result<usize, Refusal> {
    let got = unsafe {
        c::foringamo_filter(bulletin.as_ptr(), bulletin.len(), flags.as_ptr(), flags.len(), out.as_mut_ptr(), out.len())
    };
    unless_refused(got.refusal, || got.length)
}

#[cfg(test)]
mod tests {
    use super::{c, Span, SPAN_NUMBERS};
    use core::mem::{align_of, offset_of, size_of};

    // As tests/interface.c has it of include/foringamo.h.
    #[test]
    fn layout() {
        assert_eq!(size_of::<c::Block>(), 24);
        assert_eq!([offset_of!(c::Block, refusal), offset_of!(c::Block, kind), offset_of!(c::Block, closed)], [0, 1, 2]);
        assert_eq!([offset_of!(c::Block, name), offset_of!(c::Block, stop), offset_of!(c::Block, closer)], [3, 8, 16]);
        assert_eq!(size_of::<c::Inline>(), 16);
        assert_eq!(
            [offset_of!(c::Inline, refusal), offset_of!(c::Inline, found), offset_of!(c::Inline, carry), offset_of!(c::Inline, stop)],
            [0, 1, 2, 8]
        );
        assert_eq!(size_of::<c::Written>(), 16);
        assert_eq!([offset_of!(c::Written, refusal), offset_of!(c::Written, length)], [0, 8]);
        assert_eq!(size_of::<c::Record>(), 32);
        assert_eq!([offset_of!(c::Record, refusal), offset_of!(c::Record, kind), offset_of!(c::Record, last)], [0, 1, 2]);
        assert_eq!([offset_of!(c::Record, line), offset_of!(c::Record, column), offset_of!(c::Record, index)], [8, 16, 24]);
        assert_eq!(size_of::<c::Shown>(), 24);
        assert_eq!([offset_of!(c::Shown, refusal), offset_of!(c::Shown, length), offset_of!(c::Shown, pieces)], [0, 8, 16]);
        assert_eq!(size_of::<c::Spans>(), 16);
        assert_eq!([offset_of!(c::Spans, refusal), offset_of!(c::Spans, count)], [0, 8]);
        assert_eq!(size_of::<c::Part>(), 16);
        assert_eq!([offset_of!(c::Part, start), offset_of!(c::Part, length)], [0, 8]);
    }

    // A span is three numbers, and nothing else.
    #[test]
    fn spans_are_numbers() {
        assert_eq!((size_of::<Span>(), align_of::<Span>()), (SPAN_NUMBERS * size_of::<u32>(), align_of::<u32>()));
        assert_eq!([offset_of!(Span, start), offset_of!(Span, stop), offset_of!(Span, sort)], [0, 4, 8]);
    }
}
