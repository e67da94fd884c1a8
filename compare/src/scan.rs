//! Drives the two constructs from line 1, column 1 to Ok or Nok.

use crate::coverage;
use crate::event::{Event, Kind, Name, Point};
use crate::message::Message;
use crate::options;
use crate::parser::ParseState;
use crate::state::{Name as StateName, State};
use crate::tokenizer::Tokenizer;
use core::fmt;

const LAZY: u8 = 1;
const INTERRUPT: u8 = 2;

/// An event of the Rust. Kinds 1 to 12: enter (odd) and exit (even) of
/// HtmlFlow, HtmlFlowData, LineEnding, HtmlText, HtmlTextData, SpaceOrTab.
#[derive(Clone, Copy, Debug, Eq, PartialEq)]
pub struct Ev {
    pub kind: u8,
    pub line: usize,
    pub column: usize,
    pub index: usize,
    pub vs: usize,
}

/// Answer of an inline scan. Where nothing is found, the stop is the index.
#[derive(Clone, Debug, Eq, PartialEq)]
pub struct Inline {
    pub found: bool,
    pub stop: usize,
    pub carry: usize,
    pub events: Vec<Ev>,
}

/// Answer of a block scan. Kind 0 is none, and the stop is then the index.
#[derive(Clone, Debug, Eq, PartialEq)]
pub struct Block {
    pub kind: u8,
    pub stop: usize,
    pub closed: bool,
    /// First byte of the closer; where none was met, the stop.
    pub closer: usize,
    pub events: Vec<Ev>,
}

/// Inline scan: `html_text::start` at the index, with `size` as the carry.
///
/// The index is at most the length, the carry at most 5, and the text holds no
/// blank line between two line endings.
pub fn inline(text: &[u8], index: usize, carry: usize) -> Inline {
    inline_with(text, index, carry, events)
}

/// The same with no events given, so that a benchmark does not count their
/// copying. The tokenizer has made them.
pub fn inline_answer(text: &[u8], index: usize, carry: usize) -> Inline {
    inline_with(text, index, carry, no_events)
}

fn inline_with(text: &[u8], index: usize, carry: usize, events: Events) -> Inline {
    assert!(index <= text.len(), "index above the length");
    assert!(carry <= 5, "carry above 5");
    let parse_state = parse_state(text);
    let mut tokenizer = Tokenizer::new(start(), &parse_state);
    tokenizer.tokenize_state.size = carry;

    let state = State::Next(StateName::ScanText);
    let state = tokenizer.push((index, 0), (text.len(), 0), state);
    let found = finish(&mut tokenizer, state);

    Inline {
        found,
        stop: if found {
            back_over_cr(text, tokenizer.point.index)
        } else {
            index
        },
        carry: tokenizer.tokenize_state.size,
        events: events(&tokenizer),
    }
}

/// Block scan: `html_flow::start` at the index, line by line.
///
/// The index is a line's first byte. There is one flag for each line: 1 lazy,
/// 2 interrupt, 3 both, 0 neither.
pub fn block(bulletin: &[u8], flags: &[u8], index: usize) -> Block {
    block_with(bulletin, flags, index, events)
}

/// The same with no events given.
pub fn block_answer(bulletin: &[u8], flags: &[u8], index: usize) -> Block {
    block_with(bulletin, flags, index, no_events)
}

fn block_with(bulletin: &[u8], flags: &[u8], index: usize, events: Events) -> Block {
    let parse_state = parse_state(bulletin);
    let mut tokenizer = Tokenizer::new(start(), &parse_state);

    let mut line = 0;
    let mut from = 0;
    while from < index {
        let (end, next) = line_end(bulletin, from);
        assert!(
            end < next && next <= index,
            "index is not a line's first byte"
        );
        from = next;
        line += 1;
    }

    tokenizer.interrupt = flags[line] & INTERRUPT != 0;
    let mut state = State::Next(StateName::ScanFlow);
    loop {
        let (end, next) = line_end(bulletin, from);
        tokenizer.lazy = flags[line] & LAZY != 0;
        state = tokenizer.push((from, 0), (next, 0), state);

        // The last line has no ending; its flag also holds in `flush`.
        if matches!(state, State::Error(_)) || end == next {
            break;
        }
        from = next;
        line += 1;
    }
    let found = finish(&mut tokenizer, state);

    let kind = tokenizer.tokenize_state.size_b as u8;
    let stop = if found {
        back_over_cr(bulletin, tokenizer.point.index)
    } else {
        index
    };
    let closer_end = back_over_cr(bulletin, tokenizer.tokenize_state.size_c);
    Block {
        kind,
        stop,
        closed: closer_end != 0,
        closer: if closer_end != 0 {
            closer_start(&bulletin[..closer_end], kind)
        } else {
            stop
        },
        events: events(&tokenizer),
    }
}

/// First byte of the closer that ends the bytes, by the kind.
fn closer_start(bytes: &[u8], kind: u8) -> usize {
    let open = b"</";
    match kind {
        1 => bytes
            .windows(open.len())
            .rposition(|pair| pair == open)
            .expect("a raw end tag"),
        2 => bytes.len() - b"-->".len(),
        3 => bytes.len() - b"?>".len(),
        4 => bytes.len() - b">".len(),
        5 => bytes.len() - b"]]>".len(),
        _ => unreachable!("a closer of kind {kind}"),
    }
}

/// End of the content of the line that begins at `from`, and the index after
/// its ending. The two are equal on the last line only.
pub fn line_end(text: &[u8], from: usize) -> (usize, usize) {
    let mut end = from;
    while end < text.len() {
        match text[end] {
            b'\n' => return (end, end + 1),
            b'\r' if text.get(end + 1) == Some(&b'\n') => return (end, end + 2),
            b'\r' => return (end, end + 1),
            _ => end += 1,
        }
    }
    (end, end)
}

/// First bytes of all lines: one more than there are line endings.
pub fn line_starts(text: &[u8]) -> Vec<usize> {
    let mut starts = vec![0];
    let mut from = 0;
    loop {
        let (end, next) = line_end(text, from);
        if end == next {
            return starts;
        }
        starts.push(next);
        from = next;
    }
}

/// A line of only spaces and tabs, or of no bytes.
pub fn blank(line: &[u8]) -> bool {
    line.iter().all(|byte| matches!(byte, b'\t' | b' '))
}

/// Two line endings with only spaces, tabs or no bytes between.
pub fn holds_blank_line(text: &[u8]) -> bool {
    line_starts(text)[1..]
        .windows(2)
        .any(|pair| blank(&text[pair[0]..line_end(text, pair[0]).0]))
}

/// State of the driver: attempt an HTML block.
pub(crate) fn scan_flow(tokenizer: &mut Tokenizer) -> State {
    attempt(tokenizer);
    State::Retry(StateName::HtmlFlowStart)
}

/// State of the driver: attempt an inline piece.
pub(crate) fn scan_text(tokenizer: &mut Tokenizer) -> State {
    attempt(tokenizer);
    State::Retry(StateName::HtmlTextStart)
}

/// The caller's attempt. Both ends are reached without reading a further byte,
/// so that the point stays where Ok left it.
fn attempt(tokenizer: &mut Tokenizer) {
    tokenizer.attempt(
        State::Retry(StateName::ScanFound),
        State::Retry(StateName::ScanMissing),
    );
}

/// Called before each state: keeps the kind before `continuation_after` clears
/// it, and the index behind the closer, where `continuation_close` is first
/// entered, in two fields (`size_b` and `size_c`) that neither construct uses.
#[inline]
pub(crate) fn watch(tokenizer: &mut Tokenizer, name: StateName) {
    coverage::note(tokenizer, name);
    match name {
        StateName::HtmlFlowContinuationAfter => {
            tokenizer.tokenize_state.size_b = usize::from(tokenizer.tokenize_state.marker);
        }
        StateName::HtmlFlowContinuationClose if tokenizer.tokenize_state.size_c == 0 => {
            tokenizer.tokenize_state.size_c = tokenizer.point.index;
        }
        _ => {}
    }
}

/// Flush where the bytes did not decide, and tell whether the scan found.
fn finish(tokenizer: &mut Tokenizer, state: State) -> bool {
    let message = match state {
        State::Error(message) => message,
        state => tokenizer
            .flush(state, false)
            .expect_err("the driver's last states end a scan"),
    };
    message == Message::Found
}

fn start() -> Point {
    Point {
        line: 1,
        column: 1,
        index: 0,
        vs: 0,
    }
}

fn parse_state(bytes: &[u8]) -> ParseState<'_> {
    ParseState {
        location: None,
        options: &options::DEFAULT,
        bytes,
        definitions: vec![],
        gfm_footnote_definitions: vec![],
    }
}

/// A CR whose LF is not taken is not taken either.
fn back_over_cr(text: &[u8], stop: usize) -> usize {
    if stop > 0 && text[stop - 1] == b'\r' && text.get(stop) == Some(&b'\n') {
        stop - 1
    } else {
        stop
    }
}

type Events = fn(&Tokenizer) -> Vec<Ev>;

fn events(tokenizer: &Tokenizer) -> Vec<Ev> {
    tokenizer.events.iter().map(event).collect()
}

fn no_events(_: &Tokenizer) -> Vec<Ev> {
    vec![]
}

fn event(event: &Event) -> Ev {
    let enter = match event.name {
        Name::HtmlFlow => 1,
        Name::HtmlFlowData => 3,
        Name::LineEnding => 5,
        Name::HtmlText => 7,
        Name::HtmlTextData => 9,
        Name::SpaceOrTab => 11,
        _ => unreachable!("an event that neither construct writes"),
    };
    Ev {
        kind: match event.kind {
            Kind::Enter => enter,
            Kind::Exit => enter + 1,
        },
        line: event.point.line,
        column: event.point.column,
        index: event.point.index,
        vs: event.point.vs,
    }
}

/// `+Name line:column:index` of an enter, `-Name ..` of an exit; a `vs` other
/// than 0 follows as `.vs`.
impl fmt::Display for Ev {
    fn fmt(&self, f: &mut fmt::Formatter) -> fmt::Result {
        let names = [
            "HtmlFlow",
            "HtmlFlowData",
            "LineEnding",
            "HtmlText",
            "HtmlTextData",
            "SpaceOrTab",
        ];
        let sign = if self.kind % 2 == 1 { '+' } else { '-' };
        let name = names[usize::from(self.kind - 1) / 2];
        write!(
            f,
            "{sign}{name} {}:{}:{}",
            self.line, self.column, self.index
        )?;
        if self.vs > 0 {
            write!(f, ".{}", self.vs)?;
        }
        Ok(())
    }
}
