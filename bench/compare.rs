//! What the scans, withholding and the tag filter cost: the library, and the Rust. bench/run.sh builds and runs it; without `--cfg reference` the library is measured
//! alone.
//!
//! Both sides get the same bytes and indices, and their answers, with the spans of what is withheld, are compared before they are timed. The sides, and the lengths of an input, take turns in rounds of
//! about a millisecond; all inputs are gone through several times, and the least time of all rounds counts, since other work on the machine can only slow a round
//! down. The filter is timed in the library alone.
#![forbid(unsafe_code)]

// The rule by which compare/ judges the filter.
#[cfg(reference)]
#[path = "../compare/src/filter.rs"]
mod filter;

use foringamo::{Inline, Span};
use measure::inputs::{bulletins, filtered_bulletins, flags, list, repeated, Bulletin, RICH};
use measure::{commas, head, row, Turns, Work};
use std::hint::black_box;
use std::time::Duration;

const TURNS: Turns = Turns { rounds: 25, enough: Duration::from_secs(1) };
const PASSES: usize = 6;

// No longer, since the Rust takes quadratic time for some bulletins: a second for one of 16,000 bytes. The library's times up to its limit are bench/long.rs's.
const LENGTHS: [usize; 3] = [4_000, 8_000, 16_000];

// What a scan finds: the kind of a block, 0 for an inline piece, and the stop.
type Piece = Option<(u8, usize)>;

mod library {
    use super::{Inline, Piece, Span};

    pub fn inline(text: &[u8], index: usize) -> Piece {
        match foringamo::inline_scan(text, index, 0).expect("not refused") {
            Inline::Found { stop, .. } => Some((0, stop)),
            Inline::Missing { .. } => None,
        }
    }

    pub fn block(bulletin: &[u8], flags: &[u8], index: usize) -> Piece {
        let block = foringamo::block_scan(bulletin, flags, index).expect("not refused");
        block.map(|block| (block.kind.number(), block.stop))
    }

    // The shown length, and the number of pieces, whose spans are listed.
    pub fn withhold(bulletin: &[u8], flags: &[u8], spans: &mut [Span], out: &mut [u8]) -> (usize, usize) {
        let shown = foringamo::withhold(bulletin, flags, spans, out).expect("not refused");
        (shown.length, shown.pieces)
    }

    // The shown length; the filter counts no pieces, and lists none.
    pub fn filter(bulletin: &[u8], flags: &[u8], _: &mut [Span], out: &mut [u8]) -> (usize, usize) {
        (foringamo::filter(bulletin, flags, out).expect("not refused"), 0)
    }
}

#[cfg(reference)]
mod rust {
    use super::{Piece, Span};
    use reference::{blank, line_end};

    pub fn inline(text: &[u8], index: usize) -> Piece {
        let inline = reference::inline_answer(text, index, 0);
        inline.found.then_some((0, inline.stop))
    }

    pub fn block(bulletin: &[u8], flags: &[u8], index: usize) -> Piece {
        let block = reference::block_answer(bulletin, flags, index);
        (block.kind > 0).then_some((block.kind, block.stop))
    }

    // A block or an inline piece.
    struct Found {
        start: usize,
        stop: usize,
        block: bool,
    }

    // docs/SCOPE.md, Withhold, over the Rust's scans. A scan gets what begins at its place, since the Rust walks to an index from line 1. Nothing is refused.
    fn pieces(bulletin: &[u8], flags: &[u8]) -> Vec<Found> {
        let mut pieces: Vec<Found> = vec![];
        let mut paragraph: Option<(usize, usize)> = None;
        let mut from = 0;
        for line in 0..flags.len() {
            let (end, next) = line_end(bulletin, from);
            let in_block = pieces.last().is_some_and(|piece| from < piece.stop);
            let found = if in_block { None } else { block(&bulletin[from..], &flags[line..], 0) };
            if in_block || found.is_some() || blank(&bulletin[from..end]) {
                if let Some((start, end)) = paragraph.take() {
                    inline_pieces(&bulletin[..end], start, &mut pieces);
                }
            } else {
                paragraph = Some((paragraph.map_or(from, |(start, _)| start), end));
            }
            if let Some((_, stop)) = found {
                pieces.push(Found { start: from, stop: from + stop, block: true });
            }
            from = next;
        }
        if let Some((start, end)) = paragraph {
            inline_pieces(&bulletin[..end], start, &mut pieces);
        }
        pieces
    }

    // The pieces of the paragraph between the index and the end. A `<` behind an odd run of backslashes is not tried: docs/SCOPE.md, Backslash before a tag.
    fn inline_pieces(text: &[u8], index: usize, pieces: &mut Vec<Found>) {
        let mut index = index;
        while let Some(size) = text[index..].iter().position(|&byte| byte == b'<') {
            let start = index + size;
            let escaped = text[index..start].iter().rev().take_while(|&&byte| byte == b'\\').count() % 2 == 1;
            let found = if escaped { None } else { inline(&text[start..], 0) };
            index = match found {
                Some((_, stop)) => {
                    pieces.push(Found { start, stop: start + stop, block: false });
                    start + stop
                }
                None => start + 1,
            };
        }
    }

    impl Found {
        fn span(&self) -> Span {
            Span { start: self.start as u32, stop: self.stop as u32, sort: u32::from(self.block) }
        }
    }

    // Lists the pieces, copies what is outside of them, and gives its length and their number.
    pub fn withhold(bulletin: &[u8], flags: &[u8], spans: &mut [Span], out: &mut [u8]) -> (usize, usize) {
        let pieces = pieces(bulletin, flags);
        spans.iter_mut().zip(&pieces).for_each(|(span, piece)| *span = piece.span());
        let mut length = 0;
        let mut from = 0;
        for (start, stop) in pieces.iter().map(|piece| (piece.start, piece.stop)).chain([(bulletin.len(), bulletin.len())]) {
            out[length..length + start - from].copy_from_slice(&bulletin[from..start]);
            length += start - from;
            from = stop;
        }
        (length, pieces.len())
    }

    // The pieces are shown, each by the filter's rule. Not timed.
    pub fn filter(bulletin: &[u8], flags: &[u8], _: &mut [Span], out: &mut [u8]) -> (usize, usize) {
        let mut shown = vec![];
        let mut from = 0;
        for piece in pieces(bulletin, flags) {
            shown.extend(&bulletin[from..piece.start]);
            crate::filter::write(bulletin, piece.start..piece.stop, piece.block, &mut shown);
            from = piece.stop;
        }
        shown.extend(&bulletin[from..]);
        out[..shown.len()].copy_from_slice(&shown);
        (shown.len(), 0)
    }
}

// Never called.
#[cfg(not(reference))]
mod rust {
    use super::{Piece, Span};

    pub fn inline(_: &[u8], _: usize) -> Piece {
        unreachable!()
    }

    pub fn block(_: &[u8], _: &[u8], _: usize) -> Piece {
        unreachable!()
    }

    pub fn withhold(_: &[u8], _: &[u8], _: &mut [Span], _: &mut [u8]) -> (usize, usize) {
        unreachable!()
    }

    pub fn filter(_: &[u8], _: &[u8], _: &mut [Span], _: &mut [u8]) -> (usize, usize) {
        unreachable!()
    }
}

// ---- lines

// A line of a table: its works are the library's, for each length, and then the Rust's.
struct Line {
    what: String,
    bytes: usize,
    // How many scans the work is, and how many bytes they take.
    scans: usize,
    taken: usize,
    works: Vec<Work>,
}

impl Line {
    fn pass(&mut self) {
        TURNS.take(&mut self.works);
    }

    fn took(&self, i: usize) -> Option<f64> {
        self.works.get(i).map(|work| work.least)
    }
}

// ---- inputs

// Where each line begins. The lines here end in LF.
fn line_starts(text: &[u8]) -> Vec<usize> {
    let behind = text.iter().enumerate().filter(|(_, &byte)| byte == b'\n').map(|(i, _)| i + 1);
    std::iter::once(0).chain(behind).collect()
}

fn opens(text: &[u8]) -> Vec<usize> {
    (0..text.len()).filter(|&i| text[i] == b'<').collect()
}

// A text, and where it is scanned.
struct Scans {
    what: &'static str,
    text: Vec<u8>,
    indices: Vec<usize>,
}

fn at_front(what: &'static str, text: impl Into<Vec<u8>>) -> Scans {
    Scans { what, text: text.into(), indices: vec![0] }
}

fn inline_scans() -> Vec<Scans> {
    let mut all = vec![
        at_front("comment", "<!-- not yet -->"),
        at_front("tag", "<a href=\"map\" title='the map'>"),
        at_front("closing tag", "</b>"),
        at_front("CDATA", "<![CDATA[ x < y ]]>"),
        at_front("instruction", "<?php echo 1; ?>"),
        at_front("declaration", "<!DOCTYPE html>"),
        at_front("none", "< b and c"),
    ];
    for length in [4_000, 16_000] {
        all.push(at_front("long comment", repeated("<!--", "the stairs are shut\n", "-->", length)));
        all.push(at_front("long tag, one value", repeated("<a href=\"", "the stairs are shut\n", "\">", length)));
        all.push(at_front("long tag, attributes", repeated("<a", " b=\"c\" d='e' f=g h", " >", length)));
        all.push(at_front("long CDATA", repeated("<![CDATA[", "the stairs are shut\n", "]]>", length)));
    }
    let text = RICH[..RICH.find("\n\n").unwrap()].as_bytes().to_vec();
    let indices = opens(&text);
    all.push(Scans { what: "a paragraph, at each `<`", text, indices });
    all
}

fn block_scans() -> Vec<Scans> {
    let mut all = vec![
        at_front("1 raw", "<pre>\nthe stairs\n  are shut\n</pre>"),
        at_front("2 comment", "<!-- to be\ntold\nlater -->"),
        at_front("3 instruction", "<?php\necho 1;\n?>"),
        at_front("4 declaration", "<!DOCTYPE html\n  SYSTEM \"map\"\n>"),
        at_front("5 CDATA", "<![CDATA[\nx < y\n]]>"),
        at_front("6 basic", "<div class=\"old\">\nthe stairs\n</div>\n\n"),
        at_front("7 complete", "<map-part a=\"b\">\nthe stairs\n</map-part>\n\n"),
        at_front("none", "The door on the second floor stays shut until noon; please take the stairs."),
    ];
    for length in [4_000, 16_000] {
        all.push(at_front("1 raw, long", repeated("<pre>\n", "the stairs are shut until noon\n", "</pre>", length)));
        all.push(at_front("2 comment, long", repeated("<!--\n", "the stairs are shut until noon\n", "-->", length)));
        all.push(at_front("5 CDATA, long", repeated("<![CDATA[\n", "the stairs are shut until noon\n", "]]>", length)));
        all.push(at_front("6 basic, long", repeated("<div>\n", "the stairs are shut until noon\n", "</div>", length)));
        all.push(at_front("7 complete, long", repeated("<map-part>\n", "the stairs are shut until noon\n", "</map-part>", length)));
    }
    let text = RICH.as_bytes().to_vec();
    let indices = line_starts(&text);
    all.push(Scans { what: "a bulletin, at each line", text, indices });
    all
}

// What has none of these tags, to be filtered with no more room than it has bytes: what is shown is then counted first.
fn counted_bulletins() -> Vec<Bulletin> {
    let some = bulletins().into_iter().filter(|bulletin| bulletin.what == "prose" || bulletin.what == "table of tags, blocks");
    some.map(|bulletin| Bulletin { what: format!("{}, exact room", bulletin.what), ..bulletin }).collect()
}

// ---- tables

// Three digits or more.
fn digits(number: f64) -> String {
    match number {
        _ if number < 1.0 => format!("{number:.3}"),
        _ if number < 100.0 => format!("{number:.1}"),
        _ => commas(number),
    }
}

fn megabytes(bytes: usize, seconds: f64) -> f64 {
    bytes as f64 / seconds / 1e6
}

// A cell, or a dash where the Rust is not measured.
fn cell(value: Option<f64>) -> String {
    value.map_or("-".to_string(), digits)
}

type Scan = fn(&[u8], &[u8], usize) -> Piece;

fn scan_lines(all: Vec<Scans>, sides: &[Scan]) -> Vec<Line> {
    let mut lines = vec![];
    for Scans { what, text, indices } in all {
        let flags = flags(&text);
        let mut taken = 0;
        for &index in &indices {
            let pieces: Vec<Piece> = sides.iter().map(|scan| scan(&text, &flags, index)).collect();
            assert!(pieces.iter().all(|piece| *piece == pieces[0]), "{what}: the answers differ at {index}");
            taken += pieces[0].map_or(0, |(_, stop)| stop - index);
        }
        let work = |&scan: &Scan| {
            let (text, flags, indices) = (text.clone(), flags.clone(), indices.clone());
            Work::new(move || {
                for &index in &indices {
                    black_box(scan(black_box(&text), black_box(&flags), black_box(index)));
                }
            })
        };
        let works = sides.iter().map(work).collect();
        lines.push(Line { what: what.to_string(), bytes: text.len(), scans: indices.len(), taken, works });
    }
    lines
}

fn scan_table(title: &str, lines: &[Line]) {
    head(&[title, "bytes", "library, scans/s", "Rust, scans/s", "library, MB/s", "Rust, MB/s", "times"]);
    let mut ratios = vec![];
    for line in lines {
        let speed = |i: usize| line.took(i).map(|took| line.scans as f64 / took);
        let rate = |i: usize| line.took(i).filter(|_| line.taken > 0).map(|took| megabytes(line.taken, took));
        let ratio = line.took(1).map(|rust| rust / line.works[0].least);
        ratios.extend(ratio);
        row(&[line.what.clone(), commas(line.bytes as f64), cell(speed(0)), cell(speed(1)), cell(rate(0)), cell(rate(1)), cell(ratio)]);
    }
    ratios.sort_by(f64::total_cmp);
    if let (Some(first), Some(last)) = (ratios.first(), ratios.last()) {
        println!("\n{title}: {first:.1} to {last:.1} times, {:.1} in the middle.", ratios[ratios.len() / 2]);
    }
}

// What withholding or the filter shows: the length, and the number of pieces where it counts them.
type Screen = fn(&[u8], &[u8], &mut [Span], &mut [u8]) -> (usize, usize);

// The library's side, and where it is there the Rust's; of them so many are timed.
struct Screens<'a> {
    what: &'static str,
    sides: &'a [Screen],
    timed: usize,
    // Of the output buffer, by the bulletin's length.
    room: fn(usize) -> usize,
}

fn screen_lines(screens: &Screens, bulletins: Vec<Bulletin>) -> Vec<Line> {
    let mut lines = vec![];
    for Bulletin { what, of_length } in bulletins {
        let mut works = vec![];
        let mut shown: Vec<Vec<_>> = vec![];
        for (side, &screen) in screens.sides.iter().enumerate() {
            let mut all = vec![];
            for text in LENGTHS.map(&of_length) {
                let (flags, mut spans) = (flags(&text), list(&text));
                let mut out = vec![0; (screens.room)(text.len())];
                all.push((screen(&text, &flags, &mut spans, &mut out), spans.clone(), out.clone()));
                if side < screens.timed {
                    works.push(Work::new(move || {
                        black_box(screen(black_box(&text), black_box(&flags), black_box(&mut spans), black_box(&mut out)));
                    }));
                }
            }
            shown.push(all);
        }
        assert!(shown.iter().all(|all| *all == shown[0]), "{}, {what}: the answers differ", screens.what);
        lines.push(Line { what, bytes: LENGTHS[2], scans: 0, taken: 0, works });
    }
    lines
}

// The times of three lengths from a work on, and of each the ratio to the one before.
fn times(line: &Line, first: usize) -> [String; 2] {
    let side: Option<Vec<f64>> = (first..first + 3).map(|i| line.took(i)).collect();
    side.map_or(["-".to_string(), "-".to_string()], |took| {
        let micros: Vec<String> = took.iter().map(|t| digits(t * 1e6)).collect();
        [micros.join(" / "), format!("{:.2} {:.2}", took[1] / took[0], took[2] / took[1])]
    })
}

fn withhold_table(lines: &[Line]) {
    head(&["withhold", "library, µs", "doubling", "Rust, µs", "doubling", "library, MB/s", "Rust, MB/s", "times"]);
    for line in lines {
        let mut cells = vec![line.what.clone()];
        cells.extend([0, 3].into_iter().flat_map(|first| times(line, first)));
        let rate = |i: usize| line.took(i).map(|took| megabytes(line.bytes, took));
        cells.extend([cell(rate(2)), cell(rate(5)), cell(line.took(5).map(|rust| rust / line.works[2].least))]);
        row(&cells);
    }
}

fn filter_table(lines: &[Line]) {
    head(&["filter", "library, µs", "doubling", "library, MB/s"]);
    for line in lines {
        let [micros, doubling] = times(line, 0);
        row(&[line.what.clone(), micros, doubling, digits(megabytes(line.bytes, line.works[2].least))]);
    }
}

fn memcpy() -> Line {
    let from = vec![1u8; LENGTHS[2]];
    let mut to = vec![0u8; LENGTHS[2]];
    let work = Work::new(move || black_box(&mut to).copy_from_slice(black_box(&from)));
    Line { what: "memcpy".to_string(), bytes: LENGTHS[2], scans: 0, taken: 0, works: vec![work] }
}

fn main() {
    let sides = if cfg!(reference) { 2 } else { 1 };
    let inlines: [Scan; 2] = [|text, _, index| library::inline(text, index), |text, _, index| rust::inline(text, index)];
    let blocks: [Scan; 2] = [library::block, rust::block];
    let withholds: [Screen; 2] = [library::withhold, rust::withhold];
    let filters: [Screen; 2] = [library::filter, rust::filter];
    let withholding = Screens { what: "withhold", sides: &withholds[..sides], timed: sides, room: |length| length };
    let filtering = Screens { what: "filter", sides: &filters[..sides], timed: 1, room: |length| length * 8 / 5 };
    let counting = Screens { room: |length| length, ..filtering };

    let mut copy = memcpy();
    let mut inline = scan_lines(inline_scans(), &inlines[..sides]);
    let mut block = scan_lines(block_scans(), &blocks[..sides]);
    let mut withhold = screen_lines(&withholding, bulletins());
    let mut filter = screen_lines(&filtering, filtered_bulletins());
    filter.extend(screen_lines(&counting, counted_bulletins()));
    for _ in 0..PASSES {
        copy.pass();
        inline.iter_mut().chain(&mut block).chain(&mut withhold).chain(&mut filter).for_each(Line::pass);
    }

    println!("memcpy of 16,000 bytes: {} MB/s", commas(megabytes(copy.bytes, copy.works[0].least)));
    scan_table("inline scan", &inline);
    scan_table("block scan", &block);
    withhold_table(&withhold);
    filter_table(&filter);
}
