//! docs/SCOPE.md, Withhold, with its Backslash before a tag, over the Rust's
//! scans: the pieces of a bulletin, their spans, and what is shown without them.

use reference::{blank, block, inline, line_end, line_starts};
use std::ops::Range;

/// What is withheld: a block, or an inline piece.
pub struct Piece {
    pub range: Range<usize>,
    pub block: bool,
}

/// The pieces of a bulletin in order, and how many scans they took.
#[derive(Default)]
pub struct Pieces {
    pub all: Vec<Piece>,
    pub scans: u64,
}

/// Lines are taken one after the other, and where no block is going on one is
/// tried; the other lines that are not blank make up paragraphs.
pub fn pieces(bulletin: &[u8], flags: &[u8]) -> Pieces {
    let starts = line_starts(bulletin);
    let mut pieces = Pieces::default();
    let mut paragraph: Option<Range<usize>> = None;
    let mut line = 0;
    while line < starts.len() {
        let start = starts[line];
        let end = line_end(bulletin, start).0;
        let answer = block(bulletin, flags, start);
        pieces.scans += 1;
        line += 1;
        if answer.kind == 0 && !blank(&bulletin[start..end]) {
            paragraph = Some(paragraph.map_or(start, |begun| begun.start)..end);
            continue;
        }
        if let Some(range) = paragraph.take() {
            pieces.inline(bulletin, range);
        }
        if answer.kind != 0 {
            pieces.add(start..answer.stop, true);
            while line < starts.len() && starts[line] <= answer.stop {
                line += 1;
            }
        }
    }
    if let Some(range) = paragraph {
        pieces.inline(bulletin, range);
    }
    pieces
}

/// How many backslashes stand at the end.
fn backslashes(text: &[u8]) -> usize {
    text.iter().rev().take_while(|byte| **byte == b'\\').count()
}

impl Pieces {
    fn add(&mut self, range: Range<usize>, block: bool) {
        self.all.push(Piece { range, block });
    }

    /// From the left, try every `<` of a paragraph by inline scan with carry 0;
    /// take what is found and go on at its stop. Not tried is a `<` with an odd
    /// number of backslashes right before it, counted back to the paragraph's
    /// start or the last stop.
    fn inline(&mut self, bulletin: &[u8], range: Range<usize>) {
        let text = &bulletin[range.clone()];
        let mut from = 0;
        let mut index = 0;
        while index < text.len() {
            if text[index] == b'<' && backslashes(&text[from..index]) % 2 == 0 {
                let answer = inline(text, index, 0);
                self.scans += 1;
                if answer.found {
                    self.add(range.start + index..range.start + answer.stop, false);
                    index = answer.stop;
                    from = index;
                    continue;
                }
            }
            index += 1;
        }
    }

    /// The bulletin with something else in place of each piece: what no piece
    /// holds is shown.
    pub fn replaced(
        &self,
        bulletin: &[u8],
        mut write: impl FnMut(&Piece, &mut Vec<u8>),
    ) -> Vec<u8> {
        let mut bytes = vec![];
        let mut from = 0;
        for piece in &self.all {
            bytes.extend_from_slice(&bulletin[from..piece.range.start]);
            write(piece, &mut bytes);
            from = piece.range.end;
        }
        bytes.extend_from_slice(&bulletin[from..]);
        bytes
    }

    /// The list of spans: start, stop, and 0 for an inline piece or 1 for a block.
    pub fn spans(&self) -> Vec<u32> {
        let ends = |piece: &Piece| [piece.range.start, piece.range.end].map(|end| end as u32);
        let span = |piece: &Piece| ends(piece).into_iter().chain([u32::from(piece.block)]);
        self.all.iter().flat_map(span).collect()
    }

    /// With nothing in its place.
    pub fn withheld(&self, bulletin: &[u8]) -> Vec<u8> {
        self.replaced(bulletin, |_, _| ())
    }
}
