//! Long texts: from 100,000 bytes to one more than the limit, with lines, columns
//! and indices that two bytes do not hold. They are for single scans and their
//! traces, in which the Rust takes linear time, and for withholding and the filter,
//! where it reads as much for each line and each opening: of these there are few.
//! They are the same in every run.

use crate::families::Kind;
use crate::table::LIMIT;

/// What stands before the construct again and again: lines, or tabs.
const FRONT: usize = 66_000;
const BEFORE_INLINE: [&[u8]; 4] = [b"", b"a\n", b"\t", b"a\r"];
const BEFORE_BLOCK: [&[u8]; 4] = [b"", b"a\n", b"\r", b"\r\n"];
const BEFORE_SCREEN: [&[u8]; 4] = [b"", b"a", b"\t", b"\\"];

/// How many bytes stand behind that, where the text is not about as long as is
/// allowed.
const LENGTHS: [usize; 3] = [100_000, 150_000, 200_000];

/// One text in so many has no closer, and one in so many a lazy line.
const OPEN_IN: usize = 5;
const LAZY_IN: usize = 9;

/// The flag of such a line.
const LAZY: u8 = 1;

/// An opening and its closer.
type Construct = (&'static [u8], &'static [u8]);

const INLINE: [Construct; 9] = [
    (b"<!--", b"-->"),
    (b"<![CDATA[", b"]]>"),
    (b"<?", b"?>"),
    (b"<!a", b">"),
    (b"<a b=\"", b"\">"),
    (b"<a b='", b"'/>"),
    (b"<a b=", b">"),
    (b"<a", b" >"),
    (b"</a", b">"),
];

/// Blocks of kinds 1 to 7, with a line behind their ends.
const BLOCK: [Construct; 7] = [
    (b"<pre>", b"</pre>\nx"),
    (b" <!--", b"-->\r\nx"),
    (b"<?", b"?>x\rx"),
    (b"   <!a", b">\nx"),
    (b"<![CDATA[", b"]]>\nx"),
    (b"<div>", b"\n\nx"),
    (b"<a>\n", b"\r\n\r\nx"),
];

/// The same for bulletins, with more pieces behind; not each opens one where it
/// stands.
const SCREEN: [Construct; 8] = [
    (b"<!-- ", b"--> <b>c\n\n<div>\n<xmp>"),
    (b"\n<!--", b"-->\na <script> b"),
    (b"\\<?", b"?> <title>"),
    (b"\n\n<![CDATA[", b"]]>\n\\<b> \\\\<b>"),
    (b" <a b='", b"'> <![CDATA[x]]>"),
    (b"\n<pre>", b"</pre>x\n<!A>"),
    (b"\n<div>", b"<style>\n\nx</style>"),
    (b" <![CDx <![CDATA[", b"]]> y"),
];
const SCREEN_BODIES: [&[u8]; 3] = [b"x", b"\t", b" \\y-]"];

/// What stands in a construct again and again: one line, one of tabs, short lines
/// with each ending, and all of these with the first bytes of closers.
const BODIES: [&[u8]; 6] = [
    b"x",
    b"\t",
    b"x\n",
    b"x\r",
    b"x\r\n",
    b"x-\r\n \t\t]y?\r\t -z</\n",
];

/// Line endings alone, for blocks.
const ENDINGS: [&[u8]; 3] = [b"\n", b"\r", b"\r\n"];

/// A text, and what is asked of it.
pub struct Long {
    pub kind: Kind,
    front: Vec<u8>,
    opening: &'static [u8],
    body: &'static [u8],
    closer: &'static [u8],
    length: usize,
    has_lazy_line: bool,
}

impl Long {
    /// The text, and the index of the construct.
    pub fn text(&self) -> (Vec<u8>, usize) {
        let mut text = self.front.clone();
        text.extend_from_slice(self.opening);
        let length = self.length - text.len() - self.closer.len();
        text.extend(self.body.iter().cycle().take(length));
        text.extend_from_slice(self.closer);
        (text, self.front.len())
    }

    /// Flags for so many lines.
    pub fn flags(&self, lines: usize) -> Vec<u8> {
        let mut flags = vec![0; lines];
        if self.has_lazy_line {
            flags[lines * 3 / 4] = LAZY;
        }
        flags
    }
}

/// Builds the list of texts of a kind.
struct List {
    kind: Kind,
    fronts: [&'static [u8]; 4],
    all: Vec<Long>,
}

impl List {
    /// A text of a length, or behind its front of one of `LENGTHS`.
    fn add(&mut self, construct: Construct, body: &'static [u8], length: Option<usize>) {
        let number = self.all.len();
        let front = self.fronts[number % self.fronts.len()].repeat(FRONT);
        let behind = LENGTHS[number % LENGTHS.len()];
        let (opening, closer) = construct;
        self.all.push(Long {
            kind: self.kind,
            length: length.unwrap_or(front.len() + behind),
            front,
            opening,
            body,
            closer: if number % OPEN_IN == 0 { b"" } else { closer },
            has_lazy_line: number % LAZY_IN == 0,
        });
    }

    /// Each construct about as long as is allowed, and with each body.
    fn grid(mut self, constructs: &[Construct], bodies: &[&'static [u8]]) -> Vec<Long> {
        let lengths = [LIMIT, LIMIT - 1, LIMIT + 1];
        for number in 0..lengths.len() * constructs.len() {
            let construct = constructs[number % constructs.len()];
            let body = bodies[number % bodies.len()];
            self.add(construct, body, Some(lengths[number / constructs.len()]));
        }
        for number in 0..bodies.len() * constructs.len() {
            let construct = constructs[number % constructs.len()];
            self.add(construct, bodies[number / constructs.len()], None);
        }
        self.all
    }
}

/// The text with the longest trace: a block of empty lines.
fn longest_trace() -> Long {
    Long {
        kind: Kind::Block,
        front: vec![],
        opening: b"<?",
        body: b"\n",
        closer: b"",
        length: LIMIT,
        has_lazy_line: false,
    }
}

/// All long texts.
pub fn all() -> Vec<Long> {
    let list = |kind, fronts| List {
        kind,
        fronts,
        all: vec![],
    };
    let mut all = vec![longest_trace()];
    all.extend(list(Kind::Inline, BEFORE_INLINE).grid(&INLINE, &BODIES));
    let bodies = [&BODIES[..], &ENDINGS].concat();
    all.extend(list(Kind::Block, BEFORE_BLOCK).grid(&BLOCK, &bodies));
    all.extend(list(Kind::Withhold, BEFORE_SCREEN).grid(&SCREEN, &SCREEN_BODIES));
    all
}
