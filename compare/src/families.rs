//! Inputs taken exhaustively. A family is all texts that have one of some
//! strings at each of a few places.

use crate::conversion::Way;
use crate::filter;
use crate::fragments;
use crate::table;
use reference::{HTML_BLOCK_NAMES, HTML_RAW_NAMES};

/// The most pieces of a bulletin of which each stretch is asked for (check.rs).
pub const ALL_STRETCHES: usize = 64;

/// Many pieces, of few bytes each: for every one the Rust reads from the start.
const MANY_PIECES: usize = 500;

/// What is asked of a text. The bulletins of a family that is to be withheld are
/// filtered too, and what is withheld is found first and shown afterwards.
#[derive(Clone, Copy, Debug, Eq, PartialEq)]
pub enum Kind {
    Inline,
    Block,
    Withhold,
    Find,
    Show,
    Filter,
    Read,
    Convert(Way),
}

pub struct Family {
    pub kind: Kind,
    /// Inline: every index and every carry, not 0 alone. Blocks: all flags where
    /// lines are few.
    pub everywhere: bool,
    parts: Vec<Vec<Vec<u8>>>,
}

impl Family {
    /// How many texts there are.
    pub fn size(&self) -> u64 {
        self.parts.iter().map(|part| part.len() as u64).product()
    }

    /// The text of a number.
    pub fn text(&self, mut number: u64, text: &mut Vec<u8>) {
        text.clear();
        for part in &self.parts {
            let count = part.len() as u64;
            text.extend_from_slice(&part[(number % count) as usize]);
            number /= count;
        }
    }
}

/// Builds the list of families.
struct List {
    families: Vec<Family>,
    /// How many more strings than in the short form.
    more: usize,
}

fn strings(all: &[&[u8]]) -> Vec<Vec<u8>> {
    all.iter().map(|one| one.to_vec()).collect()
}

fn letters(all: &[u8]) -> Vec<Vec<u8>> {
    all.iter().map(|one| vec![*one]).collect()
}

fn each_byte() -> Vec<Vec<u8>> {
    (0..=255).map(|one| vec![one]).collect()
}

/// Each name as it is, with a letter more, fewer or changed, and in both cases.
fn variations<'a>(of: impl Iterator<Item = &'a &'a str>) -> Vec<Vec<u8>> {
    let mut names: Vec<Vec<u8>> = vec![];
    for name in of.map(|name| name.as_bytes()) {
        names.push(name.to_vec());
        names.push(name.to_ascii_uppercase());
        for at in 0..=name.len() {
            let mut more = name.to_vec();
            more.insert(at, b'x');
            names.push(more);
        }
        for at in 0..name.len() {
            for to in b'a'..=b'z' {
                let mut other = name.to_vec();
                other[at] = to;
                names.push(other);
            }
            let mut upper = name.to_vec();
            upper[at] = upper[at].to_ascii_uppercase();
            names.push(upper);
            let mut fewer = name.to_vec();
            fewer.remove(at);
            names.push(fewer);
        }
    }
    names.sort();
    names.dedup();
    names
}

impl List {
    fn add(&mut self, kind: Kind, everywhere: bool, parts: Vec<Vec<Vec<u8>>>) {
        self.families.push(Family {
            kind,
            everywhere,
            parts,
        });
    }

    /// A front, then up to so many of the strings.
    fn runs(&mut self, kind: Kind, everywhere: bool, front: &[u8], all: &[Vec<u8>], upto: usize) {
        for length in 0..=upto + self.more {
            let mut parts = vec![strings(&[front])];
            parts.extend((0..length).map(|_| all.to_vec()));
            self.add(kind, everywhere, parts);
        }
    }

    /// Every one and two bytes between a front and a back.
    fn bytes(&mut self, kind: Kind, front: &[u8], back: &[u8]) {
        for length in 1..=2 {
            let mut parts = vec![strings(&[front])];
            parts.extend((0..length).map(|_| each_byte()));
            parts.push(strings(&[back]));
            self.add(kind, false, parts);
        }
    }

    fn inline(&mut self) {
        let kind = Kind::Inline;
        // Every index and carry.
        self.runs(kind, true, b"", &letters(b"<>!-?a"), 5);
        self.runs(kind, true, b"", &letters(b"<!-[C>\n"), 4);
        self.runs(kind, true, b"", &letters(b"<a/>= \"\n"), 4);
        self.runs(kind, true, b"<![", &letters(b"CDATA[]>x"), 4);
        self.runs(
            kind,
            true,
            b"",
            &strings(&[b"<![", b"CD", b"AT", b"A[", b"]", b">", b"C", b"<"]),
            4,
        );
        self.runs(
            kind,
            true,
            b"",
            &strings(&[b"<b", b">", b"\t", b"\n", b"\r", b" ", b"x", b"\xc3\xa9"]),
            4,
        );
        // Index 0, carry 0.
        self.runs(kind, false, b"<", &letters(b"<>!-?a/["), 6);
        self.runs(kind, false, b"<!--", &letters(b"->a!\n "), 7);
        self.runs(kind, false, b"<!--", &letters(b"->\r\n\t a"), 6);
        self.runs(kind, false, b"<?", &letters(b"?>a\n\r\t"), 6);
        self.runs(kind, false, b"<!a", &letters(b">a\n\r\t -"), 6);
        self.runs(kind, false, b"<![CDATA[", &letters(b"]>a\n\r ["), 6);
        self.runs(kind, false, b"<a", &letters(b" =/\"'>b<"), 6);
        self.runs(kind, false, b"<a b", &letters(b" =/\"'>b\n"), 6);
        self.runs(kind, false, b"<a b=", &letters(b" =/\"'>`<c\t"), 5);
        self.runs(kind, false, b"<a", &letters(b" \t\n\rb=\">"), 6);
        self.runs(kind, false, b"<a ", &letters(b"b1_:.-=>/ "), 5);
        self.runs(kind, false, b"</a", &letters(b"a1- \t\n\r/>"), 5);
        self.runs(kind, false, b"<b", &letters(b"a1-_ />\n"), 6);
        for (front, back) in [
            (b"" as &[u8], b"" as &[u8]),
            (b"<", b">"),
            (b"</", b">"),
            (b"</a", b">"),
            (b"</a ", b">"),
            (b"<a", b">"),
            (b"<a ", b">"),
            (b"<a b", b">"),
            (b"<a b ", b"c>"),
            (b"<a b=", b">"),
            (b"<a b=c", b">"),
            (b"<a b='", b"'>"),
            (b"<a b=\"", b"\">"),
            (b"<a b='c'", b">"),
            (b"<a/", b">"),
            (b"<!", b">"),
            (b"<!-", b"-->"),
            (b"<!--", b"-->"),
            (b"<!--a-", b"->"),
            (b"<!--a--", b">"),
            (b"<!a", b">"),
            (b"<![", b"CDATA[]]>"),
            (b"<![CDATA", b"]]>"),
            (b"<![CDATA[", b"]]>"),
            (b"<![CDATA[]", b"]>"),
            (b"<![CDATA[]]", b">"),
            (b"<?", b"?>"),
            (b"<?a?", b">"),
            (b"<b\n", b">"),
            (b"<!--\n ", b"-->"),
        ] {
            self.bytes(kind, front, back);
        }
    }

    fn blocks(&mut self) {
        let kind = Kind::Block;
        self.runs(kind, true, b"", &letters(b"<!-?/a>["), 5);
        self.runs(kind, true, b"", &letters(b" \t<a>\n"), 5);
        self.runs(kind, true, b"<", &letters(b"!?-/a>[\n"), 5);
        self.runs(kind, true, b"<!--", &letters(b"->\n\r a"), 5);
        self.runs(kind, true, b"<?", &letters(b"?>\n\r a"), 5);
        self.runs(kind, true, b"<!a", &letters(b">\n\r\t a"), 5);
        self.runs(kind, true, b"<![", &letters(b"CDATA[]\n"), 4);
        self.runs(kind, true, b"<![CDATA[", &letters(b"]>\n\r a"), 5);
        self.runs(kind, true, b"<div", &letters(b"\n\r\t a/>"), 5);
        self.runs(kind, true, b"<div>\n", &letters(b"\n\r\t a"), 5);
        self.runs(kind, true, b"<a", &letters(b" =/\"'>b1"), 5);
        self.runs(kind, true, b"<a b=", &letters(b" =/\"'>`<c\t"), 4);
        self.runs(kind, true, b"<a", &letters(b" \t\n\r>b/"), 5);
        self.runs(kind, true, b"<a>", &letters(b" \t\n\rx"), 5);
        self.runs(kind, true, b"</a", &letters(b"a1- \t\n/>"), 5);
        self.runs(
            kind,
            true,
            b"",
            &strings(&[b"<pre", b"</pre", b"</script>", b">", b"\n", b"a", b" "]),
            4,
        );
        self.runs(
            kind,
            true,
            b"<pre>",
            &strings(&[b"<", b"/", b"pre", b"STYLE", b">", b"\n", b"x"]),
            5,
        );
        self.runs(
            kind,
            true,
            b"",
            &strings(&[
                b"<!--",
                b"-->",
                b"<?",
                b"?>",
                b"<!a",
                b"<![CDATA[",
                b"]]>",
                b"<div",
                b"<a>",
                b"\n",
                b"\r\n",
                b" ",
            ]),
            3,
        );
        for (front, back) in [
            (b"" as &[u8], b"<a>" as &[u8]),
            (b"<", b"a>"),
            (b"</", b">"),
            (b"</a", b">"),
            (b"</div", b"a"),
            (b"<a", b">"),
            (b"<a ", b">"),
            (b"<a b", b">"),
            (b"<a b ", b"c>"),
            (b"<a b=", b">"),
            (b"<a b=c", b">"),
            (b"<a b=c ", b"d>"),
            (b"<a b='", b"'>"),
            (b"<a b='c'", b">"),
            (b"<a/", b">"),
            (b"<a>", b""),
            (b"<div", b""),
            (b"<div/", b"\n"),
            (b"<div\n", b"\na"),
            (b"<pre", b"</pre>"),
            (b"<pre>", b"</pre>\n"),
            (b"<pre></", b">\n"),
            (b"<pre></pr", b">\n"),
            (b"<pre><", b"/pre>\n"),
            (b"<!", b"\n"),
            (b"<!-", b"-\n"),
            (b"<!--", b">\n"),
            (b"<!--a-", b">\n"),
            (b"<!a", b">\n"),
            (b"<![", b"CDATA["),
            (b"<![CDATA", b"]]>\n"),
            (b"<![CDATA[", b"]>\n"),
            (b"<?", b">\n"),
            (b"<?\n", b"?>\n"),
        ] {
            self.bytes(kind, front, back);
        }
        self.names();
    }

    /// Every block name and raw name and its variations, in a tag, and as the end
    /// tag of a raw block.
    fn names(&mut self) {
        let names = variations(HTML_BLOCK_NAMES.iter().chain(&HTML_RAW_NAMES));
        self.add(
            Kind::Block,
            false,
            vec![
                strings(&[b"<", b"</"]),
                names.clone(),
                strings(&[b"", b">", b"/>", b" ", b"\t>", b"\r\n", b"/ >", b" b>x"]),
            ],
        );
        self.add(
            Kind::Block,
            false,
            vec![
                strings(&[b"<pre>\n</", b"<Style </"]),
                names,
                strings(&[b"", b">", b" >", b">\nx", b"\n>"]),
            ],
        );
    }

    fn screens(&mut self) {
        let kind = Kind::Withhold;
        self.runs(kind, true, b"", &letters(b"<a>! -\n"), 5);
        self.runs(
            kind,
            true,
            b"",
            &strings(&[
                b"<!--", b"-->", b"<b>", b"<b", b"\n", b"\n\n", b" ", b"x", b"<div>",
            ]),
            4,
        );
        self.runs(
            kind,
            true,
            b"x",
            &strings(&[
                b"<?",
                b"?>",
                b"<![CDATA[",
                b"]]>",
                b"<!a",
                b">",
                b"\r\n",
                b"\r",
                b"\t",
                b"</b",
            ]),
            4,
        );
        self.runs(
            kind,
            true,
            b"",
            &strings(&[
                b"<pre>", b"</pre>", b"<a b='", b"'>", b"\n", b"\n \n", b"</p>", b"y",
            ]),
            4,
        );
    }

    /// Backslashes before openings of blocks and of inline pieces, in and behind
    /// pieces, in short runs and in runs about as long as the longest random text, and
    /// with few flags in the longest that the limit on bulletins allows.
    fn backslashes(&mut self) {
        let kind = Kind::Withhold;
        self.runs(
            kind,
            true,
            b"",
            &strings(&[b"\\", b"<a>", b"<", b"x", b"\n", b"<!-- ", b"-->"]),
            4,
        );
        self.runs(
            kind,
            true,
            b"x",
            &strings(&[b"\\", b"<?", b"?>", b"</b", b" c='", b"'>", b">", b"\r\n"]),
            4,
        );
        self.runs(kind, false, b"", &letters(b"\\<a>\n"), 6);
        let long = fragments::LONGEST - 9..=fragments::LONGEST + 1;
        self.backslash_runs(true, (0..=9).chain(long));
        self.backslash_runs(false, table::LIMIT - 9..=table::LIMIT + 1);
    }

    /// Runs of so many backslashes before a tag.
    fn backslash_runs(&mut self, everywhere: bool, lengths: impl Iterator<Item = usize>) {
        let parts = vec![
            strings(&[b"", b"x", b"x\n", b"<p>\n\n"]),
            lengths.map(|length| vec![b'\\'; length]).collect(),
            strings(&[b"<b>", b"<xmp>"]),
        ];
        self.add(Kind::Withhold, everywhere, parts);
    }

    /// Pieces again and again: about as many as all stretches are asked of, and many.
    fn many_pieces(&mut self) {
        let units: [&[u8]; 5] = [b"<b>", b"<b>c", b"<!-->\n", b"<div>\n\n", b"\\\\<?x?>d"];
        let about = ALL_STRETCHES - 2..=ALL_STRETCHES + 2;
        let counts = about.chain([MANY_PIECES]);
        let parts = vec![
            strings(&[b"", b"x", b"<p>\n\n"]),
            counts
                .flat_map(|count| units.map(|unit| unit.repeat(count)))
                .collect(),
            strings(&[b"", b"x"]),
        ];
        self.add(Kind::Withhold, false, parts);
    }

    /// Tags with the filter's names, of which not all count: in blocks and
    /// paragraphs, behind backslashes there, and in the comments and values there.
    fn filtered_names(&mut self) {
        let kind = Kind::Withhold;
        let names = strings(&filter::NAMES.map(str::as_bytes));
        let around: [&[u8]; 9] = [
            b"",
            b"a ",
            b"a \\",
            b"a \\\\",
            b"<div>\n",
            b"<div>\n\\",
            b"<!-- ",
            b"a <!-- ",
            b"<a b='",
        ];
        let behind: [&[u8]; 19] = [
            b"", b">", b"/>", b" ", b"\t", b"\n", b"\r", b"\r\n", b"/", b"/ >", b"//>", b"x>",
            b" b>", b">\n\n", b"> -->", b" b='c'>", b" '>", b"\x0c>", b"\n\n>",
        ];
        let opens = strings(&[b"<", b"</"]);
        let parts = vec![strings(&around), opens, names.clone(), strings(&behind)];
        self.add(kind, false, parts);

        for front in [b"<div>\n<" as &[u8], b"<div>\n</", b"a <"] {
            let back = strings(&[b">"]);
            let parts = vec![strings(&[front]), names.clone(), each_byte(), back];
            self.add(kind, false, parts);
        }

        let fronts = strings(&[b"<div><", b"a </"]);
        let others = variations(filter::NAMES.iter());
        self.add(kind, false, vec![fronts, others, strings(&[b">", b"/>"])]);
    }

    /// Such tags again and again.
    fn filtered_runs(&mut self) {
        let kind = Kind::Withhold;
        self.runs(
            kind,
            true,
            b"",
            &strings(&[
                b"<xmp", b"</Title", b">", b"/>", b"\n", b" ", b"<!--", b"-->", b"<div>",
            ]),
            4,
        );
        self.runs(
            kind,
            true,
            b"x <a b='",
            &strings(&[b"<STYLE>", b"</iframe", b"'>", b" ", b"\r", b"<", b"\\"]),
            4,
        );
        self.runs(
            kind,
            true,
            b"<p><",
            &strings(&[b"/", b"sCript", b">", b"\r\n", b"\t", b"<", b"x"]),
            4,
        );
    }
}

/// All families; in the long form runs have one string more.
pub fn all(long: bool) -> Vec<Family> {
    let mut list = List {
        families: vec![],
        more: usize::from(long),
    };
    list.inline();
    list.blocks();
    list.screens();
    list.backslashes();
    list.many_pieces();
    list.filtered_names();
    list.filtered_runs();
    list.families
}
