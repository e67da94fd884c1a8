//! Random texts, made of fragments of raw HTML and of what it is mistaken for.

use crate::filter;
use crate::generator::Random;
use reference::{blank, line_end, line_starts, HTML_BLOCK_NAMES, HTML_RAW_NAMES};

#[rustfmt::skip]
const FRAGMENTS: [&[u8]; 87] = [
    b"<", b"<", b"<", b">", b">", b">", b"</", b"<!--", b"-->", b"--", b"-", b"<!-->", b"<!--->",
    b"<?", b"?>", b"?", b"<!", b"<!D", b"<!doctype html>", b"<![CDATA[", b"<![", b"CDATA[", b"CD",
    b"ATA[", b"[", b"]]>", b"]]]>", b"]]", b"]", b"<pre", b"pre", b"script", b"<sTyle",
    b"<textarea", b"</textarea>", b"</pre>", b"</SCRIPT", b"</style >", b"</textareas>", b"div",
    b"<DIV", b"<p", b"</p", b"<search>", b"<source>", b"<a", b"<a>", b"</a>", b"<b ", b"<a b=c>",
    b"<a b='c'>", b" b=\"c\"", b" c = 'd'", b" d=/e", b" d=e/", b" 1=2", b"a", b"b", b"1", b"_",
    b":", b".", b"=", b" =", b"= ", b" ", b"  ", b"   ", b"    ", b"\t", b" \t", b"\"", b"'", b"`",
    b"/", b"/>", b"\n", b"\n", b"\r", b"\r\n", b"\n\n", b"\r\n\r\n", b"\r\r", b"\n \t\n", b"\0",
    b"\xc3\xa9", b"&lt;",
];

#[rustfmt::skip]
const OPENINGS: [&[u8]; 20] = [
    b"<!--", b"<?", b"<!a", b"<![CDATA[", b"<pre", b"<script>", b"</pre", b"<div", b"</p ", b"<p/>",
    b"<a", b"<a b", b"<a b=c", b"</a", b"  <a b=", b"   <a ", b"    <a>", b"\t<div>", b"x\n<a>", b"<STYLE\n",
];

#[rustfmt::skip]
const CLOSERS: [&[u8]; 9] = [
    b"-->", b"?>", b">", b"]]>", b"]]]]>", b"</pre>", b"</Script>", b"/>", b"'>",
];

const SPACES: [&[u8]; 6] = [b" ", b"\n", b"\t", b"\r\n", b"  ", b"\n  "];

const VALUES: [&[u8]; 10] = [
    b"='c'",
    b"=\"c d\"",
    b"=c",
    b"",
    b"= c",
    b" =c",
    b"=/c",
    b"=c/",
    b"='\n'",
    b"=",
];

/// What makes a name of the filter count, and what does not.
#[rustfmt::skip]
const BEHIND: [&[u8]; 19] = [
    b">", b">", b">", b"/>", b" ", b"\t", b"\n", b"\r", b"\r\n", b" >", b" b='c'>", b"\nb=c>",
    b"", b"/", b"/ >", b"x>", b"-a>", b"<", b"\x0c>",
];

/// The most bytes of a random text, and of the shortest that is long: far below
/// what is allowed, since the Rust takes quadratic time to withhold. The texts of
/// long.rs, for single scans, go up to the limit.
pub const LONGEST: usize = 16_000;
const LONG: usize = LONGEST - 100;

/// A text; now and then a long one.
pub fn text(random: &mut Random) -> Vec<u8> {
    if random.once_in(4000) {
        return long(random);
    }
    let mut text = match random.below(8) {
        0 => plain(random),
        1 | 2 => construct(random),
        3 => tag(random),
        _ => {
            let count = random.below(18);
            pieces(random, count)
        }
    };
    if random.once_in(4) {
        mutate(random, &mut text);
    }
    text
}

/// Fragments, most often behind an opening.
fn pieces(random: &mut Random, count: usize) -> Vec<u8> {
    let mut text = vec![];
    if !random.once_in(3) {
        text.extend_from_slice(random.one(&OPENINGS));
    }
    for _ in 0..count {
        piece(random, &mut text);
    }
    text
}

fn piece(random: &mut Random, text: &mut Vec<u8>) {
    match random.below(40) {
        0 => text.push(random.below(256) as u8),
        1 => text.extend(name(random)),
        2 => {
            // A run.
            let byte = random.one(b"-]?<>a \t\n");
            let count = random.below(12);
            text.resize(text.len() + count, byte);
        }
        _ => text.extend_from_slice(random.one(&FRAGMENTS)),
    }
}

/// Bytes of a few kinds.
fn plain(random: &mut Random) -> Vec<u8> {
    let count = random.below(24);
    (0..count)
        .map(|_| random.one(b"<<>>!-?[]/='\" \t\n\raAbZ1_:.`"))
        .collect()
}

/// An opening, something, a closer that may be its own, something.
fn construct(random: &mut Random) -> Vec<u8> {
    let mut text = vec![];
    if random.once_in(3) {
        let spaces = random.below(5);
        text.resize(spaces, b' ');
    }
    text.extend_from_slice(random.one(&OPENINGS));
    for _ in 0..random.below(6) {
        piece(random, &mut text);
    }
    text.extend_from_slice(random.one(&CLOSERS));
    for _ in 0..random.below(4) {
        piece(random, &mut text);
    }
    text
}

/// A block name, a raw name or another, in some case.
fn name(random: &mut Random) -> Vec<u8> {
    let mut name: Vec<u8> = match random.below(4) {
        0 => random.one(&HTML_RAW_NAMES).as_bytes().to_vec(),
        1 => vec![random.one(b"abxh")],
        _ => random.one(&HTML_BLOCK_NAMES).as_bytes().to_vec(),
    };
    if random.once_in(3) {
        let at = random.below(name.len());
        name[at] = name[at].to_ascii_uppercase();
    }
    name
}

/// A tag with attributes.
fn tag(random: &mut Random) -> Vec<u8> {
    let mut text = random
        .one(&[b"<" as &[u8], b"<", b"</", b" <", b"x <"])
        .to_vec();
    text.extend(name(random));
    for _ in 0..random.below(4) {
        text.extend_from_slice(random.one(&SPACES));
        text.push(random.one(b"bbc_:1"));
        text.extend_from_slice(random.one(&VALUES));
    }
    if random.once_in(2) {
        text.extend_from_slice(random.one(&SPACES));
    }
    text.extend_from_slice(random.one(&[b">" as &[u8], b"/>", b">\n", b""]));
    for _ in 0..random.below(4) {
        piece(random, &mut text);
    }
    text
}

/// Tags with the filter's names, among openings and other pieces; now and then
/// again and again, in a long text.
pub fn tagged(random: &mut Random) -> Vec<u8> {
    let mut text = vec![];
    if random.once_in(2) {
        text.extend_from_slice(random.one(&OPENINGS));
    }
    for _ in 0..1 + random.below(6) {
        if random.once_in(3) {
            piece(random, &mut text);
        } else {
            filtered_tag(random, &mut text);
        }
    }
    if random.once_in(8) {
        mutate(random, &mut text);
    }
    if random.once_in(50_000) {
        let length = long_length(random);
        return text.into_iter().cycle().take(length).collect();
    }
    text
}

/// A tag with one of the filter's names in some case, or what is almost one.
fn filtered_tag(random: &mut Random, text: &mut Vec<u8>) {
    text.extend_from_slice(random.one(&[b"<" as &[u8], b"<", b"</", b"</", b"< ", b"a <", b""]));
    let from = text.len();
    text.extend_from_slice(random.one(&filter::NAMES).as_bytes());
    match random.below(4) {
        0 => text[from..].make_ascii_uppercase(),
        1 => {
            let at = from + random.below(text.len() - from);
            text[at] = text[at].to_ascii_uppercase();
        }
        _ => {}
    }
    text.extend_from_slice(random.one(&BEHIND));
}

/// One text in three with runs of backslashes put in, most before a `<`. A long one
/// stays as long. What is recorded (record.rs) does without: to the scans a
/// backslash is a byte as any other.
pub fn with_backslashes(random: &mut Random, text: Vec<u8>) -> Vec<u8> {
    if !random.once_in(3) {
        return text;
    }
    let rare = 1 + random.below(4);
    let longest = random.one(&[1, 2, 5, 5, 40]);
    let mut with = vec![];
    for byte in &text {
        if random.once_in(if *byte == b'<' { rare } else { 12 * rare }) {
            let length = with.len() + 1 + random.below(longest);
            with.resize(length, b'\\');
        }
        with.push(*byte);
    }
    if text.len() >= LONG {
        with.truncate(text.len());
    }
    with
}

/// Up to three bytes deleted, changed, put in or said twice.
fn mutate(random: &mut Random, text: &mut Vec<u8>) {
    for _ in 0..random.below(4) {
        if text.is_empty() {
            return;
        }
        let at = random.below(text.len());
        match random.below(4) {
            0 => {
                text.remove(at);
            }
            1 => text[at] = random.one(&FRAGMENTS)[0],
            2 => text.insert(at, random.one(&FRAGMENTS)[0]),
            _ => text.insert(at, text[at]),
        }
    }
}

/// From 15,900 to 16,000.
fn long_length(random: &mut Random) -> usize {
    LONG + random.below(LONGEST - LONG + 1)
}

/// A fragment again and again, with others between.
fn long(random: &mut Random) -> Vec<u8> {
    let length = long_length(random);
    let mut text = vec![];
    if random.once_in(2) {
        text.extend_from_slice(random.one(&OPENINGS));
    }
    let body: Vec<u8> = match random.below(3) {
        0 => random.one(&FRAGMENTS).to_vec(),
        1 => b"some text".to_vec(),
        _ => {
            let count = 1 + random.below(6);
            pieces(random, count)
        }
    };
    let rare = 2 + random.below(200);
    while text.len() < length {
        text.extend_from_slice(&body);
        if body.is_empty() || random.once_in(rare) {
            piece(random, &mut text);
        }
    }
    text.truncate(length);
    if random.once_in(2) {
        let closer = random.one(&CLOSERS);
        let from = length - closer.len();
        text[from..].copy_from_slice(closer);
    }
    text
}

/// The text without its blank lines between two line endings.
pub fn without_blank_lines(text: &[u8]) -> Vec<u8> {
    let mut kept = vec![];
    for start in line_starts(text) {
        let (end, next) = line_end(text, start);
        if start == 0 || end == next || !blank(&text[start..end]) {
            kept.extend_from_slice(&text[start..next]);
        }
    }
    kept
}

/// Flags for lines: most often all 0, or few that are not, or any.
pub fn flags(random: &mut Random, lines: usize) -> Vec<u8> {
    let rare = random.one(&[0, 1, 2, 4, 8]);
    (0..lines)
        .map(|_| {
            if rare > 0 && random.once_in(rare) {
                random.below(4) as u8
            } else {
                0
            }
        })
        .collect()
}
