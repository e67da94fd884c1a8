//! The texts that are measured: a unit again and again, or units in no order, up to a length.

use crate::generator::Random;
use foringamo::Span;

/// As many flags as there are lines, all 0.
pub fn flags(text: &[u8]) -> Vec<u8> {
    vec![0; foringamo::count_lines(text)]
}

/// A list of spans, with the room that always suffices: three numbers a byte.
pub fn list(text: &[u8]) -> Vec<Span> {
    vec![Span::default(); text.len()]
}

/// A unit repeated between two ends, so that there are `length` bytes.
pub fn repeated(front: &str, unit: &str, end: &str, length: usize) -> Vec<u8> {
    let mut text = front.as_bytes().to_vec();
    text.extend(unit.bytes().cycle().take(length - front.len() - end.len()));
    text.extend(end.bytes());
    text
}

// Units in no order, which a processor does not learn as it does a unit again and again. They are the same in every run.
fn shuffled(front: &str, units: &[&str], end: &str, length: usize) -> Vec<u8> {
    let mut random = Random::new(1);
    let mut text = front.as_bytes().to_vec();
    while text.len() < length {
        text.extend(random.one(units).bytes());
    }
    text.truncate(length - end.len());
    text.extend(end.bytes());
    text
}

/// Two paragraphs.
pub const PROSE: &str = "The door on the second floor stays shut until noon; please take the stairs.\nLifts run as always.\n\n";

/// A paragraph with inline pieces, and two blocks.
pub const RICH: &str = "Gate <b>4</b> is <!-- not yet --> open: see <a href=\"map\" title='the map'>the map</a>.<br/>
Ask <i>any</i> of us.

<div class=\"old\">
closed
</div>

<!-- to be
told -->
";

const TABLE: &str = "<table>\n<tr><td>4</td><td>open</td></tr>\n<tr><td>5</td><td>shut</td></tr>\n</table>\n\n";

const ROW: &str = "Row <tr><td>4</td><td class=\"a\">open</td></tr>\n";

// Names that stand late in the list of those that open a block.
const LATE: &str = "<ul>\n\n<track>\n\n<title>\n\n";

// Openings, most of them without a closer, and tags behind backslashes.
const OPENINGS: [&str; 7] = ["<?", "<!--", "<![CDATA[", "<!a", "<a b=\"<a b='", "\\<b>", "\\\\<b>"];

// The filter's tags, whole and broken.
const TAGS: [&str; 6] = ["<xmp>", "<xmp", "</", "<title", "<div><", "<xmp/"];

/// What, and the text of a length.
pub struct Bulletin {
    pub what: String,
    pub of_length: Box<dyn Fn(usize) -> Vec<u8>>,
}

/// A unit between two ends.
pub fn between(what: impl Into<String>, front: &'static str, unit: &'static str, end: &'static str) -> Bulletin {
    Bulletin { what: what.into(), of_length: Box::new(move |length| repeated(front, unit, end, length)) }
}

/// Units in no order between two ends.
pub fn in_no_order(what: impl Into<String>, front: &'static str, units: &'static [&'static str], end: &'static str) -> Bulletin {
    Bulletin { what: what.into(), of_length: Box::new(move |length| shuffled(front, units, end, length)) }
}

/// Where units stand, and what takes them there.
pub struct Place {
    name: &'static str,
    front: &'static str,
}

pub const IN_A_PARAGRAPH: Place = Place { name: "in a paragraph", front: "x" };
pub const AT_THE_FRONT: Place = Place { name: "at the front", front: "" };
pub const IN_A_BLOCK: Place = Place { name: "in a block", front: "<div>" };

// A unit again and again.
fn again(unit: &'static str, place: &Place) -> Bulletin {
    between(format!("`{unit}`, {}", place.name), place.front, unit, "")
}

// Each unit at each place.
fn at_places(units: &[&'static str], places: [Place; 2]) -> Vec<Bulletin> {
    units.iter().flat_map(|unit| places.each_ref().map(|place| again(unit, place))).collect()
}

/// The openings and the filter's tags, at a place.
pub fn units(place: Place) -> impl Iterator<Item = Bulletin> {
    OPENINGS.into_iter().chain(TAGS).map(move |unit| again(unit, &place))
}

/// Prose, and text with tags.
pub fn texts() -> Vec<Bulletin> {
    let all = [
        ("prose", PROSE),
        ("prose, one line", &PROSE[..PROSE.find('\n').unwrap()]),
        ("rich in HTML", RICH),
        ("table of tags, blocks", TABLE),
        ("table of tags, inline", ROW),
        ("table of tags, late names", LATE),
        ("`<b` and a line ending", "<b\n"),
    ];
    all.into_iter().map(|(what, unit)| between(what, "", unit, "")).collect()
}

/// What is withheld from: the texts, and the openings.
pub fn bulletins() -> Vec<Bulletin> {
    let mut all = texts();
    all.extend(at_places(&OPENINGS, [IN_A_PARAGRAPH, AT_THE_FRONT]));
    all
}

/// What is filtered: the same, and the filter's tags.
pub fn filtered_bulletins() -> Vec<Bulletin> {
    let mut all = bulletins();
    all.extend(at_places(&TAGS, [IN_A_PARAGRAPH, IN_A_BLOCK]));
    all
}
