//! Writes the cases and answers that the program crates/recorded replays.
//!
//!     record CASES ANSWERS
//!
//! Inputs are made at random (fragments.rs), short ones first, always the same;
//! then those of families.rs are taken. One is kept where it reaches a pair of a
//! state of the Rust and a class of byte that no kept scan with the same outcome
//! has reached, or has an answer of a new shape; in the end those that the others
//! make needless are dropped. Refusals are kept where a new set of their
//! conditions applies, and a few scans have stops that two bytes do not hold. With
//! each trace goes whether it comes back from narrow (conversion.rs). What is
//! covered is told. The form of a case and of an answer stands in
//! crates/cases/src/run.rt.

#[allow(dead_code)]
mod conversion;
#[allow(dead_code)]
mod families;
#[allow(dead_code)]
mod filter;
#[allow(dead_code)]
mod fragments;
mod generator;
#[allow(dead_code)]
mod hex;
mod table;

use conversion::Way;
use families::Kind;
use generator::Random;
use hex::to_hex;
use reference::{block, flow_states, holds_blank_line, inline, line_starts, take_visited};
use reference::{text_states, Ev, Visited, CLASSES, EVENT_LENGTH, LAST_LENGTH};
use std::collections::{HashMap, HashSet};
use std::fs;
use std::hash::{DefaultHasher, Hash, Hasher};
use std::process::ExitCode;

/// Random texts tried for each bound on their length.
const TRIES: usize = 400_000;

/// The longest text of a case, and the most events.
const LENGTHS: [usize; 7] = [4, 6, 9, 12, 18, 26, 40];
const EVENTS: usize = 62;

/// The letters of a scan with its trace, of one over a long text, and of a
/// record: those of crates/cases/src/run.rt. A long one is the capital.
const INLINE: char = 's';
const LONG_INLINE: char = 'S';
const BLOCK: char = 'l';
const LONG_BLOCK: char = 'L';
const RECORD: char = 'e';

/// What a buffer holds before, and the room of one for a trace that is refused: so
/// much as the shortest trace takes.
const OLD: &str = "ee";
const REFUSED_ROOM: usize = LAST_LENGTH;

/// A case with its answer and what it covers.
struct Case {
    ask: String,
    answer: String,
    features: Vec<u64>,
}

/// What is covered, as numbers that hardly meet.
fn feature(what: impl Hash) -> u64 {
    let mut hasher = DefaultHasher::new();
    what.hash(&mut hasher);
    hasher.finish()
}

/// A feature for each pair of a state and a class of byte, with the outcome.
fn pairs(visited: &Visited, outcome: u8, features: &mut Vec<u64>) {
    for (state, bits) in visited.iter().enumerate() {
        for class in 0..CLASSES {
            if bits >> class & 1 == 1 {
                features.push(feature(("pair", state, class, outcome)));
            }
        }
    }
}

/// The kinds of the first events, the last event's place against the stop.
fn shape(events: &[Ev], stop: usize) -> (Vec<u8>, bool) {
    let kinds = events.iter().take(14).map(|event| event.kind).collect();
    let far = events.last().is_some_and(|event| event.index != stop);
    (kinds, far)
}

/// What the program says of a trace taken narrow and wide again.
fn said_of_conversion(trace: &[u8]) -> String {
    match conversion::converted(trace, Way::Narrow) {
        Err(refusal) => format!("refused {refusal}"),
        Ok(_) => "back".to_string(),
    }
}

/// Room for a trace: exact, now and then with two bytes to spare or one short.
/// Then what the program writes of the trace and the buffer.
fn traced(trace: &[u8], number: usize) -> (usize, String) {
    let length = trace.len();
    let spare = match number % 16 {
        7 => {
            let bytes = OLD.repeat(length - 1);
            return (length - 1, format!("refused {} {bytes}", table::NO_ROOM));
        }
        11 => 2,
        _ => 0,
    };
    let bytes = to_hex(trace) + &OLD.repeat(spare);
    let said = said_of_conversion(trace);
    (length + spare, format!("traced {length} {bytes} {said}"))
}

/// What the program says of a record.
fn said_of(record: &[u8]) -> String {
    let kind = record[0];
    let last = record[record.len() - 1];
    let first = table::field(record, 0);
    if record.len() == LAST_LENGTH {
        return format!("last {kind} {first} {last}");
    }
    let [column, index] = [1, 2].map(|place| table::field(record, place));
    format!("event {kind} {first} {column} {index} {last}")
}

/// The scans that are tried, the visited states, and the kept cases.
struct Recorder {
    random: Random,
    kept: Vec<Case>,
    covered: HashSet<u64>,
    visited: Visited,
    tried: u64,
}

impl Recorder {
    fn keep(&mut self, features: Vec<u64>, case: impl FnOnce(usize) -> (String, String)) {
        self.tried += 1;
        if features.iter().all(|one| self.covered.contains(one)) {
            return;
        }
        self.covered.extend(&features);
        let (ask, answer) = case(self.kept.len());
        self.kept.push(Case {
            ask,
            answer,
            features,
        });
    }

    fn saw(&mut self, visited: &Visited) {
        for (mine, theirs) in self.visited.iter_mut().zip(visited) {
            *mine |= theirs;
        }
    }

    fn inline(&mut self, text: &[u8], index: usize, carry: u8) {
        let refusal = table::inline(text, index, carry);
        if refusal != 0 {
            return;
        }
        take_visited();
        let answer = inline(text, index, usize::from(carry));
        let visited = take_visited();
        if answer.events.len() > EVENTS {
            return;
        }
        let trace = answer.trace();
        self.saw(&visited);
        let mut features = vec![];
        pairs(&visited, u8::from(answer.found), &mut features);
        let ends = answer.stop == text.len();
        features.push(feature((
            "inline",
            answer.found,
            carry,
            answer.carry,
            index.min(2),
            ends,
        )));
        features.push(feature(("text", shape(&answer.events, answer.stop))));
        self.keep(features, |number| {
            let (room, traced) = traced(&trace, number);
            let said = if answer.found {
                format!("found {} {}", answer.stop, answer.carry)
            } else {
                format!("none {}", answer.carry)
            };
            (
                format!("{INLINE}{index:06x}01{room:06x}{carry:02x}{}", to_hex(text)),
                format!("{said} {traced}"),
            )
        });
    }

    fn block(&mut self, text: &[u8], flags: &[u8], index: usize) {
        take_visited();
        let answer = block(text, flags, index);
        let visited = take_visited();
        if answer.events.len() > EVENTS {
            return;
        }
        let trace = answer.trace();
        self.saw(&visited);
        let mut features = vec![];
        let outcome = 2 * answer.kind + u8::from(answer.closed);
        pairs(&visited, 2 + outcome, &mut features);
        let starts = line_starts(text);
        let line = starts.partition_point(|start| *start < index);
        let behind = starts.partition_point(|start| *start <= answer.stop);
        let next = flags.get(behind).map(|flag| flag & 1);
        let taken = (behind - line).min(4);
        features.push(feature((
            "block",
            outcome,
            flags[line],
            next,
            taken,
            line.min(2),
        )));
        features.push(feature((
            "flow",
            outcome,
            shape(&answer.events, answer.stop),
        )));
        self.keep(features, |number| {
            let (room, traced) = traced(&trace, number);
            let said = match (answer.kind, answer.closed) {
                (0, _) => "none".to_string(),
                (kind, true) => format!("found {kind} {} yes", answer.stop),
                (kind, false) => format!("found {kind} {} no", answer.stop),
            };
            let count = flags.len();
            (
                format!(
                    "{BLOCK}{index:06x}{count:02x}{room:06x}{}{}",
                    to_hex(flags),
                    to_hex(text)
                ),
                format!("{said} {traced}"),
            )
        });
    }

    /// Scans of random texts up to a length.
    fn scans(&mut self, length: usize) {
        for _ in 0..TRIES {
            let text = fragments::text(&mut self.random);
            if text.len() > length {
                continue;
            }
            let starts = line_starts(&text);
            let flags = fragments::flags(&mut self.random, starts.len());
            for index in starts {
                self.block(&text, &flags, index);
            }
            let text = fragments::without_blank_lines(&text);
            let carry = self.random.below(12).saturating_sub(6) as u8;
            for index in 0..=text.len() {
                if index < 2 || text.get(index) == Some(&b'<') {
                    self.inline(&text, index, carry);
                }
            }
        }
    }

    /// Scans of the families' texts.
    fn families(&mut self) {
        let mut text = vec![];
        for family in families::all(false) {
            for number in 0..family.size() {
                family.text(number, &mut text);
                match family.kind {
                    Kind::Inline => self.inline(&text, 0, 0),
                    Kind::Block => self.block(&text, &vec![0; line_starts(&text).len()], 0),
                    _ => {}
                }
            }
        }
    }

    /// Refusals of scans: every set of their conditions that one input can meet.
    fn refusals(&mut self) {
        for _ in 0..20_000 {
            let text = fragments::text(&mut self.random);
            if text.len() > 20 {
                continue;
            }
            let index = self.random.below(text.len() + 2);
            let carry = self.random.below(8) as u8;
            let lines = line_starts(&text).len();
            let count = (lines + self.random.below(3)).saturating_sub(1);
            let mut flags = fragments::flags(&mut self.random, count);
            if self.random.once_in(2) && count > 0 {
                let at = self.random.below(count);
                flags[at] = self.random.below(8) as u8;
            }
            let text = (text.as_slice(), to_hex(&text), false);
            self.refused_inline(text.clone(), index, carry);
            self.refused_block(text, &flags, index);
        }
        for (byte, length) in [
            (b'a', table::LIMIT),
            (b'a', table::LIMIT + 1),
            (b'<', table::LIMIT + 2),
            (b'\n', table::LIMIT + 1),
        ] {
            let bytes = vec![byte; length];
            for index in [0, 1, length, length + 1] {
                for carry in [0, 5, 6] {
                    let text = (bytes.as_slice(), format!("{length:06x}{byte:02x}"), true);
                    self.refused_inline(text, index, carry);
                }
                for flags in [&[] as &[u8], &[0], &[4], &[0, 0]] {
                    let text = (bytes.as_slice(), format!("{length:06x}{byte:02x}"), true);
                    self.refused_block(text, flags, index);
                }
            }
        }
    }

    /// An inline scan, kept by which conditions apply. The text comes with its
    /// form in a case, and whether that is the one of a long text.
    fn refused_inline(&mut self, text: (&[u8], String, bool), index: usize, carry: u8) {
        let (text, form, long) = text;
        let refusal = table::inline(text, index, carry);
        if refusal == 0 {
            return;
        }
        let conditions = [
            text.len() > table::LIMIT,
            index > text.len(),
            carry > 5,
            holds_blank_line(text),
        ];
        let features = vec![feature(("refused inline", refusal, conditions))];
        self.keep(features, |_| {
            let letter = if long { LONG_INLINE } else { INLINE };
            (
                format!("{letter}{index:06x}01{REFUSED_ROOM:06x}{carry:02x}{form}"),
                format!(
                    "refused {refusal} {carry} refused {refusal} {}",
                    OLD.repeat(REFUSED_ROOM)
                ),
            )
        });
    }

    /// A block scan, likewise.
    fn refused_block(&mut self, text: (&[u8], String, bool), flags: &[u8], index: usize) {
        let (text, form, long) = text;
        let refusal = table::block(text, flags, index);
        if refusal == 0 {
            return;
        }
        let starts = line_starts(text);
        let conditions = [
            text.len() > table::LIMIT,
            flags.len() < starts.len(),
            flags.len() > starts.len(),
            flags.iter().any(|flag| *flag > 3),
            !starts.contains(&index),
        ];
        let features = vec![feature(("refused block", refusal, conditions))];
        self.keep(features, |_| {
            let letter = if long { LONG_BLOCK } else { BLOCK };
            let count = flags.len();
            (
                format!(
                    "{letter}{index:06x}{count:02x}{REFUSED_ROOM:06x}{}{form}",
                    to_hex(flags)
                ),
                format!(
                    "refused {refusal} refused {refusal} {}",
                    OLD.repeat(REFUSED_ROOM)
                ),
            )
        });
    }

    /// Inline scans at the end of a long text: stops about the highest of two bytes,
    /// and the highest of all.
    fn far(&mut self) {
        let two_bytes = usize::from(u16::MAX);
        for length in [two_bytes, two_bytes + 1, table::LIMIT - 1, table::LIMIT] {
            let byte = b'<';
            let answer = inline(&vec![byte; length], length, 0);
            assert!(!answer.found, "there is nothing at the end");
            let trace = answer.trace();
            let room = trace.len();
            self.keep(vec![feature(("far", length))], |_| {
                let (bytes, said) = (to_hex(&trace), said_of_conversion(&trace));
                (
                    format!("{LONG_INLINE}{length:06x}01{room:06x}00{length:06x}{byte:02x}"),
                    format!("none {} traced {room} {bytes} {said}", answer.carry),
                )
            });
        }
    }

    /// Records of traces, of which some are cut off or have a wrong kind.
    fn records(&mut self) {
        for _ in 0..20_000 {
            let text = fragments::without_blank_lines(&fragments::text(&mut self.random));
            if text.len() > 20 {
                continue;
            }
            let mut trace = inline(&text, 0, 0).trace();
            if self.random.once_in(2) {
                let flags = vec![0; line_starts(&text).len()];
                trace = block(&text, &flags, 0).trace();
            }
            if self.random.once_in(2) {
                let at = self.random.below(trace.len());
                trace.truncate(at);
            }
            if self.random.once_in(2) && !trace.is_empty() {
                // The kind of a record, or a byte in the middle of one.
                let half = EVENT_LENGTH / 2;
                let at = self.random.below(trace.len()) / half * half;
                trace[at] = self.random.below(18) as u8;
            }
            let number = self.random.below(trace.len() / EVENT_LENGTH + 2);
            let read = table::record(&trace, number);
            let kind = read.map(|bytes| bytes[0]);
            let left = trace.len() % EVENT_LENGTH;
            let features = vec![feature(("record", kind, number.min(3), left))];
            self.keep(features, |_| {
                let said = match read {
                    Err(refusal) => format!("refused {refusal}"),
                    Ok(bytes) => said_of(bytes),
                };
                let trace = to_hex(&trace);
                (format!("{RECORD}{number:06x}00000000{trace}"), said)
            });
        }
    }

    /// Drop each case whose features other kept cases have, the longest first.
    fn thin(&mut self) {
        let mut counts: HashMap<u64, u32> = HashMap::new();
        for case in &self.kept {
            for one in &case.features {
                *counts.entry(*one).or_default() += 1;
            }
        }
        let mut order: Vec<usize> = (0..self.kept.len()).collect();
        order.sort_by_key(|at| std::cmp::Reverse(self.kept[*at].ask.len()));
        let mut dropped = HashSet::new();
        for at in order {
            let features = &self.kept[at].features;
            if features.iter().all(|one| counts[one] > 1) {
                dropped.insert(at);
                for one in features {
                    *counts.get_mut(one).expect("it was counted") -= 1;
                }
            }
        }
        let mut at = 0;
        self.kept.retain(|_| {
            at += 1;
            !dropped.contains(&(at - 1))
        });
    }
}

fn main() -> ExitCode {
    let arguments: Vec<String> = std::env::args().skip(1).collect();
    let [cases, answers] = &arguments[..] else {
        eprintln!("usage: record CASES ANSWERS");
        return ExitCode::FAILURE;
    };
    let mut recorder = Recorder {
        random: Random::new(1),
        kept: vec![],
        covered: HashSet::new(),
        visited: take_visited(),
        tried: 0,
    };
    for length in LENGTHS {
        recorder.scans(length);
    }
    recorder.families();
    let scans = recorder.tried;
    recorder.refusals();
    recorder.far();
    recorder.records();
    let found = recorder.kept.len();
    recorder.thin();

    let mut asks = String::new();
    let mut said = String::new();
    let mut kinds: HashMap<char, usize> = HashMap::new();
    let mut refused: HashMap<usize, usize> = HashMap::new();
    for case in &recorder.kept {
        asks += &case.ask;
        asks.push('\n');
        said += &case.answer;
        said.push('\n');
        let letter = case.ask.chars().next().expect("a case has a letter");
        *kinds.entry(letter.to_ascii_lowercase()).or_default() += 1;
        if let Some((_, behind)) = case.answer.split_once("refused ") {
            let number = behind.split(' ').next().expect("there is a first part");
            let number = number.parse().expect("a number");
            *refused.entry(number).or_default() += 1;
        }
    }
    for (file, text) in [(cases, asks), (answers, said)] {
        if let Err(error) = fs::write(file, text) {
            eprintln!("record: {file}: {error}");
            return ExitCode::FAILURE;
        }
    }

    println!(
        "{} cases ({found} before thinning): {} inline, {} block, {} records, of {scans} scans tried",
        recorder.kept.len(),
        kinds[&INLINE],
        kinds[&BLOCK],
        kinds[&RECORD]
    );
    for (file, range) in [
        ("html_flow.rs", flow_states()),
        ("html_text.rs", text_states()),
    ] {
        let states = &recorder.visited[range];
        println!(
            "{file}: {} of {} states, {} pairs of a state and one of {CLASSES} classes of bytes",
            states.iter().filter(|bits| **bits != 0).count(),
            states.len(),
            states.iter().map(|bits| bits.count_ones()).sum::<u32>()
        );
    }
    println!(
        "{} pairs with an outcome, shapes of answers and sets of conditions; all are in the cases",
        recorder.covered.len()
    );
    let mut refused: Vec<_> = refused.into_iter().collect();
    refused.sort();
    println!("cases refused, by number: {refused:?}");
    ExitCode::SUCCESS
}
