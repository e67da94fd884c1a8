//! The differential run: the library, through its C interface, against the
//! Rust, on the same inputs.
//!
//!     differ [--seed N] [--count N | --long] [--threads N]
//!
//! Compared are the answers of both scans with kind, stop, closer and carry,
//! all trace bytes, each record read back (of a long trace a few), each trace taken
//! narrow and wide again, withholding, at once and by finding and showing, the tag
//! filter, and every refusal; the closer also with the plain rule (closer.rs). Shown
//! bytes, the list of spans and the filter, by its plain rule (filter.rs), are held
//! against the pieces that the Rust's scans give (withhold.rs), the conversion of
//! traces against its own rule (conversion.rs), and showing beside any spans, with the
//! stretches between them, against its own (spans.rs).
//! Inputs are taken exhaustively over small alphabets (families.rs) and up to the
//! limit on lengths (long.rs), both the same in every run, and at random, from the
//! seed N texts (fragments.rs), N byte strings that look like traces (made.rs) and N
//! texts with a list of spans (lists.rs).
//! Where the two differ, the shortest input found is shown, and the status is 1.
//! The last line is `N passed, M failed`, one for each kind of comparison, and one for
//! a control: by the lists of spans each of some rules that have one number wrong
//! (spans.rs) is told from the right one.

mod check;
mod closer;
mod conversion;
mod families;
mod filter;
mod fragments;
mod generator;
#[allow(dead_code)]
mod hex;
mod lent;
mod library;
mod lists;
mod long;
mod made;
mod shrink;
mod spans;
mod table;
mod withhold;

use check::{Outcome, Screen, Work};
use conversion::Way;
use families::{Family, Kind};
use generator::Random;
use long::Long;
use reference::{flow_states, take_visited, text_states, Visited, CLASSES};
use reference::{line_starts, trace_block, trace_inline, EVENT_LENGTH};
use shrink::{shrink, Ask};
use std::ops::{Range, RangeInclusive};
use std::process::ExitCode;
use std::sync::atomic::{AtomicUsize, Ordering};
use std::time::Instant;

/// Random texts where no count is given, and in the long form.
const COUNT: u64 = 1_000_000;
const LONG_COUNT: u64 = 10_000_000;

/// So many random texts come with a bulletin that has the filter's names.
const TAGGED: usize = 8;

/// So many inputs that may be refused come with one about as long as is allowed, and so
/// many with lists of spans.
const AT_LIMIT: usize = 2_000;
const LISTED_AT_LIMIT: usize = 5_000;

/// Of so many lists of spans there must be some that tell each wrong rule.
const ENOUGH_LISTS: u64 = 100_000;

/// A text of fewer bytes is short: all is asked of it.
const SHORT: usize = 1_000;

/// How many numbers a refusal may have, with 0, which is none.
const NUMBERS: usize = 13;

/// How many inputs a job takes.
const OF_FAMILY: u64 = 512;
const AT_RANDOM: u64 = 256;

/// The kinds of comparison.
#[derive(Clone, Copy, Eq, PartialEq)]
enum Row {
    InlineAll,
    InlineRandom,
    InlineLong,
    BlockAll,
    BlockRandom,
    BlockLong,
    Records,
    Conversions,
    WrongTraces,
    MadeTraces,
    WithholdAll,
    WithholdRandom,
    WithholdLong,
    FindAll,
    FindRandom,
    FindLong,
    ShowRandom,
    FilterAll,
    FilterRandom,
    FilterLong,
    Refusals,
}

const ROWS: [&str; 21] = [
    "inline scans and traces, exhaustive",
    "inline scans and traces, random",
    "inline scans and traces, long texts",
    "block scans and traces, exhaustive",
    "block scans and traces, random",
    "block scans and traces, long texts",
    "records of these traces",
    "conversions of these traces",
    "records of wrong traces, random",
    "conversions of traces, random",
    "withholding, exhaustive",
    "withholding, random",
    "withholding, long texts",
    "finding and showing, exhaustive",
    "finding and showing, random",
    "finding and showing, long texts",
    "showing beside any spans, random",
    "tag filter, exhaustive",
    "tag filter, random",
    "tag filter, long texts",
    "refusals, random",
];

/// The rows of single scans.
const SCANS: [Row; 6] = [
    Row::InlineAll,
    Row::InlineRandom,
    Row::InlineLong,
    Row::BlockAll,
    Row::BlockRandom,
    Row::BlockLong,
];

/// The rows of what is made of a bulletin's pieces: withholding, at once and by finding
/// and showing, and the filter.
const SCREENS_ALL: [Row; 3] = [Row::WithholdAll, Row::FindAll, Row::FilterAll];
const SCREENS_RANDOM: [Row; 3] = [Row::WithholdRandom, Row::FindRandom, Row::FilterRandom];
const SCREENS_LONG: [Row; 3] = [Row::WithholdLong, Row::FindLong, Row::FilterLong];

/// What one row counts.
#[derive(Clone, Default)]
struct Count {
    inputs: u64,
    scans: u64,
    found: u64,
    differences: u64,
    /// The input of the first difference, by the job's number.
    first: Option<(usize, Ask)>,
}

/// What a thread counts.
struct Tally {
    rows: Vec<Count>,
    /// How often each number was refused.
    refused: [u64; NUMBERS],
    /// How many lists told each wrong rule for spans from the right one.
    told: [u64; spans::WRONG.len()],
    visited: Visited,
    work: Work,
    job: usize,
}

impl Tally {
    fn new() -> Tally {
        Tally {
            rows: vec![Count::default(); ROWS.len()],
            refused: [0; NUMBERS],
            told: [0; spans::WRONG.len()],
            visited: take_visited(),
            work: Work::default(),
            job: 0,
        }
    }

    /// One more input of each of the rows.
    fn input(&mut self, rows: &[Row]) {
        for row in rows {
            self.rows[*row as usize].inputs += 1;
        }
    }

    /// Count a comparison; a difference is kept with its input.
    fn count(&mut self, row: Row, outcome: Outcome, ask: impl FnOnce() -> Ask) {
        match outcome {
            Ok(found) => self.rows[row as usize].found += u64::from(found),
            Err(difference) => {
                // A record read back, or a trace taken across, differs in a row of
                // its own.
                let row = match difference.what {
                    what if SCANS.contains(&row) && what == check::RECORD => Row::Records,
                    what if what.starts_with(check::CONVERSION) => Row::Conversions,
                    _ => row,
                };
                let count = &mut self.rows[row as usize];
                count.differences += 1;
                if count.first.is_none() {
                    count.first = Some((self.job, ask()));
                }
            }
        }
        self.count_work(row);
    }

    /// Count what a comparison did besides.
    fn count_work(&mut self, row: Row) {
        let take = std::mem::take::<u64>;
        self.refused[usize::from(table::NO_ROOM)] += self.work.take_short();
        let scans = take(&mut self.work.scans);
        let stretches = take(&mut self.work.stretches);
        self.rows[row as usize].scans += match row {
            Row::FindAll | Row::FindRandom | Row::FindLong | Row::ShowRandom => stretches,
            Row::WrongTraces
            | Row::MadeTraces
            | Row::Refusals
            | Row::FilterAll
            | Row::FilterRandom
            | Row::FilterLong => 1,
            _ => scans,
        };
        let traces = take(&mut self.work.traces);
        let records = &mut self.rows[Row::Records as usize];
        records.inputs += traces;
        records.scans += take(&mut self.work.records);
        records.found += take(&mut self.work.given);
        let conversions = &mut self.rows[Row::Conversions as usize];
        conversions.inputs += traces;
        conversions.scans += take(&mut self.work.conversions);
        conversions.found += take(&mut self.work.converted);
    }

    fn inline(&mut self, row: Row, text: &[u8], index: usize, carry: u8) {
        let outcome = check::inline(text, index, carry, &mut self.work);
        self.count(row, outcome, || Ask {
            index,
            carry,
            ..Ask::new(Kind::Inline, text)
        });
    }

    fn block(&mut self, row: Row, bulletin: &[u8], flags: &[u8], index: usize) {
        let outcome = check::block(bulletin, flags, index, &mut self.work);
        self.count(row, outcome, || Ask {
            index,
            ..Ask::new(Kind::Block, bulletin).with_flags(flags)
        });
    }

    /// Withholding, finding and showing, and the filter, each in its row, over the same
    /// pieces. The Rust's scans count in the first.
    fn screen(&mut self, rows: [Row; 3], bulletin: &[u8], flags: &[u8]) {
        let ask = |kind| Ask::new(kind, bulletin).with_flags(flags);
        let screen = Screen::new(bulletin, flags, &mut self.work);
        let outcome = check::withhold(&screen, &mut self.work);
        self.count(rows[0], outcome, || ask(Kind::Withhold));
        let outcome = check::find(&screen, &mut self.work);
        self.count(rows[1], outcome, || ask(Kind::Find));
        let outcome = check::filter(&screen, &mut self.work);
        self.count(rows[2], outcome, || ask(Kind::Filter));
    }

    /// Showing beside a list, which tells wrong rules from the right one.
    fn show(&mut self, row: Row, bulletin: &[u8], list: &[u32]) {
        let outcome = check::show(bulletin, list, &mut self.work);
        self.count(row, outcome, || Ask {
            list: list.to_vec(),
            ..Ask::new(Kind::Show, bulletin)
        });
        let refusal = spans::refusal(bulletin, list);
        self.refused[usize::from(refusal)] += 1;
        for (told, wrong) in self.told.iter_mut().zip(spans::told(bulletin, list)) {
            *told += u64::from(wrong);
        }
    }

    fn random_screen(&mut self, bulletin: &[u8], flags: &[u8]) {
        self.input(&SCREENS_RANDOM);
        self.screen(SCREENS_RANDOM, bulletin, flags);
    }

    fn read(&mut self, row: Row, trace: &[u8], number: usize) {
        let outcome = check::read(trace, number);
        self.count(row, outcome, || Ask {
            index: number,
            ..Ask::new(Kind::Read, trace)
        });
    }

    fn convert(&mut self, row: Row, trace: &[u8], way: Way, room: usize) {
        let outcome = check::convert(trace, way, room, &mut self.work);
        self.count(row, outcome, || Ask {
            index: room,
            ..Ask::new(Kind::Convert(way), trace)
        });
    }

    fn add(&mut self, other: Tally) {
        for (mine, theirs) in self.rows.iter_mut().zip(other.rows) {
            mine.inputs += theirs.inputs;
            mine.scans += theirs.scans;
            mine.found += theirs.found;
            mine.differences += theirs.differences;
            mine.first = match (mine.first.take(), theirs.first) {
                (Some(a), Some(b)) => Some(if a.0 <= b.0 { a } else { b }),
                (a, b) => a.or(b),
            };
        }
        let refused = self.refused.iter_mut().zip(other.refused);
        let told = self.told.iter_mut().zip(other.told);
        for (mine, theirs) in refused.chain(told) {
            *mine += theirs;
        }
        for (mine, theirs) in self.visited.iter_mut().zip(other.visited) {
            *mine |= theirs;
        }
    }
}

/// A part of the run that one thread does at once.
enum Job {
    /// A long text.
    Long(Long),
    /// Texts of a family, by number.
    Family(usize, Range<u64>),
    /// So many random texts, from a seed.
    Random(u64, u64),
    /// So many byte strings that look like traces, from a seed.
    Made(u64, u64),
    /// So many bulletins with lists of spans, from a seed.
    Lists(u64, u64),
}

impl Job {
    fn run(&self, families: &[Family], tally: &mut Tally) {
        match self {
            Job::Long(one) if one.kind == Kind::Withhold => long_screen(one, tally),
            Job::Long(one) => long_scans(one, tally),
            Job::Family(one, numbers) => family(&families[*one], numbers.clone(), tally),
            Job::Random(seed, count) => at_random(*seed, *count, tally),
            Job::Made(seed, count) => made(*seed, *count, tally),
            Job::Lists(seed, count) => listed(*seed, *count, tally),
        }
    }
}

fn jobs(families: &[Family], seed: u64, count: u64) -> Vec<Job> {
    let mut jobs: Vec<Job> = long::all().into_iter().map(Job::Long).collect();
    for (family, numbers) in families.iter().enumerate() {
        let mut from = 0;
        while from < numbers.size() {
            let to = numbers.size().min(from + OF_FAMILY);
            jobs.push(Job::Family(family, from..to));
            from = to;
        }
    }
    for of_kind in [Job::Random, Job::Made, Job::Lists] {
        let mut left = count;
        while left > 0 {
            let size = left.min(AT_RANDOM);
            let own = seed
                .wrapping_mul(1 << 32)
                .wrapping_add(jobs.len() as u64 + 1);
            jobs.push(of_kind(own, size));
            left -= size;
        }
    }
    jobs
}

/// Where all are asked for and there are at most three lines, all flags; else 0
/// everywhere, and others that hang on the text's number.
fn flag_sets(lines: usize, everywhere: bool, number: u64) -> Vec<Vec<u8>> {
    if everywhere && lines <= 3 {
        return (0..1usize << (2 * lines))
            .map(|set| {
                (0..lines)
                    .map(|line| (set >> (2 * line)) as u8 & 3)
                    .collect()
            })
            .collect();
    }
    let mut random = Random::new(number + 1);
    vec![
        vec![0; lines],
        (0..lines).map(|_| random.below(4) as u8).collect(),
    ]
}

fn family(family: &Family, numbers: Range<u64>, tally: &mut Tally) {
    let mut text = vec![];
    for number in numbers {
        family.text(number, &mut text);
        match family.kind {
            Kind::Inline => {
                let row = Row::InlineAll;
                tally.input(&[row]);
                if !family.everywhere {
                    tally.inline(row, &text, 0, 0);
                    continue;
                }
                for index in 0..=text.len() {
                    for carry in 0..=5 {
                        tally.inline(row, &text, index, carry);
                    }
                }
            }
            Kind::Block => {
                let row = Row::BlockAll;
                tally.input(&[row]);
                let starts = line_starts(&text);
                for flags in flag_sets(starts.len(), family.everywhere, number) {
                    for index in &starts {
                        tally.block(row, &text, &flags, *index);
                    }
                }
            }
            Kind::Withhold => {
                tally.input(&SCREENS_ALL);
                for flags in flag_sets(line_starts(&text).len(), family.everywhere, number) {
                    tally.screen(SCREENS_ALL, &text, &flags);
                }
            }
            Kind::Find | Kind::Show | Kind::Filter | Kind::Read | Kind::Convert(_) => {
                unreachable!("no family is of this kind")
            }
        }
    }
}

/// A long bulletin.
fn long_screen(long: &Long, tally: &mut Tally) {
    let (bulletin, _) = long.text();
    let flags = long.flags(line_starts(&bulletin).len());
    tally.input(&SCREENS_LONG);
    tally.screen(SCREENS_LONG, &bulletin, &flags);
    tally.refused[usize::from(table::bulletin(&bulletin, &flags))] += 1;
}

/// A long text, at its construct and at its end.
fn long_scans(long: &Long, tally: &mut Tally) {
    let (text, index) = long.text();
    let starts = line_starts(&text);
    if long.kind == Kind::Inline {
        let row = Row::InlineLong;
        tally.input(&[row]);
        for index in [index, text.len()] {
            tally.inline(row, &text, index, 0);
            tally.refused[usize::from(table::inline(&text, index, 0))] += 1;
        }
    } else {
        let row = Row::BlockLong;
        let flags = long.flags(starts.len());
        tally.input(&[row]);
        for index in [index, starts[starts.len() - 1]] {
            tally.block(row, &text, &flags, index);
            tally.refused[usize::from(table::block(&text, &flags, index))] += 1;
        }
    }
}

fn at_random(seed: u64, count: u64, tally: &mut Tally) {
    let random = &mut Random::new(seed);
    for _ in 0..count {
        let text = fragments::text(random);
        let text = fragments::with_backslashes(random, text);
        let starts = line_starts(&text);
        let flags = fragments::flags(random, starts.len());

        tally.input(&[Row::BlockRandom]);
        for index in some_of(random, &starts) {
            tally.block(Row::BlockRandom, &text, &flags, index);
        }
        // In a long text the Rust takes its time: now and then.
        if text.len() < SHORT || random.once_in(8) {
            tally.random_screen(&text, &flags);
        }
        if random.once_in(TAGGED) {
            tagged(random, tally);
        }

        let inline = fragments::without_blank_lines(&text);
        let carry = if random.once_in(3) {
            random.below(6)
        } else {
            0
        } as u8;
        let mut indices: Vec<usize> = (0..inline.len()).filter(|at| inline[*at] == b'<').collect();
        indices.push(random.below(inline.len() + 1));
        tally.input(&[Row::InlineRandom]);
        for index in some_of(random, &indices) {
            tally.inline(Row::InlineRandom, &inline, index, carry);
        }

        if random.once_in(4) && text.len() < SHORT {
            wrong_trace(random, &text, &flags, &inline, tally);
        }
        if random.once_in(4) {
            refusal(random, &text, tally);
        }
    }
}

/// A bulletin with the filter's names.
fn tagged(random: &mut Random, tally: &mut Tally) {
    let text = fragments::tagged(random);
    let text = fragments::with_backslashes(random, text);
    let flags = fragments::flags(random, line_starts(&text).len());
    tally.random_screen(&text, &flags);
}

/// All where they are few, else some.
fn some_of(random: &mut Random, all: &[usize]) -> Vec<usize> {
    if all.len() <= 32 {
        return all.to_vec();
    }
    (0..6).map(|_| random.one(all)).collect()
}

/// A trace with bytes deleted, changed or put in, cut off, or as it was.
fn wrong_trace(random: &mut Random, text: &[u8], flags: &[u8], inline: &[u8], tally: &mut Tally) {
    let mut trace = if random.once_in(2) {
        trace_inline(inline, 0, 0)
    } else {
        trace_block(text, flags, 0)
    };
    let count = trace.len() / EVENT_LENGTH + 1;
    for _ in 0..random.below(4) {
        if trace.is_empty() {
            break;
        }
        let at = random.below(trace.len());
        match random.below(5) {
            0 => trace.truncate(at),
            1 => trace[at] = random.below(256) as u8,
            2 => trace[at / EVENT_LENGTH * EVENT_LENGTH] = random.one(&[0, 13, 14, 15, 255]),
            3 => trace.insert(at, random.below(16) as u8),
            _ => {
                trace.remove(at);
            }
        }
    }
    let row = Row::WrongTraces;
    tally.input(&[row]);
    for _ in 0..3 {
        let number = match random.below(16) {
            0 => usize::MAX,
            1 => count + random.below(1000),
            _ => random.below(count + 2),
        };
        let refusal = table::record(&trace, number).err().unwrap_or(0);
        tally.refused[usize::from(refusal)] += 1;
        tally.read(row, &trace, number);
    }
}

/// Byte strings that look like traces, taken both ways.
fn made(seed: u64, count: u64, tally: &mut Tally) {
    let random = &mut Random::new(seed);
    let row = Row::MadeTraces;
    for _ in 0..count {
        let width = random.one(&[conversion::NARROW, conversion::WIDE]);
        let trace = made::trace(random, width);
        tally.input(&[row]);
        for way in conversion::WAYS {
            let room = random.below(2 * trace.len() + 4);
            let refusal = conversion::converted(&trace, way).err().unwrap_or(0);
            tally.refused[usize::from(refusal)] += 1;
            tally.convert(row, &trace, way, room);
        }
    }
}

/// Bulletins with lists of spans, those found in them or others, most of them altered.
fn listed(seed: u64, count: u64, tally: &mut Tally) {
    let random = &mut Random::new(seed);
    let row = Row::ShowRandom;
    for _ in 0..count {
        let mut text = fragments::text(random);
        if random.once_in(LISTED_AT_LIMIT) {
            to_limit(random, &mut text);
        }
        let list = lists::list(random, &found(&text), text.len());
        tally.input(&[row]);
        tally.show(row, &text, &list);
    }
}

/// The spans that the library finds, with all flags 0; none where it refuses.
fn found(text: &[u8]) -> Vec<u32> {
    let flags = vec![0; line_starts(text).len()];
    let mut list = vec![0; spans::NUMBERS * text.len()];
    let count = library::find(text, &flags, &mut list).count;
    list.truncate(spans::NUMBERS * count);
    list
}

/// A text made about as long as is allowed.
fn to_limit(random: &mut Random, text: &mut Vec<u8>) {
    let length = table::LIMIT - 1 + random.below(4);
    let byte = random.one(b"a\n< ");
    text.resize(length, byte);
}

/// An input that one or more rows of the table of refusals may refuse.
fn refusal(random: &mut Random, text: &[u8], tally: &mut Tally) {
    let mut text = text.to_vec();
    if random.once_in(AT_LIMIT) {
        to_limit(random, &mut text);
    }
    let mut flags = fragments::flags(random, line_starts(&text).len());
    if random.once_in(4) {
        match random.below(3) {
            0 => flags.push(random.below(6) as u8),
            1 => {
                flags.pop();
            }
            _ => flags.clear(),
        }
    }
    if random.once_in(4) && !flags.is_empty() {
        let at = random.below(flags.len());
        flags[at] = 4 + random.below(252) as u8;
    }
    let index = match random.below(8) {
        0 => usize::MAX,
        1 => text.len() + random.below(3),
        2 | 3 => 0,
        _ => random.below(text.len() + 2),
    };
    let carry = if random.once_in(3) {
        random.below(256) as u8
    } else {
        random.below(7) as u8
    };
    refused(&text, &flags, index, carry, tally);
}

/// The scans of such an input, withholding, finding and the filter.
fn refused(text: &[u8], flags: &[u8], index: usize, carry: u8, tally: &mut Tally) {
    let row = Row::Refusals;
    let before = tally.rows[row as usize].found;
    tally.input(&[row]);
    let of_bulletin = table::bulletin(text, flags);
    let refusals = [
        table::inline(text, index, carry),
        table::block(text, flags, index),
        of_bulletin,
        of_bulletin,
        of_bulletin,
    ];
    tally.inline(row, text, index, carry);
    tally.block(row, text, flags, index);
    // A long text is withheld and filtered above.
    if of_bulletin != 0 || text.len() < SHORT {
        tally.screen([row; 3], text, flags);
    }
    for refusal in refusals {
        tally.refused[usize::from(refusal)] += 1;
    }
    // What is found in this row is what is refused.
    let refused = refusals.iter().filter(|refusal| **refusal != 0).count();
    tally.rows[row as usize].found = before + refused as u64;
}

fn states(visited: &Visited, range: RangeInclusive<usize>) -> (usize, usize, u32) {
    let states = &visited[range];
    let seen = states.iter().filter(|bits| **bits != 0).count();
    let pairs = states.iter().map(|bits| bits.count_ones()).sum();
    (seen, states.len(), pairs)
}

struct Options {
    seed: u64,
    count: u64,
    long: bool,
    threads: u64,
}

fn options() -> Option<Options> {
    let mut options = Options {
        seed: 1,
        count: COUNT,
        long: false,
        threads: 2,
    };
    let mut arguments = std::env::args().skip(1);
    while let Some(argument) = arguments.next() {
        match argument.as_str() {
            "--long" => {
                options.long = true;
                options.count = LONG_COUNT;
            }
            "--seed" => options.seed = arguments.next()?.parse().ok()?,
            "--count" => options.count = arguments.next()?.parse().ok()?,
            "--threads" => options.threads = arguments.next()?.parse().ok()?,
            _ => return None,
        }
    }
    Some(options)
}

/// What a thread does: jobs from the next on, until there is none.
fn work(next: &AtomicUsize, jobs: &[Job], families: &[Family]) -> Tally {
    let mut tally = Tally::new();
    loop {
        tally.job = next.fetch_add(1, Ordering::Relaxed);
        let Some(job) = jobs.get(tally.job) else {
            break;
        };
        job.run(families, &mut tally);
    }
    tally.visited = take_visited();
    tally
}

fn main() -> ExitCode {
    let Some(options) = options() else {
        eprintln!("usage: differ [--seed N] [--count N | --long] [--threads N]");
        return ExitCode::FAILURE;
    };
    let begun = Instant::now();
    let families = families::all(options.long);
    let jobs = jobs(&families, options.seed, options.count);

    let next = AtomicUsize::new(0);
    let mut tally = Tally::new();
    std::thread::scope(|scope| {
        let threads: Vec<_> = (0..options.threads.max(1))
            .map(|_| scope.spawn(|| work(&next, &jobs, &families)))
            .collect();
        for thread in threads {
            tally.add(thread.join().expect("no scan of the Rust panics"));
        }
    });
    print_differences(&tally);
    report(&tally, &options, begun)
}

fn print_differences(tally: &Tally) {
    for (row, count) in tally.rows.iter().enumerate() {
        if let Some((_, ask)) = &count.first {
            let (ask, difference) = shrink(ask);
            println!("{}: a difference", ROWS[row]);
            println!("  {}", ask.describe());
            println!("  {}", difference.what);
            println!("  the Rust or SCOPE:  {}", difference.wanted);
            println!("  the library:        {}\n", difference.given);
        }
    }
}

fn print_rows(tally: &Tally) {
    println!(
        "{:37} {:>11} {:>12} {:>12} {:>11}",
        "comparison", "inputs", "scans", "found", "differences"
    );
    for (name, count) in ROWS.iter().zip(&tally.rows) {
        println!(
            "{name:37} {:>11} {:>12} {:>12} {:>11}",
            count.inputs, count.scans, count.found, count.differences
        );
    }
}

/// The control: of lists of spans there were some that tell each wrong rule from the
/// right one, unless they were few.
fn control(tally: &Tally) -> bool {
    let names = spans::WRONG.iter().map(|(name, _)| name);
    let told: Vec<String> = names
        .zip(&tally.told)
        .map(|(name, told)| format!("{name}: {told}"))
        .collect();
    println!("lists by which wrong rules are told: {}", told.join(", "));
    let are_few = tally.rows[Row::ShowRandom as usize].inputs < ENOUGH_LISTS;
    are_few || tally.told.iter().all(|told| *told > 0)
}

fn print_states(tally: &Tally) {
    for (file, range) in [
        ("html_flow.rs", flow_states()),
        ("html_text.rs", text_states()),
    ] {
        let (seen, all, pairs) = states(&tally.visited, range);
        println!(
            "{file}: {seen} of {all} states visited, {pairs} pairs of a state and one of {CLASSES} classes of bytes"
        );
    }
}

fn report(tally: &Tally, options: &Options, begun: Instant) -> ExitCode {
    print_rows(tally);
    let of_rust: u64 = SCANS
        .iter()
        .chain(&[Row::WithholdAll, Row::WithholdRandom, Row::WithholdLong])
        .map(|row| tally.rows[*row as usize].scans)
        .sum();
    let numbers: Vec<String> = (1..NUMBERS)
        .map(|number| format!("{number}: {}", tally.refused[number]))
        .collect();
    println!("refused by number: {}", numbers.join(", "));
    let is_told = control(tally);
    print_states(tally);
    println!(
        "seed {}, {} random texts, {of_rust} scans of the Rust, {} s",
        options.seed,
        options.count,
        begun.elapsed().as_secs()
    );
    let rows = tally.rows.iter().map(|count| count.differences == 0);
    let outcomes = rows.chain([is_told]);
    let failed = outcomes.filter(|passed| !passed).count();
    println!("{} passed, {failed} failed", ROWS.len() + 1 - failed);
    if failed == 0 {
        ExitCode::SUCCESS
    } else {
        ExitCode::FAILURE
    }
}
