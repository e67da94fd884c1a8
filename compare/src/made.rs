//! Random bytes that look like traces: most are such, of any kinds in any order,
//! and the others lack little.

use crate::generator::Random;

/// The most that two bytes hold, and numbers about it and about the most that four
/// do.
const TWO_BYTES: u32 = 65_535;
const SMALL: [u32; 8] = [0, 1, 2, 255, 256, 257, 65_534, TWO_BYTES];
const LARGE: [u32; 9] = [
    65_536,
    65_537,
    131_071,
    0x00ff_0000,
    0x0100_0000,
    0x8000_0000,
    0xffff_0000,
    u32::MAX - 1,
    u32::MAX,
];

/// Kinds that are none.
const NO_KINDS: [u8; 4] = [0, 15, 16, 255];

/// The last byte of a record, as scans write it and not.
const VALUES: [u8; 6] = [0, 1, 5, 7, 8, 255];

/// One trace in so many is long.
const LONG_IN: usize = 2_000;

struct Record {
    kind: u8,
    numbers: Vec<u32>,
    value: u8,
}

fn any(random: &mut Random) -> u32 {
    (random.below(1 << 16) << 16 | random.below(1 << 16)) as u32
}

/// A number of a field.
fn number(random: &mut Random, fits: bool) -> u32 {
    match random.below(4) {
        0 => random.one(&SMALL),
        1 if fits => any(random) & TWO_BYTES,
        1 => any(random),
        2 if !fits => random.one(&LARGE),
        _ => random.below(100) as u32,
    }
}

fn record(random: &mut Random, kind: u8, fits: bool) -> Record {
    let count = if kind > 12 { 1 } else { 3 };
    Record {
        kind,
        numbers: (0..count).map(|_| number(random, fits)).collect(),
        value: if random.once_in(2) {
            random.one(&VALUES)
        } else {
            random.below(256) as u8
        },
    }
}

fn event(random: &mut Random, fits: bool) -> Record {
    let kind = 1 + random.below(12) as u8;
    record(random, kind, fits)
}

fn last(random: &mut Random, fits: bool) -> Record {
    let kind = random.one(&[13, 14]);
    record(random, kind, fits)
}

/// Events, and the last record.
fn records(random: &mut Random) -> Vec<Record> {
    let fits = !random.once_in(4);
    let count = if random.once_in(LONG_IN) {
        random.below(5_000)
    } else {
        random.below(9)
    };
    let mut all: Vec<Record> = (0..count).map(|_| event(random, fits)).collect();
    all.push(last(random, fits));
    if random.once_in(4) {
        // One number of one record.
        let at = random.below(all.len());
        let numbers = &mut all[at].numbers;
        let place = random.below(numbers.len());
        numbers[place] = random.one(&LARGE);
    }
    all
}

/// A record changed, taken out, put in or put elsewhere.
fn disorder(random: &mut Random, all: &mut Vec<Record>) {
    let at = random.below(all.len());
    match random.below(7) {
        0 => all[at].kind = random.one(&NO_KINDS),
        1 => all[at].kind = random.below(256) as u8,
        2 => all.insert(at, last(random, true)),
        3 => all.push(last(random, true)),
        4 => all.push(event(random, true)),
        5 => {
            all.pop();
        }
        _ => {
            let end = all.len() - 1;
            all.swap(at, end);
        }
    }
}

/// The bytes cut off, or some of them changed, taken out or put in.
fn damage(random: &mut Random, bytes: &mut Vec<u8>) {
    let at = random.below(bytes.len() + 1);
    match random.below(6) {
        0 | 1 => bytes.truncate(at),
        2 => bytes.insert(at, random.below(256) as u8),
        3 => {
            for _ in 0..1 + random.below(16) {
                bytes.push(random.below(17) as u8);
            }
        }
        4 if at < bytes.len() => {
            bytes.remove(at);
        }
        5 if at < bytes.len() => bytes[at] = random.below(256) as u8,
        _ => bytes.push(random.one(&NO_KINDS)),
    }
}

/// Bytes with fields of a width.
pub fn trace(random: &mut Random, width: usize) -> Vec<u8> {
    let mut all = records(random);
    if random.once_in(4) {
        disorder(random, &mut all);
    }
    let mut bytes = vec![];
    for record in all {
        bytes.push(record.kind);
        for number in record.numbers {
            bytes.extend_from_slice(&number.to_le_bytes()[..width]);
        }
        bytes.push(record.value);
    }
    if random.once_in(5) {
        damage(random, &mut bytes);
    }
    bytes
}
