//! Random lists of spans: those that were found, and others, and most of both with a
//! little changed.

use crate::generator::Random;
use crate::spans::NUMBERS;
use crate::table;

/// The most spans of a list that was not found.
const MOST: usize = 6;

/// Numbers that are no index of most bulletins, and kinds that are none.
const LARGE: [u32; 6] = [
    table::LIMIT as u32 - 1,
    table::LIMIT as u32,
    table::LIMIT as u32 + 1,
    1 << 31,
    u32::MAX - 1,
    u32::MAX,
];
const NO_KINDS: [u32; 5] = [2, 2, 3, 256, u32::MAX];

/// A list for a bulletin of so many bytes, in which these spans were found.
pub fn list(random: &mut Random, found: &[u32], length: usize) -> Vec<u32> {
    let mut list = if random.once_in(2) {
        found.to_vec()
    } else {
        in_order(random, length)
    };
    if !random.once_in(4) {
        for _ in 0..1 + random.below(2) {
            alter(random, &mut list, length);
        }
    }
    list
}

/// Few bytes, or up to so many.
fn some(random: &mut Random, most: usize) -> usize {
    let bound = if random.once_in(2) { 3 } else { most + 1 };
    random.below(bound)
}

/// Spans in order, as far as there is room.
fn in_order(random: &mut Random, length: usize) -> Vec<u32> {
    let mut list = vec![];
    let mut from = 0;
    for _ in 0..random.below(MOST + 1) {
        let start = from + some(random, length / 2);
        let stop = start + 1 + some(random, length / 4);
        if stop > length {
            break;
        }
        list.extend([start as u32, stop as u32, random.below(2) as u32]);
        from = stop;
    }
    list
}

/// The place of a number, of an empty list 0.
fn place(random: &mut Random, list: &[u32]) -> usize {
    random.below(list.len().max(1))
}

/// A number or a span raised, lowered, exchanged, taken out, put in or made another.
fn alter(random: &mut Random, list: &mut Vec<u32>, length: usize) {
    let at = place(random, list);
    let index = random.below(length + 2) as u32;
    if list.is_empty() {
        return list.push(index);
    }
    match random.below(8) {
        0 => list[at] = list[at].wrapping_add(1),
        1 => list[at] = list[at].wrapping_sub(1),
        2 => list[at] = index,
        3 => list[at] = random.one(&LARGE),
        4 => {
            let other = place(random, list);
            list.swap(at, other);
        }
        5 => {
            list.remove(at);
        }
        6 => list.insert(at, index),
        _ => alter_span(random, list, length),
    }
}

/// A span taken out, said twice or put elsewhere, or one of its numbers made what it
/// just can be, or just cannot.
fn alter_span(random: &mut Random, list: &mut Vec<u32>, length: usize) {
    let at = place(random, list) / NUMBERS * NUMBERS;
    let end = length as u32;
    let Some([start, stop, kind]) = list.get_mut(at..at + NUMBERS) else {
        return;
    };
    match random.below(6) {
        0 => *stop = *start,
        1 => *stop = random.one(&[end, end + 1]),
        2 => *kind = random.one(&NO_KINDS),
        3 => {
            list.drain(at..at + NUMBERS);
        }
        4 => list.extend_from_within(at..at + NUMBERS),
        _ => list.rotate_left(NUMBERS),
    }
}
