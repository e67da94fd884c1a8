//! Where a block's closer begins, by the plain rule: the first place in the
//! block at which the end condition of its kind holds.

/// Raw names, each with the rest of an end tag.
const RAW: [&[u8]; 4] = [b"pre>", b"script>", b"style>", b"textarea>"];

/// Whether bytes begin with others, letter case ignored.
fn begins(bytes: &[u8], with: &[u8]) -> bool {
    bytes.len() >= with.len() && bytes[..with.len()].eq_ignore_ascii_case(with)
}

/// Whether the closer of a kind begins at an index of the block's bytes. With
/// F1 the run of `]` that ends in the closer has an even number of them.
fn stands(bytes: &[u8], kind: u8, at: usize) -> bool {
    let rest = &bytes[at..];
    let brackets = || {
        let before = &bytes[..at];
        before.iter().rev().take_while(|b| **b == b']').count()
    };
    match kind {
        1 => begins(rest, b"</") && RAW.iter().any(|tag| begins(&rest[2..], tag)),
        2 => begins(rest, b"-->"),
        3 => begins(rest, b"?>"),
        4 => begins(rest, b">"),
        5 => begins(rest, b"]]>") && brackets() % 2 == 0,
        _ => false,
    }
}

/// The first byte of the closer of a block from an index to its stop; where it
/// has none, the stop.
pub fn plain(bulletin: &[u8], kind: u8, index: usize, stop: usize) -> usize {
    let bytes = &bulletin[index..stop];
    let first = (0..bytes.len()).find(|at| stands(bytes, kind, *at));
    first.map_or(stop, |at| index + at)
}
