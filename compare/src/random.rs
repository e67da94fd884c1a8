//! Random scans, compared with what docs/SCOPE.md, Reading rules, says of stops,
//! carry and events where the kind and the place of a closer are known.

use crate::generator::Random;
use crate::{to_hex, words};
use reference::{blank, block, holds_blank_line, inline, line_end, line_starts, Ev};

#[rustfmt::skip]
const PIECES: [&[u8]; 64] = [
    b"<", b"<", b">", b">", b"</", b"<!--", b"-->", b"--", b"-", b"<?", b"?>", b"?", b"<!", b"<!D",
    b"<![CDATA[", b"<![", b"CDATA[", b"CD", b"ATA[", b"[", b"]]>", b"]]", b"]", b"<pre", b"pre",
    b"script", b"<sTyle", b"<textarea", b"</textarea>", b"</pre>", b"</SCRIPT", b"div", b"<DIV",
    b"<p", b"<a", b"<a>", b"<b ", b"a", b"b", b"1", b"_", b":", b".", b"=", b" =", b"= ", b" ",
    b"  ", b"    ", b"\t", b"\"", b"'", b"`", b"/", b"/>", b"\n", b"\n", b"\r", b"\r\n", b"\n\n",
    b"\r\n\r\n", b"\n \t\n", b"\x00", b"\xff",
];

#[rustfmt::skip]
const OPENINGS: [&[u8]; 16] = [
    b"<!--", b"<?", b"<!a", b"<![CDATA[", b"<pre", b"<script>", b"</pre", b"<div", b"</p ", b"<p/>",
    b"<a", b"<a b", b"<a b=c", b"</a", b"  <a b=", b"   <a ",
];

fn text(random: &mut Random) -> Vec<u8> {
    let mut text = vec![];
    if random.below(3) > 0 {
        text.extend_from_slice(OPENINGS[random.below(OPENINGS.len())]);
    }
    for _ in 0..random.below(20) {
        if random.below(20) == 0 {
            text.push(random.below(256) as u8);
        } else {
            text.extend_from_slice(PIECES[random.below(PIECES.len())]);
        }
    }
    text
}

/// Scan `count` random texts; tell whether every answer has its shape.
pub fn all_hold(count: u64, seed: u64) -> bool {
    let mut random = Random::new(seed);
    let mut found = [0; 9];
    for _ in 0..count {
        let text = text(&mut random);

        let starts = line_starts(&text);
        let lazy_too = random.below(2) == 0;
        let flags: Vec<u8> = starts
            .iter()
            .map(|_| match random.below(4) {
                0 if lazy_too => random.below(4) as u8,
                _ => 0,
            })
            .collect();
        for index in starts {
            match block_shape(&text, &flags, index) {
                Ok(kind) => found[usize::from(kind)] += 1,
                Err(reason) => {
                    println!("b {} {} {index}: {reason}", to_hex(&text), to_hex(&flags));
                    return false;
                }
            }
        }

        if holds_blank_line(&text) {
            continue;
        }
        let carry = if random.below(3) == 0 {
            random.below(6)
        } else {
            0
        };
        for index in 0..=text.len() {
            match inline_shape(&text, index, carry) {
                Ok(hit) => found[8] += u64::from(hit),
                Err(reason) => {
                    println!("i {} {index} {carry}: {reason}", to_hex(&text));
                    return false;
                }
            }
        }
    }
    println!(
        "{count} texts; blocks none {}, by kind {:?}; inline {} found",
        found[0],
        &found[1..8],
        found[8]
    );
    true
}

/// Event at an index: the point is a function of the index.
fn event(text: &[u8], kind: u8, index: usize) -> Ev {
    let mut line = 1;
    let mut column = 1;
    for at in 0..index {
        match text[at] {
            b'\r' if text.get(at + 1) == Some(&b'\n') => {}
            b'\r' | b'\n' => {
                line += 1;
                column = 1;
            }
            b'\t' => column += 4 - (column - 1) % 4,
            _ => column += 1,
        }
    }
    Ev {
        kind,
        line,
        column,
        index,
        vs: 0,
    }
}

fn same(what: &str, expected: &[Ev], given: &[Ev]) -> Result<(), String> {
    if expected == given {
        Ok(())
    } else {
        Err(format!(
            "{what}\n  expected {}\n  given    {}",
            words(expected),
            words(given)
        ))
    }
}

fn demand(holds: bool, what: &str) -> Result<(), String> {
    if holds {
        Ok(())
    } else {
        Err(what.to_string())
    }
}

/// Check a block scan, give its kind.
fn block_shape(text: &[u8], flags: &[u8], index: usize) -> Result<u8, String> {
    let answer = block(text, flags, index);
    if answer.kind == 0 {
        demand(answer.events.is_empty(), "events of none")?;
        demand(answer.stop == index, "stop of none")?;
        demand(!answer.closed, "closer of none")?;
        return Ok(0);
    }

    demand(
        answer.closed == (answer.closer < answer.stop),
        "closer against stop",
    )?;

    // Where a lazy line ends the block, and where a blank or lazy one does.
    let starts = line_starts(text);
    let first = starts.iter().position(|start| *start == index).unwrap();
    let reach = |blank_too: bool| {
        for line in first + 1..starts.len() {
            let content = &text[starts[line]..line_end(text, starts[line]).0];
            if flags[line] & 1 == 1 || blank_too && blank(content) {
                return line_end(text, starts[line - 1]).0;
            }
        }
        text.len()
    };
    if answer.kind > 5 {
        demand(!answer.closed, "closer of kind 6 or 7")?;
        demand(answer.stop == reach(true), "stop of kind 6 or 7")?;
    } else if answer.closed {
        demand(answer.stop <= reach(false), "stop past a lazy line")?;
        demand(
            starts[first..]
                .iter()
                .any(|start| line_end(text, *start).0 == answer.stop),
            "stop not at a line's end",
        )?;
    } else {
        demand(answer.stop == reach(false), "stop without closer")?;
    }

    let mut expected = vec![event(text, 1, index)];
    let mut from = index;
    while text[from] == b' ' {
        from += 1;
    }
    if from > index {
        expected.push(event(text, 3, index));
        expected.push(event(text, 4, from));
    }
    loop {
        let (end, next) = line_end(text, from);
        if end > from {
            expected.push(event(text, 3, from));
            expected.push(event(text, 4, end));
        }
        if end >= answer.stop {
            // The Rust's exit after an empty line before a lazy one stands one
            // ending too far.
            let exit = if end == from { next } else { end };
            expected.push(event(text, 2, exit));
            break;
        }
        expected.push(event(text, 5, end));
        expected.push(event(text, 6, next));
        from = next;
    }
    same("block events", &expected, &answer.events)?;
    Ok(answer.kind)
}

/// Check an inline scan, tell whether it found.
fn inline_shape(text: &[u8], index: usize, carry: usize) -> Result<bool, String> {
    let answer = inline(text, index, carry);

    let mut counted = carry;
    if text[index..].starts_with(b"<![") {
        for byte in &text[index + 3..] {
            if counted == 6 || *byte != b"CDATA["[counted] {
                break;
            }
            counted += 1;
        }
    }
    demand(answer.carry == counted % 6, "carry")?;

    if !answer.found {
        demand(answer.events.is_empty(), "events of none")?;
        demand(answer.stop == index, "stop of none")?;
        return Ok(false);
    }
    demand(text[index] == b'<', "start")?;
    demand(text[answer.stop - 1] == b'>', "stop")?;

    let mut expected = vec![event(text, 7, index), event(text, 9, index)];
    let mut from = index;
    loop {
        let (end, next) = line_end(text, from);
        if end >= answer.stop {
            break;
        }
        expected.push(event(text, 10, end));
        expected.push(event(text, 5, end));
        expected.push(event(text, 6, next));
        from = next;
        while matches!(text[from], b'\t' | b' ') {
            from += 1;
        }
        if from > next {
            expected.push(event(text, 11, next));
            expected.push(event(text, 12, from));
        }
        expected.push(event(text, 9, from));
    }
    expected.push(event(text, 10, answer.stop));
    expected.push(event(text, 8, answer.stop));
    same("inline events", &expected, &answer.events)?;
    Ok(true)
}
