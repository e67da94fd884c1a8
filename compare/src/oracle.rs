//! The reference as a program.
//!
//! Reads lines on standard input, fields apart by one space, writes one line
//! for each:
//!
//!     i HEXTEXT INDEX CARRY       found|none STOP CARRY TRACEHEX
//!     b HEXTEXT HEXFLAGS INDEX    KIND STOP CLOSED CLOSER TRACEHEX
//!
//! An empty text is an empty field or `-`. A line outside the domain is
//! answered `bad: ..`; the status is then 1.
//!
//!     --events                adds the events to each answer, in words
//!     --self-test             compares known answers, status 1 where one differs
//!     --random COUNT [SEED]   compares random scans with the shape that
//!                             docs/SCOPE.md, Reading rules, gives to stops
//!                             and events

#[allow(dead_code)]
mod generator;
mod hex;
mod random;
mod rows;

use hex::{from_hex, to_hex};
use reference::{block, holds_blank_line, inline, line_starts, Ev};
use std::env;
use std::fmt::Write as _;
use std::io::{self, BufRead, Write};
use std::process::ExitCode;

fn main() -> ExitCode {
    let arguments: Vec<String> = env::args().skip(1).collect();
    let arguments: Vec<&str> = arguments.iter().map(String::as_str).collect();
    let good = match arguments[..] {
        [] => answer_lines(false),
        ["--events"] => answer_lines(true),
        ["--self-test"] => Ok(rows::all_hold()),
        ["--random", count] => Ok(random::all_hold(number(count), 1)),
        ["--random", count, seed] => Ok(random::all_hold(number(count), number(seed))),
        _ => {
            eprintln!("usage: oracle [--events | --self-test | --random COUNT [SEED]]");
            Ok(false)
        }
    };
    match good {
        Ok(true) => ExitCode::SUCCESS,
        Ok(false) => ExitCode::FAILURE,
        Err(error) => {
            eprintln!("oracle: {error}");
            ExitCode::FAILURE
        }
    }
}

fn number(field: &str) -> u64 {
    field.parse().unwrap_or_else(|_| {
        eprintln!("oracle: {field} is not a number");
        std::process::exit(1)
    })
}

/// Answer each line; tell whether all were in the domain.
fn answer_lines(with_events: bool) -> io::Result<bool> {
    let mut input = io::BufReader::with_capacity(1 << 16, io::stdin());
    let mut output = io::BufWriter::with_capacity(1 << 16, io::stdout().lock());
    let mut line = String::new();
    let mut all_good = true;
    loop {
        line.clear();
        if input.read_line(&mut line)? == 0 {
            output.flush()?;
            return Ok(all_good);
        }
        match answer(line.trim_end_matches(['\n', '\r']), with_events) {
            Ok(text) => writeln!(output, "{text}")?,
            Err(reason) => {
                all_good = false;
                writeln!(output, "bad: {reason}")?;
            }
        }
        // A caller that waits for each answer gets it.
        if input.buffer().is_empty() {
            output.flush()?;
        }
    }
}

/// The answer to one line.
fn answer(line: &str, with_events: bool) -> Result<String, &'static str> {
    let fields: Vec<&str> = line.split(' ').collect();
    let (mut text, events) = match fields[..] {
        ["i", text, index, carry] => {
            answer_inline(&from_hex(text)?, natural(index)?, natural(carry)?)?
        }
        ["b", text, flags, index] => {
            answer_block(&from_hex(text)?, &from_hex(flags)?, natural(index)?)?
        }
        _ => return Err("a line is i HEXTEXT INDEX CARRY or b HEXTEXT HEXFLAGS INDEX"),
    };
    if with_events && !events.is_empty() {
        write!(text, " {}", words(&events)).expect("a string takes all");
    }
    Ok(text)
}

fn answer_inline(
    text: &[u8],
    index: usize,
    carry: usize,
) -> Result<(String, Vec<Ev>), &'static str> {
    if index > text.len() {
        return Err("index above the length");
    }
    if carry > 5 {
        return Err("carry above 5");
    }
    if holds_blank_line(text) {
        return Err("a blank line between two line endings");
    }
    let answer = inline(text, index, carry);
    let found = if answer.found { "found" } else { "none" };
    let trace = to_hex(&answer.trace());
    Ok((
        format!("{found} {} {} {trace}", answer.stop, answer.carry),
        answer.events,
    ))
}

fn answer_block(
    bulletin: &[u8],
    flags: &[u8],
    index: usize,
) -> Result<(String, Vec<Ev>), &'static str> {
    let starts = line_starts(bulletin);
    if flags.len() != starts.len() {
        return Err("count of flags is not the number of lines");
    }
    if flags.iter().any(|flag| *flag > 3) {
        return Err("a flag above 3");
    }
    if starts.binary_search(&index).is_err() {
        return Err("index is not a line's first byte");
    }
    let answer = block(bulletin, flags, index);
    let closed = u8::from(answer.closed);
    let trace = to_hex(&answer.trace());
    Ok((
        format!(
            "{} {} {closed} {} {trace}",
            answer.kind, answer.stop, answer.closer
        ),
        answer.events,
    ))
}

/// Events in words, one after the other.
fn words(events: &[Ev]) -> String {
    let words: Vec<String> = events.iter().map(Ev::to_string).collect();
    words.join(" ")
}

fn natural(field: &str) -> Result<usize, &'static str> {
    field.parse().map_err(|_| "not a number")
}
