//! Counts the lines of a bulletin, withholds from it, finds first and shows afterwards, with bars, scans it for a block and an inline piece, withholds in both readings,
//! filters tags, and traces a scan.
//!
//!     scripts/archive.sh
//!     CARGO_TARGET_DIR=target/cargo cargo run --offline --manifest-path rust/Cargo.toml --example example
#![forbid(unsafe_code)]

use foringamo::{Inline, Record, Refusal, Span};
use std::io::Write;

// Bulletins need not be valid UTF-8.
fn print(bytes: &[u8]) {
    std::io::stdout().write_all(bytes).expect("standard output");
}

fn run() -> Result<(), Refusal> {
    let bulletin = b"door <!-- x -->9\n<div>\nold\n\nok";
    // Room for as many spans as bytes always suffices.
    let mut spans = [Span::default(); 100];
    let mut out = [0; 100];

    // A flag for each line, all 0: neither lazy nor interrupt.
    let flags = vec![0; foringamo::count_lines(bulletin)];
    println!("{} lines", flags.len());

    let shown = foringamo::withhold(bulletin, &flags, &mut spans, &mut out)?;
    println!("{} pieces withheld, {} bytes shown:", shown.pieces, shown.length);
    print(&out[..shown.length]);
    println!();

    // The same in two.
    let count = foringamo::find(bulletin, &flags, &mut spans)?;
    let found = &spans[..count];
    println!("{count} spans found:");
    for span in found {
        println!("{} from {} to {}", if span.is_block() { "block" } else { "inline" }, span.start, span.stop);
    }
    let length = foringamo::show(bulletin, found, &mut out)?;
    println!("{length} bytes shown beside them:");
    print(&out[..length]);
    println!();

    // One stretch more than there are spans, each a part of the bulletin.
    println!("{} stretches, with a bar between:", count + 1);
    for number in 0..=count {
        if number > 0 {
            print!("|");
        }
        print(foringamo::stretch(bulletin, found, number));
    }
    println!();

    // The line `<div>` begins at 17.
    match foringamo::block_scan(bulletin, &flags, 17)? {
        Some(block) => {
            let name = block.tag_name().unwrap_or("without a name");
            print!("a block of kind {}, {name}, from 17 to {}, ", block.kind.number(), block.stop);
            if block.closed {
                println!("its closer at {}", block.closer);
            } else {
                println!("not closed");
            }
        }
        None => println!("no block at 17"),
    }

    // The comment begins at 5 of the paragraph, whose text has 16 bytes.
    match foringamo::inline_scan(&bulletin[..16], 5, 0)? {
        Inline::Found { stop, carry } => println!("a piece from 5 to {stop}, carry {carry}"),
        Inline::Missing { carry } => println!("no piece at 5, carry {carry}"),
    }

    // One line, one flag. To the Rust `d/e` is no value of an attribute, so that there is no tag.
    let tag = "a <b c=d/e>";
    let shown = foringamo::withhold(tag.as_bytes(), &[0], &mut spans, &mut out)?.length;
    let standard = foringamo::standard_withhold(tag.as_bytes(), &[0], &mut spans, &mut out)?.length;
    println!("of {tag} {shown} bytes are shown, by the standard {standard}");

    // Room for 8/5 of the bytes always suffices.
    let length = foringamo::filter(b"a <xmp> <b>", &[0], &mut out)?;
    println!("filtered, {length} bytes: {}", String::from_utf8_lossy(&out[..length]));

    let length = foringamo::inline_trace(b"<b>", 0, 0, &mut out)?;
    println!("the trace of <b>, {length} bytes:");
    let mut number = 0;
    // A refusal: there are no more.
    while let Ok(record) = foringamo::read_trace(&out[..length], number) {
        let kind = record.number();
        match record {
            Record::Enter(_, p) | Record::Exit(_, p) => {
                println!("{kind} at line {}, column {}, index {}, vs {}", p.line, p.column, p.index, p.vs)
            }
            Record::LastInline { stop, carry } => println!("{kind} with stop {stop}, carry {carry}"),
            Record::LastBlock { stop, kind: block } => println!("{kind} with stop {stop}, block kind {block}"),
        }
        number += 1;
    }
    Ok(())
}

fn main() {
    if let Err(refusal) = run() {
        println!("refused {}: {refusal}", refusal.number());
        std::process::exit(1);
    }
}
