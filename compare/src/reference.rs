//! The reference: `html_text::start` and `html_flow::start` of the crate
//! markdown 1.0.0 (MIT), driven by the crate's own tokenizer.
//!
//! The crate's files are compiled unchanged: build.sh puts their folder beside
//! these files as markdown/. What they use and that folder does not hold is a
//! stand-in: `state`, `message`, `resolve`, `unist`, `options`,
//! `util::location`, `util::skip` and `construct::blank_line`.
//!
//! `scan` drives, `trace` writes the bytes of the Traces paragraph, `coverage`
//! notes which states a scan visits.

extern crate alloc;

#[allow(dead_code)]
#[path = "markdown/event.rs"]
mod event;
#[allow(dead_code)]
#[path = "markdown/parser.rs"]
mod parser;
#[allow(dead_code)]
#[path = "markdown/subtokenize.rs"]
mod subtokenize;
#[allow(dead_code)]
#[path = "markdown/tokenizer.rs"]
mod tokenizer;

mod construct;
mod coverage;
mod message;
mod options;
mod resolve;
mod scan;
mod state;
mod trace;
mod unist;
mod util;

use options::ParseOptions;

pub use coverage::{flow_states, take_visited, text_states, Visited, CLASSES};
pub use scan::{blank, block, holds_blank_line, inline, line_end, line_starts};
pub use scan::{block_answer, inline_answer};
pub use scan::{Block, Ev, Inline};
pub use trace::{trace_block, trace_inline};
pub use trace::{EVENT_LENGTH, FIELD_LENGTH, LAST_LENGTH};
pub use util::constant::{HTML_BLOCK_NAMES, HTML_RAW_NAMES};
