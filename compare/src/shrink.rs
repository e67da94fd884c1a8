//! An input that differs, and the shortest one found by making it smaller.

use crate::check::{self, Difference, Outcome, Screen, Work};
use crate::conversion::Way;
use crate::families::Kind;
use crate::fragments::LONGEST;
use crate::hex::to_hex;
use crate::spans::NUMBERS;
use reference::line_starts;
use std::time::{Duration, Instant};

/// How long an input is made smaller.
const PATIENCE: Duration = Duration::from_secs(20);

/// How long a record is, of events and the last, narrow and wide.
const RECORD_LENGTHS: [usize; 4] = [8, 14, 4, 6];

/// In a list so many numbers are taken out and made less.
const MOST_LISTED: usize = 64;

/// From a trace of fewer bytes so many are deleted at each place in turn.
const SHORT: usize = 1_000;

/// So many bytes are shown of each end of an input that is longer than a random
/// text.
const END: usize = LONGEST / 2;

/// Bytes in some form; of many, both ends.
fn shown(bytes: &[u8], form: impl Fn(&[u8]) -> String) -> String {
    if bytes.len() <= 2 * END {
        return form(bytes);
    }
    let (front, back) = (&bytes[..END], &bytes[bytes.len() - END..]);
    format!("{} .. {}", form(front), form(back))
}

/// What is asked of both. `bytes` is the text, the bulletin or the trace.
#[derive(Clone)]
pub struct Ask {
    pub kind: Kind,
    pub bytes: Vec<u8>,
    pub flags: Vec<u8>,
    /// The spans beside which it is shown.
    pub list: Vec<u32>,
    /// The index, the number of a record, or the room of a buffer.
    pub index: usize,
    pub carry: u8,
}

impl Ask {
    /// With nothing but bytes.
    pub fn new(kind: Kind, bytes: &[u8]) -> Ask {
        Ask {
            kind,
            bytes: bytes.to_vec(),
            flags: vec![],
            list: vec![],
            index: 0,
            carry: 0,
        }
    }

    /// The same of a bulletin with flags.
    pub fn with_flags(self, flags: &[u8]) -> Ask {
        Ask {
            flags: flags.to_vec(),
            ..self
        }
    }

    pub fn outcome(&self, work: &mut Work) -> Outcome {
        match self.kind {
            Kind::Inline => check::inline(&self.bytes, self.index, self.carry, work),
            Kind::Block => check::block(&self.bytes, &self.flags, self.index, work),
            Kind::Withhold => check::withhold(&self.screen(work), work),
            Kind::Find => check::find(&self.screen(work), work),
            Kind::Show => check::show(&self.bytes, &self.list, work),
            Kind::Filter => check::filter(&self.screen(work), work),
            Kind::Read => check::read(&self.bytes, self.index),
            Kind::Convert(way) => check::convert(&self.bytes, way, self.index, work),
        }
    }

    fn is_of_trace(&self) -> bool {
        matches!(self.kind, Kind::Read | Kind::Convert(_))
    }

    fn screen(&self, work: &mut Work) -> Screen<'_> {
        Screen::new(&self.bytes, &self.flags, work)
    }

    fn difference(&self) -> Option<Difference> {
        self.outcome(&mut Work::default()).err()
    }

    /// Whether it differs, and in the same thing.
    fn differs_in(&self, what: &str) -> bool {
        self.difference()
            .is_some_and(|difference| difference.what == what)
    }

    /// The input in words.
    pub fn describe(&self) -> String {
        let name = match self.kind {
            Kind::Inline => "inline scan",
            Kind::Block => "block scan",
            Kind::Withhold => "withholding",
            Kind::Find => "finding and showing",
            Kind::Show => "showing",
            Kind::Filter => "tag filter",
            Kind::Read => "trace reading",
            Kind::Convert(Way::Widen) => "narrow trace to wide",
            Kind::Convert(Way::Narrow) => "wide trace to narrow",
        };
        let hexadecimal = shown(&self.bytes, to_hex);
        let mut text = format!("{name}, {} bytes: {hexadecimal}", self.bytes.len());
        if !self.is_of_trace() {
            let escaped = shown(&self.bytes, |part| part.escape_ascii().to_string());
            text += &format!("\n  as text \"{escaped}\"");
        }
        let flags = shown(&self.flags, |part| format!("{part:?}"));
        text += &match self.kind {
            Kind::Inline => format!("\n  index {}, carry {}", self.index, self.carry),
            Kind::Block => format!("\n  flags {flags}, index {}", self.index),
            Kind::Withhold | Kind::Find | Kind::Filter => format!("\n  flags {flags}"),
            Kind::Show => format!("\n  spans {:?}", self.list),
            Kind::Read => format!("\n  record {}", self.index),
            Kind::Convert(_) => format!("\n  other room {}", self.index),
        };
        text
    }

    /// Without some bytes. A line's flag goes with the bytes that begin it.
    fn without(&self, from: usize, to: usize) -> Ask {
        let mut small = self.clone();
        small.bytes.drain(from..to);
        if !self.is_of_trace() {
            if self.index >= to {
                small.index -= to - from;
            } else if self.index > from {
                small.index = from;
            }
        }
        let starts = line_starts(&self.bytes);
        if self.flags.len() == starts.len() {
            small.flags = line_starts(&small.bytes)
                .into_iter()
                .map(|start| {
                    if start < from {
                        start
                    } else {
                        start + to - from
                    }
                })
                .map(|start| self.flags[starts.partition_point(|other| *other <= start) - 1])
                .collect();
        }
        small
    }

    /// Smaller by something else than a byte, or by a record.
    fn simpler(&self) -> Vec<Ask> {
        let mut all = vec![];
        if self.is_of_trace() && self.bytes.len() < SHORT {
            for length in RECORD_LENGTHS {
                for to in length..=self.bytes.len() {
                    all.push(self.without(to - length, to));
                }
            }
        }
        for at in 0..self.flags.len().min(64) {
            let mut small = self.clone();
            small.flags.remove(at);
            all.push(small);
            if self.flags[at] > 0 {
                let mut small = self.clone();
                small.flags[at] = 0;
                all.push(small);
            }
        }
        for index in [0, self.index / 2, self.index.saturating_sub(1)] {
            if index < self.index {
                let mut small = self.clone();
                small.index = index;
                all.push(small);
            }
        }
        if self.carry > 0 {
            let mut small = self.clone();
            small.carry -= 1;
            all.push(small);
        }
        all.extend(self.with_lists());
        all
    }

    /// With each number of the list, or of a long one those in front, taken out or
    /// made less, and each span taken out.
    fn with_lists(&self) -> Vec<Ask> {
        let mut lists = vec![];
        for at in 0..self.list.len().min(MOST_LISTED) {
            let (front, behind) = self.list.split_at(at);
            let number = behind[0];
            lists.push([front, &behind[1..]].concat());
            lists.push([front, behind.get(NUMBERS..).unwrap_or(&[])].concat());
            for less in [0, number / 2, number.saturating_sub(1)] {
                if less < number {
                    lists.push([front, &[less], &behind[1..]].concat());
                }
            }
        }
        let asks = lists.into_iter().map(|list| Ask {
            list,
            ..self.clone()
        });
        asks.collect()
    }

    /// What is made smaller.
    fn size(&self) -> (usize, Vec<u8>, Vec<u32>, usize, u8) {
        let (flags, list) = (self.flags.clone(), self.list.clone());
        (self.bytes.len(), flags, list, self.index, self.carry)
    }
}

/// Deletes bytes, first many at once, while it still differs in the same thing.
pub fn shrink(ask: &Ask) -> (Ask, Difference) {
    let mut best = ask.clone();
    let what = best.difference().expect("the input differs").what;
    let begun = Instant::now();
    loop {
        let before = best.size();
        let mut size = best.bytes.len();
        while size > 0 {
            let mut from = 0;
            while from + size <= best.bytes.len() && begun.elapsed() < PATIENCE {
                let small = best.without(from, from + size);
                if small.differs_in(&what) {
                    best = small;
                } else {
                    from += size.div_ceil(2);
                }
            }
            size /= 2;
        }
        if let Some(small) = best
            .simpler()
            .into_iter()
            .find(|small| begun.elapsed() < PATIENCE && small.differs_in(&what))
        {
            best = small;
        }
        if before == best.size() {
            break;
        }
    }
    let difference = best.difference().expect("what is kept differs");
    (best, difference)
}
