//! Buffers that are lent to a call, output buffers and lists of spans, and what it
//! leaves in them.

use crate::check::{same, Difference};
use crate::hex::to_hex;
use std::fmt::Debug;

/// The most units that are shown of buffers that differ.
const SHOWN: usize = 4_000;

/// What a buffer is made of: the bytes of an output, or the numbers of a list.
pub trait Unit: Copy + PartialEq {
    /// What each holds before a call.
    const OLD: Self;
    /// What differs where what was written does, and where nothing was to be.
    const WRITTEN: &'static str;
    const KEPT: &'static str;

    fn form(units: &[Self]) -> String;
}

impl Unit for u8 {
    const OLD: u8 = 0xee;
    const WRITTEN: &'static str = "the bytes written";
    const KEPT: &'static str = "the buffer where nothing is to be written";

    fn form(bytes: &[u8]) -> String {
        to_hex(bytes)
    }
}

impl Unit for u32 {
    const OLD: u32 = 0xeeee_eeee;
    const WRITTEN: &'static str = "the list's numbers";
    const KEPT: &'static str = "the list where nothing is to be written";

    fn form(numbers: &[u32]) -> String {
        format!("{numbers:?}")
    }
}

pub fn same_units<U: Unit>(what: &str, wanted: &[U], given: &[U]) -> Result<(), Difference> {
    if wanted == given {
        return Ok(());
    }
    let pairs = wanted.iter().zip(given);
    let equal = pairs.take_while(|(one, other)| one == other).count();
    Err(Difference {
        what: what.to_string(),
        wanted: shown(wanted, equal),
        given: shown(given, equal),
    })
}

/// All units; of many those about an index.
fn shown<U: Unit>(units: &[U], index: usize) -> String {
    if units.len() <= SHOWN {
        return U::form(units);
    }
    let from = index.saturating_sub(SHOWN / 2);
    let to = units.len().min(from + SHOWN);
    let part = U::form(&units[from..to]);
    format!("{} of them, from {from} to {to}: {part}", units.len())
}

/// A buffer that is lent again and again.
pub struct Lent<U> {
    units: Vec<U>,
    /// How often it was one unit short.
    pub short: u64,
}

impl<U> Default for Lent<U> {
    fn default() -> Lent<U> {
        Lent {
            units: vec![],
            short: 0,
        }
    }
}

impl<U: Unit> Lent<U> {
    /// The buffer with some room, as it is before a call.
    pub fn with(&mut self, room: usize) -> &mut [U] {
        self.units.clear();
        self.units.resize(room, U::OLD);
        &mut self.units
    }

    /// After a call: it begins with these units, and the others are as before.
    pub fn holds(&self, units: &[U]) -> Result<(), Difference> {
        same_units(U::WRITTEN, units, &self.units[..units.len()])?;
        self.keeps(units.len())
    }

    /// After a call: it is as before, from an index on. All units are looked at, which
    /// takes less time than to stop at the first.
    pub fn keeps(&self, from: usize) -> Result<(), Difference> {
        let kept = &self.units[from..];
        if kept.iter().fold(true, |old, unit| old & (*unit == U::OLD)) {
            return Ok(());
        }
        same_units(U::KEPT, &vec![U::OLD; kept.len()], kept)
    }

    /// With enough room a call writes the units and leaves the rest.
    pub fn fills<T: Debug + PartialEq>(
        &mut self,
        room: usize,
        units: &[U],
        wanted: T,
        call: &mut impl FnMut(&mut [U]) -> T,
    ) -> Result<(), Difference> {
        let given = call(self.with(room));
        same("the answer that goes with the output", wanted, given)?;
        self.holds(units)
    }

    /// What a call writes: with room to spare, with exact room and with some other
    /// room it writes the units and leaves the rest; with one unit less it is
    /// refused and writes nothing.
    pub fn writes<T: Copy + Debug + PartialEq>(
        &mut self,
        units: &[U],
        other: usize,
        wanted: T,
        refused: T,
        mut call: impl FnMut(&mut [U]) -> T,
    ) -> Result<(), Difference> {
        for room in [units.len() + 3, units.len(), other] {
            if room >= units.len() {
                self.fills(room, units, wanted, &mut call)?;
            }
        }
        if !units.is_empty() {
            self.short += 1;
            self.refuses(&[units.len() - 1], refused, call)?;
        }
        Ok(())
    }

    /// A call that is refused with each of some rooms, and changes nothing.
    pub fn refuses<T: Copy + Debug + PartialEq>(
        &mut self,
        rooms: &[usize],
        refused: T,
        mut call: impl FnMut(&mut [U]) -> T,
    ) -> Result<(), Difference> {
        for room in rooms {
            let given = call(self.with(*room));
            same("the answer where it is refused", refused, given)?;
            self.keeps(0)?;
        }
        Ok(())
    }
}
