//! The library's C interface.

use crate::conversion::Way;

/// The name of a block that has none.
pub const NO_NAME: u8 = 255;

/// Kind 0 is none.
#[repr(C)]
#[derive(Clone, Copy, Debug, Eq, PartialEq)]
pub struct Block {
    pub refusal: u8,
    pub kind: u8,
    pub closed: u8,
    pub name: u8,
    pub stop: usize,
    pub closer: usize,
}

#[repr(C)]
#[derive(Clone, Copy, Debug, Eq, PartialEq)]
pub struct Inline {
    pub refusal: u8,
    pub found: u8,
    pub carry: u8,
    pub stop: usize,
}

/// What a trace, a conversion, the filter or showing wrote.
#[repr(C)]
#[derive(Clone, Copy, Debug, Eq, PartialEq)]
pub struct Written {
    pub refusal: u8,
    pub length: usize,
}

/// Kinds 13 and 14 have their stop in `index`; `last` is vs, carry or kind.
#[repr(C)]
#[derive(Clone, Copy, Debug, Eq, PartialEq)]
pub struct Record {
    pub refusal: u8,
    pub kind: u8,
    pub last: u8,
    pub line: usize,
    pub column: usize,
    pub index: usize,
}

#[repr(C)]
#[derive(Clone, Copy, Debug, Eq, PartialEq)]
pub struct Shown {
    pub refusal: u8,
    pub length: usize,
    pub pieces: usize,
}

/// What finding wrote: spans.
#[repr(C)]
#[derive(Clone, Copy, Debug, Eq, PartialEq)]
pub struct Spans {
    pub refusal: u8,
    pub count: usize,
}

/// A part of a bulletin.
#[repr(C)]
#[derive(Clone, Copy, Debug, Eq, PartialEq)]
pub struct Part {
    pub start: usize,
    pub length: usize,
}

extern "C" {
    fn foringamo_block_scan(
        bulletin: *const u8,
        bulletin_len: usize,
        flags: *const u8,
        flags_len: usize,
        index: usize,
    ) -> Block;
    fn foringamo_inline_scan(text: *const u8, text_len: usize, index: usize, carry: u8) -> Inline;
    fn foringamo_block_trace(
        bulletin: *const u8,
        bulletin_len: usize,
        flags: *const u8,
        flags_len: usize,
        index: usize,
        out: *mut u8,
        out_len: usize,
    ) -> Written;
    fn foringamo_inline_trace(
        text: *const u8,
        text_len: usize,
        index: usize,
        carry: u8,
        out: *mut u8,
        out_len: usize,
    ) -> Written;
    fn foringamo_read_trace(trace: *const u8, trace_len: usize, number: usize) -> Record;
    fn foringamo_widen_trace(
        trace: *const u8,
        trace_len: usize,
        out: *mut u8,
        out_len: usize,
    ) -> Written;
    fn foringamo_narrow_trace(
        trace: *const u8,
        trace_len: usize,
        out: *mut u8,
        out_len: usize,
    ) -> Written;
    fn foringamo_find(
        bulletin: *const u8,
        bulletin_len: usize,
        flags: *const u8,
        flags_len: usize,
        spans: *mut u32,
        spans_len: usize,
    ) -> Spans;
    fn foringamo_show(
        bulletin: *const u8,
        bulletin_len: usize,
        spans: *const u32,
        spans_len: usize,
        out: *mut u8,
        out_len: usize,
    ) -> Written;
    fn foringamo_stretch(
        bulletin: *const u8,
        bulletin_len: usize,
        spans: *const u32,
        spans_len: usize,
        number: usize,
    ) -> Part;
    fn foringamo_withhold(
        bulletin: *const u8,
        bulletin_len: usize,
        flags: *const u8,
        flags_len: usize,
        spans: *mut u32,
        spans_len: usize,
        out: *mut u8,
        out_len: usize,
    ) -> Shown;
    fn foringamo_filter(
        bulletin: *const u8,
        bulletin_len: usize,
        flags: *const u8,
        flags_len: usize,
        out: *mut u8,
        out_len: usize,
    ) -> Written;
}

// Each call lends whole slices, for the time of the call.

pub fn block_scan(bulletin: &[u8], flags: &[u8], index: usize) -> Block {
    unsafe {
        foringamo_block_scan(
            bulletin.as_ptr(),
            bulletin.len(),
            flags.as_ptr(),
            flags.len(),
            index,
        )
    }
}

pub fn inline_scan(text: &[u8], index: usize, carry: u8) -> Inline {
    unsafe { foringamo_inline_scan(text.as_ptr(), text.len(), index, carry) }
}

pub fn block_trace(bulletin: &[u8], flags: &[u8], index: usize, out: &mut [u8]) -> Written {
    unsafe {
        foringamo_block_trace(
            bulletin.as_ptr(),
            bulletin.len(),
            flags.as_ptr(),
            flags.len(),
            index,
            out.as_mut_ptr(),
            out.len(),
        )
    }
}

pub fn inline_trace(text: &[u8], index: usize, carry: u8, out: &mut [u8]) -> Written {
    unsafe {
        foringamo_inline_trace(
            text.as_ptr(),
            text.len(),
            index,
            carry,
            out.as_mut_ptr(),
            out.len(),
        )
    }
}

pub fn read_trace(trace: &[u8], number: usize) -> Record {
    unsafe { foringamo_read_trace(trace.as_ptr(), trace.len(), number) }
}

pub fn convert(way: Way, trace: &[u8], out: &mut [u8]) -> Written {
    let call = match way {
        Way::Widen => foringamo_widen_trace,
        Way::Narrow => foringamo_narrow_trace,
    };
    unsafe { call(trace.as_ptr(), trace.len(), out.as_mut_ptr(), out.len()) }
}

pub fn find(bulletin: &[u8], flags: &[u8], spans: &mut [u32]) -> Spans {
    unsafe {
        foringamo_find(
            bulletin.as_ptr(),
            bulletin.len(),
            flags.as_ptr(),
            flags.len(),
            spans.as_mut_ptr(),
            spans.len(),
        )
    }
}

pub fn show(bulletin: &[u8], spans: &[u32], out: &mut [u8]) -> Written {
    unsafe {
        foringamo_show(
            bulletin.as_ptr(),
            bulletin.len(),
            spans.as_ptr(),
            spans.len(),
            out.as_mut_ptr(),
            out.len(),
        )
    }
}

pub fn stretch(bulletin: &[u8], spans: &[u32], number: usize) -> Part {
    unsafe {
        foringamo_stretch(
            bulletin.as_ptr(),
            bulletin.len(),
            spans.as_ptr(),
            spans.len(),
            number,
        )
    }
}

pub fn withhold(bulletin: &[u8], flags: &[u8], spans: &mut [u32], out: &mut [u8]) -> Shown {
    unsafe {
        foringamo_withhold(
            bulletin.as_ptr(),
            bulletin.len(),
            flags.as_ptr(),
            flags.len(),
            spans.as_mut_ptr(),
            spans.len(),
            out.as_mut_ptr(),
            out.len(),
        )
    }
}

pub fn filter(bulletin: &[u8], flags: &[u8], out: &mut [u8]) -> Written {
    unsafe {
        foringamo_filter(
            bulletin.as_ptr(),
            bulletin.len(),
            flags.as_ptr(),
            flags.len(),
            out.as_mut_ptr(),
            out.len(),
        )
    }
}
