//! The crate's utilities, and stand-ins for two that no scan calls.

#[allow(dead_code)]
#[path = "markdown/util/constant.rs"]
pub mod constant;
#[allow(dead_code)]
#[path = "markdown/util/edit_map.rs"]
pub mod edit_map;
#[allow(dead_code)]
#[path = "markdown/util/slice.rs"]
pub mod slice;

/// Stand-in: places for MDX, which is left out.
pub mod location {
    #[derive(Debug)]
    pub struct Location;

    impl Location {
        pub fn new(_: &[u8]) -> Location {
            unreachable!("MDX is left out")
        }
    }
}

/// Stand-in: used by subtokenizing, which is left out.
pub mod skip {
    use crate::event::{Event, Name};

    pub fn opt_back(_: &[Event], _: usize, _: &[Name]) -> usize {
        unreachable!("subtokenizing is left out")
    }
}
