//! Stand-in: the point that event.rs converts to.

#[allow(dead_code)]
pub struct Point {
    pub line: usize,
    pub column: usize,
    pub offset: usize,
}
