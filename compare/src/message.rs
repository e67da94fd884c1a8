//! Stand-in: the only messages are the two that end a scan.

#[derive(Clone, Debug, Eq, PartialEq)]
pub enum Message {
    /// The scan ended with Ok.
    Found,
    /// The scan ended with Nok.
    Missing,
}
