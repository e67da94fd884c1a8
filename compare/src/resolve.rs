//! Stand-in: neither construct registers a resolver.

use crate::message::Message;
use crate::subtokenize::Subresult;
use crate::tokenizer::Tokenizer;

#[allow(dead_code)]
#[derive(Clone, Copy, Debug, Eq, PartialEq)]
pub enum Name {
    Unused,
}

pub fn call(_: &mut Tokenizer, _: Name) -> Result<Option<Subresult>, Message> {
    unreachable!("no resolver is registered")
}
