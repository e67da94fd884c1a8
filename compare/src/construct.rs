//! The crate's constructs, and a stand-in for the blank-line check.

#[path = "markdown/construct/html_flow.rs"]
pub mod html_flow;
#[path = "markdown/construct/html_text.rs"]
pub mod html_text;
#[path = "markdown/construct/partial_non_lazy_continuation.rs"]
pub mod partial_non_lazy_continuation;
#[path = "markdown/construct/partial_space_or_tab.rs"]
pub mod partial_space_or_tab;

/// Stand-in: skips spaces and tabs, then succeeds at a line ending or the end.
pub mod blank_line {
    use crate::state::{Name as StateName, State};
    use crate::tokenizer::Tokenizer;

    pub fn start(tokenizer: &mut Tokenizer) -> State {
        match tokenizer.current {
            Some(b'\t' | b' ') => {
                tokenizer.consume();
                State::Next(StateName::BlankLineStart)
            }
            None | Some(b'\n') => State::Ok,
            Some(_) => State::Nok,
        }
    }
}
