//! Stand-in: the states, their names, and the dispatch, which calls the
//! function that a name spells.

use crate::construct::{
    blank_line, html_flow, html_text, partial_non_lazy_continuation, partial_space_or_tab,
};
use crate::message::Message;
use crate::scan;
use crate::tokenizer::Tokenizer;

/// What a state function gives.
#[derive(Clone, Debug, Eq, PartialEq)]
pub enum State {
    /// The scan is over.
    Error(Message),
    /// Move to the name with the next byte.
    Next(Name),
    /// Move to the name with the same byte.
    Retry(Name),
    /// Success.
    Ok,
    /// Failure.
    Nok,
}

impl State {
    /// Turn a final state into a result.
    pub fn to_result(&self) -> Result<(), Message> {
        match self {
            State::Ok => Ok(()),
            State::Error(message) => Err(message.clone()),
            _ => unreachable!("not a final state"),
        }
    }
}

/// Names of states.
#[derive(Clone, Copy, Debug, Eq, PartialEq)]
pub enum Name {
    // Of the driver.
    ScanFlow,
    ScanText,
    ScanFound,
    ScanMissing,

    // Of the constructs.
    BlankLineStart,
    HtmlFlowStart,
    HtmlFlowBefore,
    HtmlFlowOpen,
    HtmlFlowDeclarationOpen,
    HtmlFlowCommentOpenInside,
    HtmlFlowCdataOpenInside,
    HtmlFlowTagCloseStart,
    HtmlFlowTagName,
    HtmlFlowBasicSelfClosing,
    HtmlFlowCompleteClosingTagAfter,
    HtmlFlowCompleteAttributeNameBefore,
    HtmlFlowCompleteAttributeName,
    HtmlFlowCompleteAttributeNameAfter,
    HtmlFlowCompleteAttributeValueBefore,
    HtmlFlowCompleteAttributeValueQuoted,
    HtmlFlowCompleteAttributeValueUnquoted,
    HtmlFlowCompleteAttributeValueQuotedAfter,
    HtmlFlowCompleteEnd,
    HtmlFlowCompleteAfter,
    HtmlFlowContinuation,
    HtmlFlowContinuationStart,
    HtmlFlowContinuationStartNonLazy,
    HtmlFlowContinuationBefore,
    HtmlFlowContinuationCommentInside,
    HtmlFlowContinuationRawTagOpen,
    HtmlFlowContinuationRawEndTag,
    HtmlFlowContinuationCdataInside,
    HtmlFlowContinuationDeclarationInside,
    HtmlFlowContinuationClose,
    HtmlFlowContinuationAfter,
    HtmlFlowBlankLineBefore,
    HtmlTextStart,
    HtmlTextOpen,
    HtmlTextDeclarationOpen,
    HtmlTextCommentOpenInside,
    HtmlTextComment,
    HtmlTextCommentClose,
    HtmlTextCommentEnd,
    HtmlTextCdataOpenInside,
    HtmlTextCdata,
    HtmlTextCdataClose,
    HtmlTextCdataEnd,
    HtmlTextDeclaration,
    HtmlTextInstruction,
    HtmlTextInstructionClose,
    HtmlTextTagCloseStart,
    HtmlTextTagClose,
    HtmlTextTagCloseBetween,
    HtmlTextTagOpen,
    HtmlTextTagOpenBetween,
    HtmlTextTagOpenAttributeName,
    HtmlTextTagOpenAttributeNameAfter,
    HtmlTextTagOpenAttributeValueBefore,
    HtmlTextTagOpenAttributeValueQuoted,
    HtmlTextTagOpenAttributeValueUnquoted,
    HtmlTextTagOpenAttributeValueQuotedAfter,
    HtmlTextEnd,
    HtmlTextLineEndingBefore,
    HtmlTextLineEndingAfter,
    HtmlTextLineEndingAfterPrefix,
    NonLazyContinuationStart,
    NonLazyContinuationAfter,
    SpaceOrTabStart,
    SpaceOrTabInside,
    SpaceOrTabAfter,

    // Named by parser.rs and subtokenize.rs, never called.
    #[allow(dead_code)]
    ContentDefinitionBefore,
    #[allow(dead_code)]
    DocumentStart,
    #[allow(dead_code)]
    StringStart,
    #[allow(dead_code)]
    TextStart,
}

/// Call the function of a name.
pub fn call(tokenizer: &mut Tokenizer, name: Name) -> State {
    scan::watch(tokenizer, name);

    match name {
        Name::ScanFlow => scan::scan_flow(tokenizer),
        Name::ScanText => scan::scan_text(tokenizer),
        Name::ScanFound => State::Error(Message::Found),
        Name::ScanMissing => State::Error(Message::Missing),

        Name::BlankLineStart => blank_line::start(tokenizer),
        Name::HtmlFlowStart => html_flow::start(tokenizer),
        Name::HtmlFlowBefore => html_flow::before(tokenizer),
        Name::HtmlFlowOpen => html_flow::open(tokenizer),
        Name::HtmlFlowDeclarationOpen => html_flow::declaration_open(tokenizer),
        Name::HtmlFlowCommentOpenInside => html_flow::comment_open_inside(tokenizer),
        Name::HtmlFlowCdataOpenInside => html_flow::cdata_open_inside(tokenizer),
        Name::HtmlFlowTagCloseStart => html_flow::tag_close_start(tokenizer),
        Name::HtmlFlowTagName => html_flow::tag_name(tokenizer),
        Name::HtmlFlowBasicSelfClosing => html_flow::basic_self_closing(tokenizer),
        Name::HtmlFlowCompleteClosingTagAfter => html_flow::complete_closing_tag_after(tokenizer),
        Name::HtmlFlowCompleteAttributeNameBefore => {
            html_flow::complete_attribute_name_before(tokenizer)
        }
        Name::HtmlFlowCompleteAttributeName => html_flow::complete_attribute_name(tokenizer),
        Name::HtmlFlowCompleteAttributeNameAfter => {
            html_flow::complete_attribute_name_after(tokenizer)
        }
        Name::HtmlFlowCompleteAttributeValueBefore => {
            html_flow::complete_attribute_value_before(tokenizer)
        }
        Name::HtmlFlowCompleteAttributeValueQuoted => {
            html_flow::complete_attribute_value_quoted(tokenizer)
        }
        Name::HtmlFlowCompleteAttributeValueUnquoted => {
            html_flow::complete_attribute_value_unquoted(tokenizer)
        }
        Name::HtmlFlowCompleteAttributeValueQuotedAfter => {
            html_flow::complete_attribute_value_quoted_after(tokenizer)
        }
        Name::HtmlFlowCompleteEnd => html_flow::complete_end(tokenizer),
        Name::HtmlFlowCompleteAfter => html_flow::complete_after(tokenizer),
        Name::HtmlFlowContinuation => html_flow::continuation(tokenizer),
        Name::HtmlFlowContinuationStart => html_flow::continuation_start(tokenizer),
        Name::HtmlFlowContinuationStartNonLazy => html_flow::continuation_start_non_lazy(tokenizer),
        Name::HtmlFlowContinuationBefore => html_flow::continuation_before(tokenizer),
        Name::HtmlFlowContinuationCommentInside => {
            html_flow::continuation_comment_inside(tokenizer)
        }
        Name::HtmlFlowContinuationRawTagOpen => html_flow::continuation_raw_tag_open(tokenizer),
        Name::HtmlFlowContinuationRawEndTag => html_flow::continuation_raw_end_tag(tokenizer),
        Name::HtmlFlowContinuationCdataInside => html_flow::continuation_cdata_inside(tokenizer),
        Name::HtmlFlowContinuationDeclarationInside => {
            html_flow::continuation_declaration_inside(tokenizer)
        }
        Name::HtmlFlowContinuationClose => html_flow::continuation_close(tokenizer),
        Name::HtmlFlowContinuationAfter => html_flow::continuation_after(tokenizer),
        Name::HtmlFlowBlankLineBefore => html_flow::blank_line_before(tokenizer),
        Name::HtmlTextStart => html_text::start(tokenizer),
        Name::HtmlTextOpen => html_text::open(tokenizer),
        Name::HtmlTextDeclarationOpen => html_text::declaration_open(tokenizer),
        Name::HtmlTextCommentOpenInside => html_text::comment_open_inside(tokenizer),
        Name::HtmlTextComment => html_text::comment(tokenizer),
        Name::HtmlTextCommentClose => html_text::comment_close(tokenizer),
        Name::HtmlTextCommentEnd => html_text::comment_end(tokenizer),
        Name::HtmlTextCdataOpenInside => html_text::cdata_open_inside(tokenizer),
        Name::HtmlTextCdata => html_text::cdata(tokenizer),
        Name::HtmlTextCdataClose => html_text::cdata_close(tokenizer),
        Name::HtmlTextCdataEnd => html_text::cdata_end(tokenizer),
        Name::HtmlTextDeclaration => html_text::declaration(tokenizer),
        Name::HtmlTextInstruction => html_text::instruction(tokenizer),
        Name::HtmlTextInstructionClose => html_text::instruction_close(tokenizer),
        Name::HtmlTextTagCloseStart => html_text::tag_close_start(tokenizer),
        Name::HtmlTextTagClose => html_text::tag_close(tokenizer),
        Name::HtmlTextTagCloseBetween => html_text::tag_close_between(tokenizer),
        Name::HtmlTextTagOpen => html_text::tag_open(tokenizer),
        Name::HtmlTextTagOpenBetween => html_text::tag_open_between(tokenizer),
        Name::HtmlTextTagOpenAttributeName => html_text::tag_open_attribute_name(tokenizer),
        Name::HtmlTextTagOpenAttributeNameAfter => {
            html_text::tag_open_attribute_name_after(tokenizer)
        }
        Name::HtmlTextTagOpenAttributeValueBefore => {
            html_text::tag_open_attribute_value_before(tokenizer)
        }
        Name::HtmlTextTagOpenAttributeValueQuoted => {
            html_text::tag_open_attribute_value_quoted(tokenizer)
        }
        Name::HtmlTextTagOpenAttributeValueUnquoted => {
            html_text::tag_open_attribute_value_unquoted(tokenizer)
        }
        Name::HtmlTextTagOpenAttributeValueQuotedAfter => {
            html_text::tag_open_attribute_value_quoted_after(tokenizer)
        }
        Name::HtmlTextEnd => html_text::end(tokenizer),
        Name::HtmlTextLineEndingBefore => html_text::line_ending_before(tokenizer),
        Name::HtmlTextLineEndingAfter => html_text::line_ending_after(tokenizer),
        Name::HtmlTextLineEndingAfterPrefix => html_text::line_ending_after_prefix(tokenizer),
        Name::NonLazyContinuationStart => partial_non_lazy_continuation::start(tokenizer),
        Name::NonLazyContinuationAfter => partial_non_lazy_continuation::after(tokenizer),
        Name::SpaceOrTabStart => partial_space_or_tab::start(tokenizer),
        Name::SpaceOrTabInside => partial_space_or_tab::inside(tokenizer),
        Name::SpaceOrTabAfter => partial_space_or_tab::after(tokenizer),

        Name::ContentDefinitionBefore
        | Name::DocumentStart
        | Name::StringStart
        | Name::TextStart => unreachable!("left out"),
    }
}
