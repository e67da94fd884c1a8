//! Stand-in: the options that the files read, with the crate's defaults.

#[derive(Debug)]
pub struct Constructs {
    pub code_indented: bool,
    pub gfm_task_list_item: bool,
    pub html_flow: bool,
    pub html_text: bool,
}

#[derive(Debug)]
pub struct ParseOptions {
    pub constructs: Constructs,
    pub mdx_esm_parse: Option<()>,
    pub mdx_expression_parse: Option<()>,
}

pub static DEFAULT: ParseOptions = ParseOptions {
    constructs: Constructs {
        code_indented: true,
        gfm_task_list_item: false,
        html_flow: true,
        html_text: true,
    },
    mdx_esm_parse: None,
    mdx_expression_parse: None,
};
