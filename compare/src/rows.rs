//! Known answers: the rows of docs/SCOPE.md, Corners, and points and traces that
//! are easy to get wrong.

use crate::{to_hex, words};
use reference::{block, inline, trace_block, trace_inline};

/// Inline scans: text, index, carry, answer.
const INLINE: [(&str, usize, usize, &str); 37] = [
    // html_text.rs: found.
    ("<!-->", 0, 0, "found 5 0"),
    ("<!--->", 0, 0, "found 6 0"),
    ("<??>", 0, 0, "found 4 0"),
    ("<![CDATA[]]]>", 0, 0, "found 13 0"),
    ("<a b=/c>", 0, 0, "found 8 0"),
    // html_text.rs: not found.
    ("<?>", 0, 0, "none 0 0"),
    ("<a b=c/d>", 0, 0, "none 0 0"),
    ("<a 1b>", 0, 0, "none 0 0"),
    ("<a b=c=d>", 0, 0, "none 0 0"),
    // html_text.rs: the carry.
    ("<![CDx", 0, 0, "none 0 2"),
    ("<![CD", 0, 0, "none 0 2"),
    ("<![ATA[q]]>", 0, 2, "found 11 0"),
    ("<![CDATA[q]]>", 0, 2, "none 0 2"),
    ("<![CDATA[", 0, 0, "none 0 0"),
    ("<![[x", 0, 5, "none 0 0"),
    ("<b>", 0, 3, "found 3 3"),
    ("<!--", 0, 4, "none 0 4"),
    // Not on `<`, and at the end.
    ("a<b>", 0, 1, "none 0 1"),
    ("a<b>", 1, 1, "found 4 1"),
    ("a<b>", 4, 1, "none 4 1"),
    ("", 0, 5, "none 0 5"),
    // Each form once, and over line endings.
    ("<!a>", 0, 0, "found 4 0"),
    ("<!1>", 0, 0, "none 0 0"),
    ("<![CDATA[>]]>x", 0, 0, "found 13 0"),
    ("<?a?b?>c", 0, 0, "found 7 0"),
    ("</a >", 0, 0, "found 5 0"),
    ("</a b>", 0, 0, "none 0 0"),
    ("<a b='>'>", 0, 0, "found 9 0"),
    ("<a b=\"c\"d>", 0, 0, "none 0 0"),
    ("<a b\n=\r\n c\r>", 0, 0, "found 12 0"),
    ("<a b=/>", 0, 0, "found 7 0"),
    ("<a b=//>", 0, 0, "found 8 0"),
    ("<a/>", 0, 0, "found 4 0"),
    ("<a/ >", 0, 0, "none 0 0"),
    // A backslash is a byte as any other, also before the index.
    ("\\<b>", 1, 0, "found 4 0"),
    ("\\<b>", 0, 0, "none 0 0"),
    ("<a b='\\'>", 0, 0, "found 9 0"),
];

/// Block scans: bulletin, flags, index, answer (kind, stop, closed).
const BLOCK: [(&str, &[u8], usize, &str); 71] = [
    // html_flow.rs: kinds.
    ("<pre\nx", &[0, 0], 0, "1 6 0"),
    ("<!--\nx", &[0, 0], 0, "2 6 0"),
    ("<?\nx", &[0, 0], 0, "3 4 0"),
    ("<!a\nx", &[0, 0], 0, "4 5 0"),
    ("<![CDATA[\nx", &[0, 0], 0, "5 11 0"),
    ("<div\nx", &[0, 0], 0, "6 6 0"),
    ("<a>\nx", &[0, 0], 0, "7 5 0"),
    // html_flow.rs: closed on their own line.
    ("<!-->\nx", &[0, 0], 0, "2 5 1"),
    ("<?>\nx", &[0, 0], 0, "3 3 1"),
    // html_flow.rs: F1.
    ("<![CDATA[]]]>", &[0], 0, "5 13 0"),
    ("<![CDATA[]]]]>", &[0], 0, "5 14 1"),
    ("<![CDATA[]]>", &[0], 0, "5 12 1"),
    ("<![CDATA[>", &[0], 0, "5 10 0"),
    // html_flow.rs: kind 7.
    ("<a 1b>", &[0], 0, "7 6 0"),
    ("<a b=c=d>", &[0], 0, "7 9 0"),
    ("<pre/>", &[0], 0, "7 6 0"),
    ("</pre>", &[0], 0, "7 6 0"),
    ("<pre>", &[0], 0, "1 5 0"),
    ("<pre >", &[0], 0, "1 6 0"),
    ("<a> x", &[0], 0, "0 0 0"),
    ("<a b='\n'>", &[0, 0], 0, "0 0 0"),
    // html_flow.rs: flags at the opening.
    ("<a>", &[0], 0, "7 3 0"),
    ("<a>", &[1], 0, "7 3 0"),
    ("<a>", &[2], 0, "0 0 0"),
    ("<a>", &[3], 0, "7 3 0"),
    ("<div>", &[2], 0, "6 5 0"),
    ("<pre>", &[2], 0, "1 5 0"),
    // html_flow.rs: indentation.
    ("<b>", &[0], 0, "7 3 0"),
    (" <b>", &[0], 0, "7 4 0"),
    ("   <b>", &[0], 0, "7 6 0"),
    ("    <b>", &[0], 0, "0 0 0"),
    ("\t<b>", &[0], 0, "0 0 0"),
    (" \t<b>", &[0], 0, "0 0 0"),
    ("   \t<b>", &[0], 0, "0 0 0"),
    // html_flow.rs: raw closers.
    ("<pre>\n</textarea>x\ny", &[0, 0, 0], 0, "1 18 1"),
    ("<pre>\n</>\ny", &[0, 0, 0], 0, "1 11 0"),
    ("<pre></pre>x\ny", &[0, 0], 0, "1 12 1"),
    ("<pre></scriptx>\ny", &[0, 0], 0, "1 17 0"),
    ("<pre></textareaa>", &[0], 0, "1 17 0"),
    ("<pre></pre >", &[0], 0, "1 12 0"),
    ("<pre><</SCRIPT>", &[0], 0, "1 15 1"),
    ("<pre></textarea</style>", &[0], 0, "1 23 1"),
    // html_flow.rs: a name before CR LF.
    ("<div\r\n", &[0, 0], 0, "6 4 0"),
    ("<pre\r\n", &[0, 0], 0, "1 6 0"),
    ("<div\r", &[0, 0], 0, "6 4 0"),
    // constant.rs.
    ("<search", &[0], 0, "6 7 0"),
    ("<SEARCH/>", &[0], 0, "6 9 0"),
    ("<source", &[0], 0, "0 0 0"),
    ("<source>", &[0], 0, "7 8 0"),
    // Ends: blank and lazy lines, the last line, CR LF.
    ("<div>\n\nx", &[0, 0, 0], 0, "6 5 0"),
    ("<div>\n \t\nx", &[0, 0, 0], 0, "6 5 0"),
    ("<div>\r\n\r\nx", &[0, 0, 0], 0, "6 5 0"),
    ("<div>\nx\r\n", &[0, 0, 0], 0, "6 7 0"),
    ("<div>\n ", &[0, 0], 0, "6 5 0"),
    ("<div>\nx\ny", &[0, 0, 1], 0, "6 7 0"),
    ("<div>\nx\ny", &[0, 2, 2], 0, "6 9 0"),
    ("<div>\nx\ny", &[1, 0, 0], 0, "6 9 0"),
    ("<?\n\nx\n", &[0, 0, 0, 0], 0, "3 6 0"),
    ("<?\r\n\r\nx", &[0, 0, 1], 0, "3 4 0"),
    ("<?\r\nx", &[0, 1], 0, "3 2 0"),
    ("<?\n", &[0, 1], 0, "3 2 0"),
    ("<?\n\n", &[0, 0, 1], 0, "3 3 0"),
    ("<?\n?>x\r\ny", &[0, 0, 0], 0, "3 6 1"),
    ("<?\n?>", &[0, 1], 0, "3 2 0"),
    // Not at the first line.
    ("x\r\n<a>\ry", &[2, 0, 0], 3, "7 8 0"),
    ("x\r\n<a>\ry", &[0, 2, 0], 3, "0 3 0"),
    ("x\n", &[0, 0], 2, "0 2 0"),
    ("", &[0], 0, "0 0 0"),
    ("\r\n", &[0, 0], 0, "0 0 0"),
    // A backslash at the end of the line before, and as the first byte.
    ("\\\n<p>", &[0, 0], 2, "6 5 0"),
    ("\\<p>", &[0], 0, "0 0 0"),
];

/// docs/SCOPE.md, Where the closer stands: bulletin, flags, first byte of the
/// closer of the block at 0, or its stop.
const CLOSERS: [(&str, &[u8], usize); 24] = [
    ("<!-->", &[0], 2),
    ("<!--->", &[0], 3),
    ("<!---->", &[0], 4),
    ("<?>", &[0], 1),
    ("<??>", &[0], 2),
    ("<!A>>", &[0], 3),
    ("<!--\n--->x-->", &[0, 0], 6),
    ("<!--\r\n--->x-->", &[0, 0], 7),
    ("<!--\r\n-->\r\n", &[0, 0, 0], 6),
    ("  <!--\n --> -->", &[0, 0], 8),
    ("<script></style></script>", &[0], 8),
    ("<pre>\n<</SCRIPT>", &[0, 0], 7),
    ("<pre></textarea</style>", &[0], 15),
    ("<![CDATA[]]>", &[0], 9),
    ("<![CDATA[]]]]>", &[0], 11),
    ("<![CDATA[]]]>]]>", &[0], 13),
    ("<![CDATA[]]]\n]]>", &[0, 0], 13),
    // None.
    ("<![CDATA[]]]>", &[0], 13),
    ("<!--\n-->", &[0, 1], 4),
    ("<!--\r\n-->", &[0, 1], 4),
    ("<?\n", &[0, 0], 3),
    ("<pre></pre >", &[0], 12),
    ("<div></div>", &[0], 11),
    ("<a>\n-->", &[0, 0], 7),
];

/// Events of inline scans: text, index, events.
const INLINE_EVENTS: [(&str, usize, &str); 8] = [
    (
        "<b>",
        0,
        "+HtmlText 1:1:0 +HtmlTextData 1:1:0 -HtmlTextData 1:4:3 -HtmlText 1:4:3",
    ),
    // A tab at column 1 has 4 readings, at column 4 one.
    (
        "\t<b>",
        1,
        "+HtmlText 1:5:1 +HtmlTextData 1:5:1 -HtmlTextData 1:8:4 -HtmlText 1:8:4",
    ),
    (
        "abc\t<b>",
        4,
        "+HtmlText 1:5:4 +HtmlTextData 1:5:4 -HtmlTextData 1:8:7 -HtmlText 1:8:7",
    ),
    // Columns count bytes; lines count from the start of the text.
    (
        "\u{e9}\r\n\u{e9}<b>",
        6,
        "+HtmlText 2:3:6 +HtmlTextData 2:3:6 -HtmlTextData 2:6:9 -HtmlText 2:6:9",
    ),
    // Line endings inside: LF, then spaces and a tab.
    (
        "<b \n \tc>",
        0,
        "+HtmlText 1:1:0 +HtmlTextData 1:1:0 -HtmlTextData 1:4:3 +LineEnding 1:4:3 \
         -LineEnding 2:1:4 +SpaceOrTab 2:1:4 -SpaceOrTab 2:5:6 +HtmlTextData 2:5:6 \
         -HtmlTextData 2:7:8 -HtmlText 2:7:8",
    ),
    // CR LF: exits and enters stand before the CR.
    (
        "<b\r\n>",
        0,
        "+HtmlText 1:1:0 +HtmlTextData 1:1:0 -HtmlTextData 1:3:2 +LineEnding 1:3:2 \
         -LineEnding 2:1:4 +HtmlTextData 2:1:4 -HtmlTextData 2:2:5 -HtmlText 2:2:5",
    ),
    // A lone CR.
    (
        "<b\r>",
        0,
        "+HtmlText 1:1:0 +HtmlTextData 1:1:0 -HtmlTextData 1:3:2 +LineEnding 1:3:2 \
         -LineEnding 2:1:3 +HtmlTextData 2:1:3 -HtmlTextData 2:2:4 -HtmlText 2:2:4",
    ),
    ("<?>", 0, ""),
];

/// Events of block scans: bulletin, flags, index, events.
const BLOCK_EVENTS: [(&str, &[u8], usize, &str); 11] = [
    // Leading spaces are a pair of their own.
    (
        "  <b>\n\tc",
        &[0, 0],
        0,
        "+HtmlFlow 1:1:0 +HtmlFlowData 1:1:0 -HtmlFlowData 1:3:2 +HtmlFlowData 1:3:2 \
         -HtmlFlowData 1:6:5 +LineEnding 1:6:5 -LineEnding 2:1:6 +HtmlFlowData 2:1:6 \
         -HtmlFlowData 2:6:8 -HtmlFlow 2:6:8",
    ),
    // Kinds 1 to 5: an empty line has no data, a line of spaces has.
    (
        "<?\n\n \nx",
        &[0, 0, 0, 0],
        0,
        "+HtmlFlow 1:1:0 +HtmlFlowData 1:1:0 -HtmlFlowData 1:3:2 +LineEnding 1:3:2 \
         -LineEnding 2:1:3 +LineEnding 2:1:3 -LineEnding 3:1:4 +HtmlFlowData 3:1:4 \
         -HtmlFlowData 3:2:5 +LineEnding 3:2:5 -LineEnding 4:1:6 +HtmlFlowData 4:1:6 \
         -HtmlFlowData 4:2:7 -HtmlFlow 4:2:7",
    ),
    // Unclosed at a final line ending.
    (
        "<?\r\n",
        &[0, 0],
        0,
        "+HtmlFlow 1:1:0 +HtmlFlowData 1:1:0 -HtmlFlowData 1:3:2 +LineEnding 1:3:2 \
         -LineEnding 2:1:4 -HtmlFlow 2:1:4",
    ),
    // Checks leave no records; CR LF is not taken.
    (
        "<p>\r\nx\r\n\r\n",
        &[0, 0, 0, 0],
        0,
        "+HtmlFlow 1:1:0 +HtmlFlowData 1:1:0 -HtmlFlowData 1:4:3 +LineEnding 1:4:3 \
         -LineEnding 2:1:5 +HtmlFlowData 2:1:5 -HtmlFlowData 2:2:6 -HtmlFlow 2:2:6",
    ),
    (
        "<!-->\r\n",
        &[0, 0],
        0,
        "+HtmlFlow 1:1:0 +HtmlFlowData 1:1:0 -HtmlFlowData 1:6:5 -HtmlFlow 1:6:5",
    ),
    // A lazy line ends before the ending that leads to it.
    (
        "<?\r\nx",
        &[0, 1],
        0,
        "+HtmlFlow 1:1:0 +HtmlFlowData 1:1:0 -HtmlFlowData 1:3:2 -HtmlFlow 1:3:2",
    ),
    // The exit after an empty line before a lazy one stands at the lazy line.
    (
        "<?\n\n",
        &[0, 0, 1],
        0,
        "+HtmlFlow 1:1:0 +HtmlFlowData 1:1:0 -HtmlFlowData 1:3:2 +LineEnding 1:3:2 \
         -LineEnding 2:1:3 -HtmlFlow 3:1:4",
    ),
    (
        "<?\r\n\r\nx",
        &[0, 0, 1],
        0,
        "+HtmlFlow 1:1:0 +HtmlFlowData 1:1:0 -HtmlFlowData 1:3:2 +LineEnding 1:3:2 \
         -LineEnding 2:1:4 -HtmlFlow 3:1:6",
    ),
    // Interrupt on a later line, lazy on the index's line, and lines before.
    (
        "x\r<a>\n<a>",
        &[3, 1, 2],
        2,
        "+HtmlFlow 2:1:2 +HtmlFlowData 2:1:2 -HtmlFlowData 2:4:5 +LineEnding 2:4:5 \
         -LineEnding 3:1:6 +HtmlFlowData 3:1:6 -HtmlFlowData 3:4:9 -HtmlFlow 3:4:9",
    ),
    // Only the next line's lazy flag counts.
    (
        "<!a\nb\nc",
        &[0, 0, 1],
        0,
        "+HtmlFlow 1:1:0 +HtmlFlowData 1:1:0 -HtmlFlowData 1:4:3 +LineEnding 1:4:3 \
         -LineEnding 2:1:4 +HtmlFlowData 2:1:4 -HtmlFlowData 2:2:5 -HtmlFlow 2:2:5",
    ),
    ("   x", &[0], 0, ""),
];

/// Inline traces: text, index, carry, trace.
const INLINE_TRACES: [(&str, usize, usize, &str); 3] = [
    (
        "<b>",
        0,
        0,
        "0701000000010000000000000000 0901000000010000000000000000 \
         0a01000000040000000300000000 0801000000040000000300000000 0d0300000000",
    ),
    ("<![CDx", 0, 0, "0d0000000002"),
    ("ab", 2, 4, "0d0200000004"),
];

/// Block traces: bulletin, flags, index, trace.
const BLOCK_TRACES: [(&str, &[u8], usize, &str); 3] = [
    (
        "<b>",
        &[0],
        0,
        "0101000000010000000000000000 0301000000010000000000000000 \
         0401000000040000000300000000 0201000000040000000300000000 0e0300000007",
    ),
    ("x\ny", &[0, 0], 2, "0e0200000000"),
    (
        "<?\n\n",
        &[0, 0, 1],
        0,
        "0101000000010000000000000000 0301000000010000000000000000 \
         0401000000030000000200000000 0501000000030000000200000000 \
         0602000000010000000300000000 0203000000010000000400000000 0e0300000003",
    ),
];

/// Compare all rows, print those that differ and the counts.
pub fn all_hold() -> bool {
    let mut rows = Rows { held: 0, failed: 0 };

    for (text, index, carry, expected) in INLINE {
        let answer = inline(text.as_bytes(), index, carry);
        let found = if answer.found { "found" } else { "none" };
        let given = format!("{found} {} {}", answer.stop, answer.carry);
        let what = format!("inline {text:?} {index} {carry}");
        rows.compare(&what, expected, &given);
    }
    for (text, flags, index, expected) in BLOCK {
        let answer = block(text.as_bytes(), flags, index);
        let closed = u8::from(answer.closed);
        let given = format!("{} {} {closed}", answer.kind, answer.stop);
        let what = format!("block {text:?} {flags:?} {index}");
        rows.compare(&what, expected, &given);
    }
    for (text, flags, expected) in CLOSERS {
        let given = block(text.as_bytes(), flags, 0).closer.to_string();
        let what = format!("closer {text:?} {flags:?}");
        rows.compare(&what, &expected.to_string(), &given);
    }
    for (text, index, expected) in INLINE_EVENTS {
        let given = words(&inline(text.as_bytes(), index, 0).events);
        let what = format!("inline events {text:?} {index}");
        rows.compare(&what, expected, &given);
    }
    for (text, flags, index, expected) in BLOCK_EVENTS {
        let given = words(&block(text.as_bytes(), flags, index).events);
        let what = format!("block events {text:?} {flags:?} {index}");
        rows.compare(&what, expected, &given);
    }
    for (text, index, carry, expected) in INLINE_TRACES {
        let given = to_hex(&trace_inline(text.as_bytes(), index, carry));
        let expected = expected.replace(' ', "");
        let what = format!("inline trace {text:?} {index} {carry}");
        rows.compare(&what, &expected, &given);
    }
    for (text, flags, index, expected) in BLOCK_TRACES {
        let given = to_hex(&trace_block(text.as_bytes(), flags, index));
        let expected = expected.replace(' ', "");
        let what = format!("block trace {text:?} {flags:?} {index}");
        rows.compare(&what, &expected, &given);
    }
    dispatch(&mut rows);

    println!("{} rows hold, {} differ", rows.held, rows.failed);
    rows.failed == 0
}

struct Rows {
    held: usize,
    failed: usize,
}

impl Rows {
    fn compare(&mut self, what: &str, expected: &str, given: &str) {
        if expected == given {
            self.held += 1;
        } else {
            self.failed += 1;
            println!("{what}\n  expected {expected}\n  given    {given}");
        }
    }
}

/// Each state of a construct calls the function that its name spells.
fn dispatch(rows: &mut Rows) {
    // The arms, without line breaks: `Name::X => module::function(tokenizer)`.
    let source = include_str!("state.rs").replace(['{', '\n'], " ");
    for arm in source.split("Name::").skip(1) {
        let Some((name, call)) = arm.split_once("=>") else {
            continue;
        };
        let Some((path, _)) = call.split_once("(tokenizer)") else {
            continue;
        };
        let Some((module, function)) = path.trim().split_once("::") else {
            continue;
        };
        if module == "scan" {
            continue;
        }
        let module = module.trim_start_matches("partial_");
        let spelled: String = format!("{module}_{function}")
            .split('_')
            .map(|word| word[..1].to_uppercase() + &word[1..])
            .collect();
        rows.compare(&format!("dispatch {path}"), name.trim(), &spelled);
    }
}
