//! docs/SCOPE.md, GitHub's tag filter, by the plain rule: what is shown of a
//! piece.

use std::ops::Range;

/// The names whose tags are replaced.
pub const NAMES: [&str; 9] = [
    "title",
    "textarea",
    "style",
    "xmp",
    "iframe",
    "noembed",
    "noframes",
    "script",
    "plaintext",
];

/// Whether bytes begin with what makes a name count.
fn ends_name(bytes: &[u8]) -> bool {
    matches!(
        bytes,
        [b' ' | b'\t' | b'\n' | b'\r' | b'>', ..] | [b'/', b'>', ..]
    )
}

/// Whether bytes begin with a name, letter case ignored, that counts.
fn begins_name(bytes: &[u8]) -> bool {
    NAMES.iter().any(|name| {
        bytes.len() >= name.len()
            && bytes[..name.len()].eq_ignore_ascii_case(name.as_bytes())
            && ends_name(&bytes[name.len()..])
    })
}

/// Whether bytes begin with such a tag: `<`, an optional `/`, and the name.
fn begins_tag(bytes: &[u8]) -> bool {
    bytes.strip_prefix(b"<").is_some_and(begins_name)
        || bytes.strip_prefix(b"</").is_some_and(begins_name)
}

/// Write a piece of a bulletin with `&lt;` for the `<` of each such tag. In a
/// block every place counts, in an inline piece only its first byte. What stands
/// behind a name may lie beyond the piece.
pub fn write(bulletin: &[u8], piece: Range<usize>, block: bool, out: &mut Vec<u8>) {
    for at in piece.clone() {
        if (block || at == piece.start) && begins_tag(&bulletin[at..]) {
            out.extend_from_slice(b"&lt;");
        } else {
            out.push(bulletin[at]);
        }
    }
}
