#!/usr/bin/env bash
# examples/preview.c, as a user runs it: what stands in the page, what does not, and what it says where there is none.
#
#     tests/preview.sh
#
# It links target/staticlib/libforingamo.a, which scripts/archive.sh builds where it is not there or is older than its sources; a line says so. Where there is no
# cc, or no iconv, a line says what is left out. A line for each check that fails; the last line is 'N passed, M failed'.
cd "$(dirname "$0")/.." || exit 1
. tests/checks.sh
built=target/preview
program=$built/preview
in=$built/in
page=$built/page.html
limit=1000000

mkdir -p "$built" || exit 1
if ! command -v cc >/dev/null; then
    echo 'there is no cc: examples/preview.c is left out'
    ends 0 0
fi
compiles examples/preview.c "$program"
command -v iconv >/dev/null || echo 'there is no iconv: whether a page is valid UTF-8 is left out'

# Bytes, whatever the language.
export LC_ALL=C
passed=0
failed=0

fails() {
    echo "$1"
    failed=$((failed + 1))
}

# is WHAT ONE OTHER: the two are the same.
is() {
    if [ "$2" = "$3" ]; then
        passed=$((passed + 1))
    else
        fails "$1: '$2', not '$3'"
    fi
}

# same WHAT ONE OTHER: the two files are the same.
same() {
    if cmp -s "$2" "$3"; then
        passed=$((passed + 1))
    else
        fails "$1: $2 and $3 differ"
    fi
}

# has WHAT COUNT PATTERN FILE: so many lines have the pattern, in any letter case.
has() {
    is "$1: lines with $3 in $4" "$(grep -aicE -e "$3" "$4")" "$2"
}

# makes WHAT [ARGUMENT..]: a page of the bulletin in the file `in`.
makes() {
    local what=$1
    shift
    "$program" "$@" <"$in" >"$page" 2>"$built/said"
    is "$what: the status, and what is said" "$? $(<"$built/said")" '0 '
}

# inner: what stands for the bulletin.
inner() {
    sed -e '1,/^<pre>$/d' -e '/^<\/body>$/d' -e '/^<\/html>$/d' -e 's/<\/pre>$//' "$page"
}

# body: the same, with [inline N] or [block N] for each bar whose label, title and width have the same N. Any other bar stays as it is.
bar='" role="img" aria-label="WHAT withheld, \([0-9]*\) bytes" title="WHAT withheld, \1 bytes" style="width:\1ch"><\/span>'
body() {
    inner | sed -e "s/<span class=\"bar${bar//WHAT/inline piece}/[inline \\1]/g" -e "s/<span class=\"bar block${bar//WHAT/block}/[block \\1]/g"
}

# frame: all else, less the numbers.
frame() {
    sed -e '/^<pre>$/,/<\/pre>$/d' -e '/^<p>Bytes shown: /d' "$page"
}

# is_text WHAT: the page is UTF-8 without controls.
is_text() {
    tr -d '\000-\010\013-\037\177' <"$page" >"$built/text"
    same "$1: controls" "$page" "$built/text"
    if command -v iconv >/dev/null; then
        iconv -f UTF-8 -t UTF-8 "$page" >"$built/text" 2>/dev/null
        is "$1: the page is valid UTF-8" $? 0
    fi
}

# draws WHAT BULLETIN BODY NUMBERS [ARGUMENT..]: the page of the bulletin has the body; NUMBERS are the bytes shown, the inline pieces and the blocks. Of both texts
# printf's %b makes bytes.
draws() {
    local what=$1 body=$3 shown inline block length
    read -r shown inline block <<<"$4"
    printf '%b' "$2" >"$in"
    shift 4
    makes "$what" "$@"
    printf '%b\n' "$body" >"$built/expected"
    body >"$built/body"
    same "$what: the body" "$built/body" "$built/expected"
    length=$(($(wc -c <"$in")))
    is "$what: the numbers" "$(sed -n 's/^<p>\(Bytes shown: .*\)<\/p>$/\1/p' "$page")" \
        "Bytes shown: $shown of $length. Pieces withheld: $((inline + block)) (inline: $inline, block: $block)."
    frame >"$built/frame"
    same "$what: the frame" "$built/frame" "$built/frame_of_none"
    is_text "$what"
}

# hides WHAT [ARGUMENT..]: of the bulletin in the file `in`, which has WITHDRAWN in pieces and PUBLISHED elsewhere, the page has only the latter; and with another
# word of that length in the pieces it is the same page.
hides() {
    local what=$1
    shift
    grep -aq WITHDRAWN "$in" || fails "$what: WITHDRAWN is not in the bulletin"
    makes "$what" "$@"
    is "$what: lines with WITHDRAWN" "$(grep -aic WITHDRAWN "$page")" 0
    is "$what: PUBLISHED in the page" "$(grep -aq PUBLISHED "$page" && echo there)" there
    cp "$page" "$built/first.html"
    sed 's|WITHDRAWN|aB3 "/-=z|g' "$in" >"$built/other"
    ! cmp -s "$built/other" "$in" || fails "$what: the other bulletin is the same"
    mv "$built/other" "$in"
    makes "$what, another word" "$@"
    same "$what: the page with another word" "$page" "$built/first.html"
}

# copies COUNT TEXT: so many copies of a text.
copies() {
    yes "$2" | head -n "$1" | tr -d '\n'
}

# ---- the frame

: >"$in"
makes 'no byte'
frame >"$built/frame_of_none"
has 'the frame' 1 '^<!DOCTYPE html>$' "$page"
has 'the frame' 1 '^<title>.+</title>$' "$page"
has 'the frame' 1 "^<meta http-equiv=\"Content-Security-Policy\" content=\"default-src 'none'; style-src 'unsafe-inline'\">$" "$page"
head -c 1024 "$page" >"$built/start"
has 'the first 1,024 bytes' 1 '<meta charset="utf-8">' "$built/start"
# Line breaks and spaces are kept, a column is a byte, and no bar is longer than a line.
has 'the frame' 1 '^  font: [^;]*monospace; white-space: pre-wrap;' "$page"
has 'the frame' 1 '^\.bar \{ display: inline-block; box-sizing: border-box; max-width: 100%;' "$page"
# The legend has a bar of each kind, which no reader of the screen counts.
is 'the legend: bars' "$(grep -o 'class="bar[^>]*>' "$built/frame_of_none")" 'class="bar">
class="bar block">'

# ---- pages

draws 'no byte' '' '' '0 0 0'
draws 'no piece' 'a\n\n b  c\td\n' 'a\n\n b  c\td\n' '11 0 0'
draws 'the added screen' 'door <!-- x -->9\n<div>\nold\n\nok' 'door [inline 10]9\n[block 9]\n\nok' '11 1 1'
draws 'bytes from space to tilde' ' !#$%()*+,-./09:;=?@AZ[]^_`az{|}~' ' !#$%()*+,-./09:;=?@AZ[]^_`az{|}~' '33 0 0'
draws 'an inline piece alone' 'a<b>' 'a[inline 3]' '1 1 0'
draws 'a block alone' '<div>' '[block 5]' '0 0 1'
draws 'pieces that touch' '<a><b>' '[inline 3][inline 3]' '0 2 0'
draws 'pieces one letter apart' 'x<a>y<b>z' 'x[inline 3]y[inline 3]z' '3 2 0'
draws 'blocks, line by line' '<?1?>\n<!--22-->\n<pre>333</pre>\nok' '[block 5]\n[block 9]\n[block 14]\nok' '5 0 3'
draws 'a line that goes on no paragraph, its flag 0' 'a\n<b>\nc' 'a\n[block 5]' '2 0 1'
draws 'a piece over two lines' 'a <b\nc>d' 'a [inline 5]d' '3 1 0'

# The two readings.
draws 'T1' 'a <b c=d/e>' 'a &lt;b c=d/e&gt;' '11 0 0'
draws 'T1 by the standard' 'a <b c=d/e>' 'a [inline 9]' '2 1 0' --standard
draws 'F2' '<i 1>' '[block 5]' '0 0 1'
draws 'F2 by the standard' '<i 1>' '&lt;i 1&gt;' '5 0 0' --standard

# Text is no HTML.
draws 'a backslash' 'a \\<b>' 'a \\&lt;b&gt;' '6 0 0'
draws 'five bytes' "1 < 2 & 3 > \"2\" '&lt;" '1 &lt; 2 &amp; 3 &gt; &quot;2&quot; &#39;&amp;lt;' '21 0 0'
draws 'tags behind backslashes' '\\</pre>\\<script>\n\\<pre>' '\\&lt;/pre&gt;\\&lt;script&gt;\n\\&lt;pre&gt;' '23 0 0'
has 'tags behind backslashes' 0 '<script' "$page"

# Line endings.
draws 'line endings' '\r\n\n\ra\r\nb\rc\r\r\nd\r\re\n\r' '\n\n\na\nb\nc\n\nd\n\ne\n\n' '19 0 0'
draws 'line endings beside pieces' 'x\r<div>\r\n\r\ny\r\n<?a?>\rz <b>\n' 'x\n[block 5]\n\ny\n[block 5]\nz [inline 3]\n' '13 1 2'

# Bytes that are no character, each by itself.
r='&#xFFFD;'
draws 'characters' 'a é € 😀' 'a é € 😀' '13 0 0'
edges='\xc2\xa0\xc3\xbf\xdf\xbf\xe0\xa0\x80\xe0\xbf\xbf\xe1\x80\x80\xec\xbf\xbf\xed\x80\x80\xed\x9f\xbf\xee\x80\x80\xef\xbf\xbd'
edges+='\xf0\x90\x80\x80\xf1\x80\x80\x80\xf3\xbf\xbf\xbf\xf4\x8f\xbf\xbf'
draws 'the first and last characters of each form' "$edges" "$edges" '46 0 0'
draws 'a byte that goes on nothing' '\x80a\xbf' "${r}a$r" '3 0 0'
draws 'bytes of no form' '\xc0\xaf\xc1\xbf\xf5\x80\x80\x80\xff' "$r$r$r$r$r$r$r$r$r" '9 0 0'
draws 'too long a form' '\xe0\x9f\xbf \xf0\x8f\xbf\xbf' "$r$r$r $r$r$r$r" '8 0 0'
draws 'a surrogate' '\xed\xa0\x80 \xed\xbf\xbf' "$r$r$r $r$r$r" '7 0 0'
draws 'past the last character' '\xf4\x90\x80\x80' "$r$r$r$r" '4 0 0'
draws 'broken at the second byte' '\xc3a\xc3\xc3\xa9' "${r}a${r}é" '5 0 0'
draws 'broken at the third byte' '\xe2\x82a\xf0\x9f\xc3\xa9' "$r${r}a$r${r}é" '7 0 0'
draws 'broken at the fourth byte' '\xf0\x9f\x98a\xf0\x9f\x98\xf0' "$r$r${r}a$r$r$r$r" '8 0 0'
draws 'one byte of two at the end' 'a\xc3' "a$r" '2 0 0'
draws 'two bytes of three at the end' 'a\xe2\x82' "a$r$r" '3 0 0'
draws 'three bytes of four at the end' 'a\xf0\x9f\x98' "a$r$r$r" '4 0 0'
draws 'a character around a piece' 'a\xe2<b>\x82\xac\xc3<i>\xa9' "a${r}[inline 3]$r$r${r}[inline 3]$r" '6 2 0'
draws 'bytes in pieces' 'a<!--\xff\x00\x01-->é<!--é-->' 'a[inline 10]é[inline 9]' '3 2 0'
draws 'NUL' 'a\x00b\x00' "a${r}b$r" '4 0 0'
for ((byte = 1; byte < 32; byte++)); do
    [[ $byte =~ ^(9|10|13)$ ]] || draws "the control $byte" "a\\x$(printf %02x "$byte")b" "a${r}b" '3 0 0'
done
draws 'the control 127' 'a\x7fb' "a${r}b" '3 0 0'
draws 'the controls 128 and 159' '\xc2\x80\xc2\x9f' "$r$r$r$r" '4 0 0'

# ---- what is withheld

hidden='a comment|PUBLISHED <!-- WITHDRAWN --> PUBLISHED
a CDATA section|PUBLISHED <![CDATA[WITHDRAWN]]> PUBLISHED
an instruction|PUBLISHED <?x WITHDRAWN?> PUBLISHED
a declaration|PUBLISHED <!X WITHDRAWN> PUBLISHED
a value|PUBLISHED <a b=\x27WITHDRAWN\x27> PUBLISHED
a value over lines|PUBLISHED <a b=\x27\nWITHDRAWN\n\x27> PUBLISHED
a block of a comment|PUBLISHED\n<!--\n\nWITHDRAWN\n-->\nPUBLISHED
a block of a CDATA section|<![CDATA[\n\nWITHDRAWN\n]]>\nPUBLISHED
a block of an instruction|<?php\n\nWITHDRAWN\n?>\nPUBLISHED
a block of a declaration|<!X\n\nWITHDRAWN\n>\nPUBLISHED
a div|<div>\nWITHDRAWN\n</div>\nWITHDRAWN\n\nPUBLISHED
a script|<script>\n\nWITHDRAWN\n</script>\nPUBLISHED
a style|<style>\n\nWITHDRAWN\n</style>\nPUBLISHED
a block to the end|PUBLISHED\n<pre>\n\nWITHDRAWN
a source|PUBLISHED <img src=\x27http://example.org/url(WITHDRAWN)\x27>
pieces that touch|PUBLISHED <?WITHDRAWN?><!--WITHDRAWN--><![CDATA[WITHDRAWN]]>
beside bytes that are none|PUBLISHED\xff\x00 <!--\xff\x00WITHDRAWN\xc3-->\xc3'
while IFS='|' read -r what text; do
    for reading in '' --standard; do
        printf '%b' "$text" >"$in"
        hides "$what${reading:+, $reading}" $reading
        has "$what${reading:+, $reading}" 0 '<script|https?:|//|url\(|src=|href=|@import|<link|<img' "$page"
    done
done <<<"$hidden"

{ printf 'PUBLISHED <!--' && copies 99990 WITHDRAWN && printf -- '--> PUBLISHED'; } >"$in"
hides 'a long comment'
{ printf 'PUBLISHED\n<div>\n' && yes WITHDRAWN | head -n 99990; } >"$in"
hides 'a long block'
printf 'PUBLISHED\n[block 999905]\n\n' >"$built/expected"
body >"$built/body"
same 'a long block: the body' "$built/body" "$built/expected"

# ---- the limit

copies $((limit / 10)) 'abcdefghi ' >"$in"
makes 'no piece, as long as can be'
body >"$built/body"
{ cat "$in" && echo; } >"$built/expected"
same 'no piece, as long as can be: the body' "$built/body" "$built/expected"

{ copies $((limit / 3)) '<a>' && printf '<'; } >"$in"
is 'as many pieces as can be: their bytes' "$(($(wc -c <"$in")))" "$limit"
makes 'as many pieces as can be'
has 'as many pieces as can be' 1 '^<p>Bytes shown: 1 of 1000000\. Pieces withheld: 333333 \(inline: 333333, block: 0\)\.</p>$' "$page"
inner >"$built/body"
bar='<span class="bar" role="img" aria-label="inline piece withheld, 3 bytes" title="inline piece withheld, 3 bytes" style="width:3ch"></span>'
{ copies $((limit / 3)) "$bar" && echo '&lt;'; } >"$built/expected"
same 'as many pieces as can be: the body' "$built/body" "$built/expected"
cp "$page" "$built/first.html"
makes 'as many pieces as can be, by the standard' --standard
same 'as many pieces as can be, by the standard' "$page" "$built/first.html"

# ---- no page

# ends_with WHAT STATUS SAID COMMAND..: the command, with the file `in` as standard input, ends with the status; it writes one line, SAID, to standard error, and
# nothing to standard output.
ends_with() {
    local what=$1 status=$2 said=$3
    shift 3
    "$@" <"$in" >"$built/written" 2>"$built/said"
    is "$what: the status" $? "$status"
    printf '%s\n' "$said" >"$built/expected"
    same "$what: what is said" "$built/said" "$built/expected"
    is "$what: bytes of standard output" "$(($(wc -c <"$built/written")))" 0
}

{ copies $((limit / 10)) 'abcdefghi ' && printf 'a'; } >"$in"
ends_with '1,000,001 bytes' 1 'refused 1' "$program"
ends_with '1,000,001 bytes by the standard' 1 'refused 1' "$program" --standard
yes '' | head -n $((limit + 1)) >"$in"
ends_with '1,000,001 line endings' 1 'refused 1' "$program"
endless() { timeout 20 "$program" </dev/zero; }
ends_with 'an input without an end' 1 'refused 1' endless

printf 'a <b>' >"$in"
for wrong in x -h --standards --Standard -- ''; do
    ends_with "the argument '$wrong'" 64 'preview: wrong arguments; --help tells more' "$program" "$wrong"
done
ends_with 'an argument too many' 64 'preview: wrong arguments; --help tells more' "$program" --standard --standard
ends_with 'an argument behind --help' 64 'preview: wrong arguments; --help tells more' "$program" --help x

full_device() { "$program" "$@" >/dev/full; }
closed_output() { "$program" "$@" >&-; }
for argument in '' --standard --help; do
    ends_with "a full device: $argument" 74 'preview: cannot write standard output' full_device $argument
    ends_with "no standard output: $argument" 74 'preview: cannot write standard output' closed_output $argument
done
# More than the C library keeps back.
{ copies $((limit / 3)) '<a>'; } >"$in"
ends_with 'a full device, a long page' 74 'preview: cannot write standard output' full_device

a_folder_as_input() { "$program" <"$built"; }
closed_input() { "$program" <&-; }
ends_with 'a folder as input' 74 'preview: cannot read standard input' a_folder_as_input
ends_with 'no standard input' 74 'preview: cannot read standard input' closed_input

makes --help --help
is '--help: the first line' "$(head -n 1 "$page")" 'usage: preview [--standard] <bulletin >page.html'

ends "$passed" "$failed"
