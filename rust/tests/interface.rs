//! Every answer and every refusal, through the package.
#![forbid(unsafe_code)]

use std::fmt::Debug;
use std::ops::Range;

use foringamo::{
    block_scan, block_trace, count_lines, filter, find, inline_scan, inline_trace, narrow_trace, read_trace, show, standard_block_scan, standard_find,
    standard_inline_scan, standard_withhold, stretch, widen_trace, withhold, Block, Inline, Kind, Name, Point, Record, Refusal, Shown, Span, BLOCK_NAMES,
    INTERRUPT, LAZY, LIMIT, RAW_NAMES,
};

// What stands in a buffer before, and in a list of spans.
const FILL: u8 = 0xee;
const FILL_SPAN: Span = span(0xeeee_eeee, 0xeeee_eeef, 0xeeee_eef0);

const fn span(start: u32, stop: u32, sort: u32) -> Span {
    Span { start, stop, sort }
}

// The length of a trace of four events, which a piece within a line has.
const WITHIN: usize = 4 * 14 + 6;

// A text one byte above the limit.
fn long() -> Vec<u8> {
    vec![b'a'; LIMIT + 1]
}

// Whether a buffer or a list has these in front, and the rest is as it was.
fn begins<T: Copy + PartialEq>(got: &[T], front: &[T], fill: T) -> bool {
    got[..front.len()] == *front && got[front.len()..].iter().all(|&rest| rest == fill)
}

// With each room up to one that is more than enough: the answer, with the output in front and the rest as it was, or a refusal where it does not fit.
fn in_every_room<B, T>(fill: B, most: usize, output: &[B], answer: T, call: impl Fn(&mut [B]) -> Result<T, Refusal>)
where
    B: Copy + PartialEq,
    T: Copy + Debug + PartialEq,
{
    for room in 0..=most {
        let mut out = vec![fill; room];
        let got = call(&mut out);
        if room < output.len() {
            assert_eq!(got, Err(Refusal::NoRoom));
            assert!(begins(&out, &[], fill));
        } else {
            assert_eq!(got, Ok(answer));
            assert!(begins(&out, output, fill));
        }
    }
}

#[test]
fn lines() {
    for (text, lines) in [
        (&b""[..], 1),
        (b"a", 1),
        (b"a\nb", 2),
        (b"a\r\nb", 2),
        (b"a\rb", 2),
        (b"a\n\rb\r\nc\rd", 5),
        (b"a\n", 2),
        (b"a\r\n", 2),
        (b"a\r", 2),
    ] {
        assert_eq!(count_lines(text), lines, "{text:?}");
        let mut out = [0; 16];
        assert!(withhold(text, &vec![0; lines], &mut [], &mut out).is_ok(), "{text:?}");
        assert_eq!(withhold(text, &vec![0; lines + 1], &mut [], &mut out), Err(Refusal::WrongCount), "{text:?}");
        assert_eq!(withhold(text, &vec![0; lines - 1], &mut [], &mut out), Err(Refusal::WrongCount), "{text:?}");
    }
    assert_eq!(count_lines(&vec![b'\n'; LIMIT + 1]), LIMIT + 2);
}

// Up to the limit a text is taken: shown as it is, with nothing found at its end.
#[test]
fn limit() {
    let text = long();
    let mut out = vec![0; text.len()];
    for length in [LIMIT - 1, LIMIT] {
        let text = &text[..length];
        let missing = Ok(Inline::Missing { carry: 0 });
        for withhold in [withhold, standard_withhold] {
            out.fill(FILL);
            assert_eq!(withhold(text, &[0], &mut [], &mut out), Ok(Shown { length, pieces: 0 }));
            assert!(begins(&out, text, FILL));
        }
        assert_eq!((find(text, &[0], &mut []), standard_find(text, &[0], &mut [])), (Ok(0), Ok(0)));
        out.fill(FILL);
        assert_eq!(show(text, &[], &mut out), Ok(length));
        assert!(begins(&out, text, FILL));
        assert_eq!(place(text, stretch(text, &[], 0)), (0, length));
        out.fill(FILL);
        assert_eq!(filter(text, &[0], &mut out), Ok(length));
        assert!(begins(&out, text, FILL));
        assert_eq!((block_scan(text, &[0], 0), standard_block_scan(text, &[0], 0)), (Ok(None), Ok(None)));
        assert_eq!((inline_scan(text, length, 0), standard_inline_scan(text, length, 0)), (missing, missing));
        let traced = block_trace(text, &[0], 0, &mut out).expect("not refused");
        assert_eq!(read_trace(&out[..traced], 0), Ok(Record::LastBlock { stop: 0, kind: 0 }));
        let traced = inline_trace(text, length, 5, &mut out).expect("not refused");
        assert_eq!(read_trace(&out[..traced], 0), Ok(Record::LastInline { stop: length, carry: 5 }));
    }
}

// One byte above it every function refuses the text, and nothing changes in the buffer or the list.
#[test]
fn above_the_limit() {
    let text = long();
    let mut out = vec![FILL; text.len()];
    let mut list = [FILL_SPAN; 4];
    assert_eq!(find(&text, &[0], &mut list), Err(Refusal::TooLong));
    assert_eq!(standard_find(&text, &[0], &mut list), Err(Refusal::TooLong));
    assert_eq!(show(&text, &[], &mut out), Err(Refusal::TooLong));
    assert_eq!(show(&text, &[FILL_SPAN], &mut []), Err(Refusal::TooLong));
    assert_eq!(place(&text, stretch(&text, &[span(4, 9, 0)], 1)), (0, 0));
    assert_eq!(withhold(&text, &[0], &mut list, &mut out), Err(Refusal::TooLong));
    assert_eq!(standard_withhold(&text, &[0], &mut list, &mut out), Err(Refusal::TooLong));
    assert_eq!(filter(&text, &[0], &mut out), Err(Refusal::TooLong));
    assert_eq!(block_scan(&text, &[0], 0), Err(Refusal::TooLong));
    assert_eq!(standard_block_scan(&text, &[0], 0), Err(Refusal::TooLong));
    assert_eq!(inline_scan(&text, 0, 0), Err(Refusal::TooLong));
    assert_eq!(standard_inline_scan(&text, 0, 0), Err(Refusal::TooLong));
    assert_eq!(block_trace(&text, &[0], 0, &mut out), Err(Refusal::TooLong));
    assert_eq!(inline_trace(&text, 0, 0, &mut out), Err(Refusal::TooLong));
    assert!(begins(&out, &[], FILL) && list == [FILL_SPAN; 4]);
}

// The added screen, what is withheld from it, and what is shown.
const SCREEN: &[u8] = b"door <!-- x -->9\n<div>\nold\n\nok";
const BARS: [Span; 2] = [span(5, 15, 0), span(17, 26, 1)];
const SHOWN: &[u8] = b"door 9\n\n\nok";

type Find = fn(&[u8], &[u8], &mut [Span]) -> Result<usize, Refusal>;
type Withhold = fn(&[u8], &[u8], &mut [Span], &mut [u8]) -> Result<Shown, Refusal>;
type BlockScan = fn(&[u8], &[u8], usize) -> Result<Option<Block>, Refusal>;

// The two readings.
const READINGS: [(Find, Withhold, BlockScan); 2] = [(find, withhold, block_scan), (standard_find, standard_withhold, standard_block_scan)];

// With every room for spans and every room for bytes, all flags 0: the answer, with what is withheld and what is shown in front and the rest as it was, or a refusal
// where one of the two does not fit, and both as they were.
fn withholds(withhold: Withhold, bulletin: &[u8], spans: &[Span], shown: &[u8]) {
    let flags = vec![0; count_lines(bulletin)];
    for list_room in 0..=bulletin.len() + 1 {
        for room in 0..=bulletin.len() + 1 {
            let (mut list, mut out) = (vec![FILL_SPAN; list_room], vec![FILL; room]);
            let got = withhold(bulletin, &flags, &mut list, &mut out);
            if spans.len() <= list_room && shown.len() <= room {
                assert_eq!(got, Ok(Shown { length: shown.len(), pieces: spans.len() }));
                assert!(begins(&list, spans, FILL_SPAN) && begins(&out, shown, FILL));
            } else {
                assert_eq!(got, Err(Refusal::NoRoom));
                assert!(begins(&list, &[], FILL_SPAN) && begins(&out, &[], FILL));
            }
        }
    }
}

#[test]
fn withheld() {
    for withhold in [withhold, standard_withhold] {
        withholds(withhold, SCREEN, &BARS, SHOWN);
        withholds(withhold, b"<a>b</a>", &[span(0, 3, 0), span(4, 8, 0)], b"b");
        withholds(withhold, b"<?x", &[span(0, 3, 1)], b"");
        withholds(withhold, br"a\<b>", &[], br"a\<b>");
        assert_eq!(withhold(b"", &[0], &mut [], &mut []), Ok(Shown { length: 0, pieces: 0 }));
        assert_eq!(withhold(b"", &[], &mut [], &mut []), Err(Refusal::WrongCount));
        assert_eq!(withhold(b"<a>", &[4], &mut [], &mut []), Err(Refusal::WrongFlag));
    }
}

// An edition of a bulletin, with others in place of its six private pieces, shows alike: bodies that touch in a paragraph and in a tag's value, and a body and two
// lines in a block.
#[test]
fn editions() {
    for (bulletin, spans) in [
        (&b"a <!--x--><?y?>\n<!--\nl\nm\n--><!Zz>\nb <i c='<!--v--><?w?>'>d"[..], [span(2, 10, 0), span(10, 15, 0), span(16, 33, 1), span(36, 57, 0)]),
        (b"a <!----><?longer?>\n<!--\n\nmmm\n--><!Z>\nb <i c='<!--==--><??>'>d", [span(2, 9, 0), span(9, 19, 0), span(20, 37, 1), span(40, 61, 0)]),
    ] {
        for withhold in [withhold, standard_withhold] {
            withholds(withhold, bulletin, &spans, b"a \n\nb d");
        }
    }
}

#[test]
fn found() {
    for find in [find, standard_find] {
        in_every_room(FILL_SPAN, SCREEN.len() + 1, &BARS, 2, |list| find(SCREEN, &[0; 5], list));
        in_every_room(FILL_SPAN, 9, &[span(0, 3, 0), span(3, 6, 0)], 2, |list| find(b"<a><b>", &[0], list));
        assert_eq!(find(b"", &[0], &mut []), Ok(0));
        assert_eq!(find(br"a\<b>", &[0], &mut []), Ok(0));
        assert_eq!(find(b"", &[], &mut []), Err(Refusal::WrongCount));
        assert_eq!(find(b"<a>", &[4], &mut []), Err(Refusal::WrongFlag));
    }

    let most = b"<a>".repeat(LIMIT / 3);
    let spans: Vec<Span> = (0..LIMIT as u32 / 3).map(|n| span(3 * n, 3 * n + 3, 0)).collect();
    for room in [spans.len() - 1, spans.len(), most.len()] {
        let mut list = vec![FILL_SPAN; room];
        let fits = spans.len() <= room;
        assert_eq!(find(&most, &[0], &mut list), if fits { Ok(spans.len()) } else { Err(Refusal::NoRoom) });
        assert!(begins(&list, if fits { &spans } else { &[] }, FILL_SPAN));
    }
    assert_eq!(show(&most, &spans, &mut []), Ok(0));
    assert_eq!(place(&most, stretch(&most, &spans, spans.len())), (most.len(), 0));
}

#[test]
fn spans() {
    assert_eq!(BARS.map(Span::is_block), [false, true]);
    assert_eq!(BARS.map(|bar| &SCREEN[bar.range()]), [&b"<!-- x -->"[..], b"<div>\nold"]);
    assert_eq!(Span::default(), span(0, 0, 0));
    assert_eq!(span(1, u32::MAX, 2).range(), 1..u32::MAX as usize);
    assert!(!span(0, 1, 2).is_block() && !span(0, 1, u32::MAX).is_block());
}

// Any spans that are in order are taken, and it makes no difference which of them are blocks.
#[test]
fn shown() {
    in_every_room(FILL, SCREEN.len() + 1, SHOWN, SHOWN.len(), |out| show(SCREEN, &BARS, out));
    for (spans, shown) in [
        (&[][..], SCREEN),
        (&[span(0, 30, 0)], b""),
        (&[span(0, 28, 1)], b"ok"),
        (&[span(4, 30, 1)], b"door"),
        (&[span(5, 15, 1), span(17, 26, 0)], SHOWN),
        (&[span(0, 5, 0), span(5, 15, 1), span(15, 17, 0), span(17, 26, 1), span(26, 28, 0)], b"ok"),
    ] {
        in_every_room(FILL, SCREEN.len() + 1, shown, shown.len(), |out| show(SCREEN, spans, out));
    }
    assert_eq!(show(b"", &[], &mut []), Ok(0));
    assert_eq!(show(b"a", &[], &mut []), Err(Refusal::NoRoom));
}

// Where a part of a bulletin begins in it, and its length.
fn place(bulletin: &[u8], part: &[u8]) -> (usize, usize) {
    (part.as_ptr() as usize - bulletin.as_ptr() as usize, part.len())
}

// Numbers above that of the last stretch of few spans.
const ABOVE: [usize; 6] = [6, u32::MAX as usize, 1 << 32, (1 << 32) + 1, usize::MAX / 3 + 1, usize::MAX];

#[test]
fn stretches() {
    for (bulletin, spans, places) in [
        (SCREEN, &BARS[..], &[(0, 5), (15, 2), (26, 4)][..]),
        (SCREEN, &[], &[(0, 30)]),
        (SCREEN, &[span(0, 30, 0)], &[(0, 0), (30, 0)]),
        (b"<a><b>", &[span(0, 3, 0), span(3, 6, 0)], &[(0, 0), (3, 0), (6, 0)]),
        (b"x<a><b>y", &[span(1, 4, 0), span(4, 7, 0)], &[(0, 1), (4, 0), (7, 1)]),
        (b"", &[], &[(0, 0)]),
    ] {
        for (number, stands) in places.iter().enumerate() {
            assert_eq!(place(bulletin, stretch(bulletin, spans, number)), *stands, "{bulletin:?} {number}");
        }
        for number in [places.len(), places.len() + 1].into_iter().chain(ABOVE) {
            assert_eq!(place(bulletin, stretch(bulletin, spans, number)), (0, 0), "{bulletin:?} {number}");
        }
    }
    assert_eq!([0, 1, 2, 3, usize::MAX].map(|number| stretch(SCREEN, &BARS, number)), [&b"door "[..], b"9\n", b"\n\nok", b"", b""]);
}

// Lists that showing refuses by 12, in every room; each of their stretches is empty, and stands at the front.
#[test]
fn wrong_spans() {
    const MOST: u32 = u32::MAX;
    let [one, two] = BARS;
    for spans in [
        // Out of order; overlapping by a byte, by all, with one within another.
        &[two, one][..],
        &[one, span(14, 26, 1)],
        &[one, one],
        &[one, span(6, 14, 0)],
        &[span(6, 14, 0), one],
        // Past the end.
        &[one, span(17, 31, 1)],
        &[span(30, 31, 0)],
        &[span(31, 32, 0)],
        &[span(5, MOST, 0)],
        &[span(MOST - 1, MOST, 1)],
        &[one, span(17, MOST, 1)],
        // With a stop not above the start.
        &[Span::default()],
        &[span(5, 5, 0), two],
        &[span(30, 30, 0)],
        &[span(15, 5, 0)],
        &[span(MOST, MOST, 0)],
        &[span(MOST, 15, 0), two],
        &[one, two, Span::default()],
        // Of a sort above 1.
        &[span(5, 15, 2), two],
        &[one, span(17, 26, MOST)],
        &[one, span(17, 26, 1 << 16)],
        // A list with what was there before behind what was found.
        &[one, two, FILL_SPAN],
    ] {
        for room in 0..=SCREEN.len() + 1 {
            let mut out = vec![FILL; room];
            assert_eq!(show(SCREEN, spans, &mut out), Err(Refusal::WrongSpans), "{spans:?}");
            assert!(begins(&out, &[], FILL));
        }
        for number in (0..6).chain(ABOVE) {
            assert_eq!(place(SCREEN, stretch(SCREEN, spans, number)), (0, 0), "{spans:?}");
        }
    }
}

// Pseudo-random numbers.
struct Random(u32);

impl Random {
    fn below(&mut self, bound: usize) -> usize {
        self.0 = self.0.wrapping_mul(1_664_525).wrapping_add(1_013_904_223);
        (self.0 >> 8) as usize % bound
    }
}

// In both readings: withholding is finding and then showing, in room that just suffices, and refused with less; the spans are those of pieces, in order, and the
// stretches are all that stands beside them. Gives how many spans each reading finds.
fn in_turn(bulletin: &[u8], flags: &[u8]) -> [usize; 2] {
    READINGS.map(|(find, withhold, block_scan)| {
        let mut spans = vec![FILL_SPAN; bulletin.len()];
        let count = find(bulletin, flags, &mut spans).expect("not refused");
        assert!(begins(&spans[count..], &[], FILL_SPAN));
        spans.truncate(count);
        in_every_room(FILL_SPAN, count + 1, &spans, count, |list| find(bulletin, flags, list));

        let mut shown = vec![FILL; bulletin.len()];
        let length = show(bulletin, &spans, &mut shown).expect("not refused");
        assert!(begins(&shown[length..], &[], FILL));
        shown.truncate(length);
        for (list_room, room) in [(count, length), (bulletin.len(), length), (count, bulletin.len()), (bulletin.len(), bulletin.len())] {
            let (mut list, mut out) = (vec![FILL_SPAN; list_room], vec![FILL; room]);
            assert_eq!(withhold(bulletin, flags, &mut list, &mut out), Ok(Shown { length, pieces: count }));
            assert!(begins(&list, &spans, FILL_SPAN) && begins(&out, &shown, FILL));
        }
        for (list_room, room) in [(count.checked_sub(1), Some(length)), (Some(count), length.checked_sub(1))] {
            let (Some(list_room), Some(room)) = (list_room, room) else { continue };
            let (mut list, mut out) = (vec![FILL_SPAN; list_room], vec![FILL; room]);
            assert_eq!(withhold(bulletin, flags, &mut list, &mut out), Err(Refusal::NoRoom));
            assert!(begins(&list, &[], FILL_SPAN) && begins(&out, &[], FILL));
        }

        let mut from = 0;
        for (number, span) in spans.iter().enumerate() {
            let piece = span.range();
            assert!(from <= piece.start && piece.start < piece.end && piece.end <= bulletin.len());
            if span.is_block() {
                let block = block_scan(bulletin, flags, piece.start).expect("not refused");
                assert_eq!(block.map(|block| block.stop), Some(piece.end));
            } else {
                assert_eq!((span.sort, bulletin[piece.start]), (0, b'<'));
            }
            assert_eq!(place(bulletin, stretch(bulletin, &spans, number)), (from, piece.start - from));
            from = piece.end;
        }
        assert_eq!(place(bulletin, stretch(bulletin, &spans, count)), (from, bulletin.len() - from));
        let stretches: Vec<&[u8]> = (0..=count).map(|number| stretch(bulletin, &spans, number)).collect();
        assert_eq!(stretches.concat(), shown);
        count
    })
}

#[test]
fn found_then_shown() {
    for (bulletin, pieces) in [
        (SCREEN, [2, 2]),
        (b"", [0, 0]),
        (b"\r\n\r", [0, 0]),
        (b"<a><b>", [2, 2]),
        (b"<a>\n\n<b>\r\n\r\n<!-- c", [3, 3]),
        (b"a <b c=d/e>\n<pre/>\n<i 1>", [1, 2]),
        (b"<div>\n\n<![CDATA[x]]]>\n\ny</div>", [2, 3]),
        (br"\<a> \\<b> \\\<c>", [1, 1]),
        (b"\xff<a>\0</a>\xfe", [2, 2]),
    ] {
        assert_eq!(in_turn(bulletin, &vec![0; count_lines(bulletin)]), pieces, "{bulletin:?}");
    }
}

// Of many bulletins put together of such parts, with any flags.
#[test]
fn random_bulletins() {
    const PARTS: [&str; 24] = [
        "<a>", "<b c=\"d\">", "<b c=d/e>", "</a>", "<pre/>", "<pre>", "</pre>", "<div>", "<!--", "-->", "<?", "?>", "<!x", ">", "<![CDATA[", "]]>",
        "\\", "\n", "\n", "\n\n", "\r\n", " ", "x", "é",
    ];
    let mut random = Random(1);
    let (mut pieces, mut differ) = (0, 0);
    for _ in 0..5_000 {
        let bulletin: String = (0..random.below(16)).map(|_| PARTS[random.below(PARTS.len())]).collect();
        let flags: Vec<u8> = (0..count_lines(bulletin.as_bytes())).map(|_| if random.below(2) == 0 { 0 } else { random.below(4) as u8 }).collect();
        let [rust, standard] = in_turn(bulletin.as_bytes(), &flags);
        pieces += rust;
        differ += usize::from(rust != standard);
    }
    assert!(pieces > 5_000 && differ > 100, "{pieces} {differ}");
}

// The places of the stretches; none where the spans are refused.
fn stretches_of(bulletin: &[u8], spans: &[Span]) -> Option<Vec<(usize, usize)>> {
    let mut from = 0;
    let mut stretches = vec![];
    for span in spans {
        let Range { start, end } = span.range();
        if start < from || end <= start || end > bulletin.len() || span.sort > 1 {
            return None;
        }
        stretches.push((from, start - from));
        from = end;
    }
    stretches.push((from, bulletin.len() - from));
    Some(stretches)
}

// Of many lists of spans that were not found, one half of them in order, the other with one number changed.
#[test]
fn random_spans() {
    let bulletin = b"0123456789abcdef";
    let mut random = Random(2);
    let mut taken = 0;
    for _ in 0..20_000 {
        let mut spans = vec![];
        let mut from = 0;
        while from < bulletin.len() && random.below(4) > 0 {
            let start = from + random.below((bulletin.len() - from).min(4));
            from = start + 1 + random.below((bulletin.len() - start).min(4));
            spans.push(span(start as u32, from as u32, random.below(2) as u32));
        }
        if !spans.is_empty() && random.below(2) == 0 {
            let changed = random.below(spans.len());
            let number = if random.below(8) == 0 { u32::MAX - random.below(3) as u32 } else { random.below(20) as u32 };
            match random.below(3) {
                0 => spans[changed].start = number,
                1 => spans[changed].stop = number,
                _ => spans[changed].sort = number,
            }
        }

        let mut out = [FILL; 16];
        let got = show(bulletin, &spans, &mut out);
        let known = stretches_of(bulletin, &spans);
        if let Some(stretches) = &known {
            taken += 1;
            let shown = stretches.iter().map(|&(start, length)| &bulletin[start..][..length]).collect::<Vec<_>>().concat();
            assert_eq!(got, Ok(shown.len()), "{spans:?}");
            assert!(begins(&out, &shown, FILL));
            in_every_room(FILL, shown.len() + 1, &shown, shown.len(), |out| show(bulletin, &spans, out));
        } else {
            assert_eq!(got, Err(Refusal::WrongSpans), "{spans:?}");
            assert!(begins(&out, &[], FILL));
        }
        for number in 0..spans.len() + 2 {
            let stands = known.as_ref().and_then(|stretches| stretches.get(number).copied());
            assert_eq!(place(bulletin, stretch(bulletin, &spans, number)), stands.unwrap_or((0, 0)), "{spans:?}");
        }
    }
    assert!(taken > 5_000 && taken < 19_000, "{taken}");
}

// What the filter makes of a bulletin, all flags 0, with the room that always suffices.
fn filtered_of(bulletin: &[u8]) -> Vec<u8> {
    let mut out = vec![FILL; bulletin.len() * 8 / 5];
    let length = filter(bulletin, &vec![0; count_lines(bulletin)], &mut out).expect("not refused");
    assert!(out[length..].iter().all(|&b| b == FILL), "{bulletin:?}");
    out.truncate(length);
    out
}

// The example of the GitHub Flavored Markdown Spec, in every room.
#[test]
fn filtered() {
    let bulletin = b"<strong> <title> <style> <em>\n\n<blockquote>\n  <xmp> is disallowed.  <XMP> is also disallowed.\n</blockquote>\n";
    let shown = b"<strong> &lt;title> &lt;style> <em>\n\n<blockquote>\n  &lt;xmp> is disallowed.  &lt;XMP> is also disallowed.\n</blockquote>\n";
    in_every_room(FILL, bulletin.len() * 8 / 5, shown, shown.len(), |out| filter(bulletin, &[0; 6], out));
    assert_eq!(filter(b"", &[0], &mut []), Ok(0));
    assert_eq!(filter(b"", &[], &mut []), Err(Refusal::WrongCount));
    assert_eq!(filter(b"a", &[4], &mut []), Err(Refusal::WrongFlag));
    assert_eq!(filter(b"a", &[0], &mut []), Err(Refusal::NoRoom));

    let most = b"<xmp>".repeat(LIMIT / 5);
    assert_eq!(filtered_of(&most), b"&lt;xmp>".repeat(LIMIT / 5));
    let mut short = vec![FILL; LIMIT * 8 / 5 - 1];
    assert_eq!(filter(&most, &[0], &mut short), Err(Refusal::NoRoom));
    assert!(short.iter().all(|&b| b == FILL));
}

// Each of the nine names, in a block and as an inline piece, by what is behind it.
#[test]
fn disallowed() {
    for name in ["title", "textarea", "style", "xmp", "iframe", "noembed", "noframes", "script", "plaintext"] {
        for tag in [name.to_string(), name.to_uppercase(), format!("/{name}"), format!("/{}", name.to_uppercase())] {
            for behind in [">", " >", "\t>", "\n>", "\r>", "\r\n>"] {
                for front in ["<div>", "<!-- ", "a "] {
                    let shown = filtered_of(format!("{front}<{tag}{behind}").as_bytes());
                    assert_eq!(shown, format!("{front}&lt;{tag}{behind}").as_bytes(), "{front}<{tag}{behind:?}");
                }
            }
            for behind in ["", "s>", "-", "1", "/", "/ >", "\">", "<b>"] {
                for front in ["<div>", "<!-- ", "a "] {
                    let text = format!("{front}<{tag}{behind}");
                    assert_eq!(filtered_of(text.as_bytes()), text.as_bytes());
                }
            }
        }
    }
    for (text, shown) in [
        (&b"<div></xmp/>"[..], &b"<div>&lt;/xmp/>"[..]),
        (b"a <xmp/> </xmp/>", b"a &lt;xmp/> </xmp/>"),
        (b"a <!-- <xmp> --> <xmp>", b"a <!-- <xmp> --> &lt;xmp>"),
        (b"<!-- <xmp> -->", b"<!-- &lt;xmp> -->"),
        (b"<div>\n<iframe\n\nx", b"<div>\n&lt;iframe\n\nx"),
        (b"< xmp> <xmp <b>", b"< xmp> <xmp <b>"),
    ] {
        assert_eq!(filtered_of(text), shown, "{text:?}");
    }
}

#[test]
fn blocks() {
    for (text, kind, name, stop, closed, closer) in [
        (&b"<pre>\nx</pre>\ny"[..], Kind::Raw, Some(0), 13, true, 7),
        (b"<!-- x\ny", Kind::Comment, None, 8, false, 8),
        (b"<!--\n--->x-->", Kind::Comment, None, 13, true, 6),
        (b"<?x?>", Kind::Instruction, None, 5, true, 3),
        (b"<!x>>", Kind::Declaration, None, 5, true, 3),
        (b"<![CDATA[]]]>]]>", Kind::Cdata, None, 16, true, 13),
        (b"<div>\n\nx", Kind::Basic, Some(15), 5, false, 5),
        (b"<a>\nx", Kind::Complete, None, 5, false, 5),
    ] {
        let flags = vec![0; count_lines(text)];
        assert_eq!(block_scan(text, &flags, 0), Ok(Some(Block { kind, name, stop, closed, closer })), "{text:?}");
    }
    assert_eq!(block_scan(b"x", &[0], 0), Ok(None));
    assert_eq!(block_scan(b"x", &[0], 1), Err(Refusal::WrongIndex));
    assert_eq!(block_scan(b"x", &[4], 0), Err(Refusal::WrongFlag));
    assert_eq!(block_scan(b"x", &[0, 0], 0), Err(Refusal::WrongCount));

    let complete = Block { kind: Kind::Complete, name: None, stop: 3, closed: false, closer: 3 };
    assert_eq!(block_scan(b"<a>", &[INTERRUPT], 0), Ok(None));
    assert_eq!(block_scan(b"<a>", &[LAZY], 0), Ok(Some(complete)));
    assert_eq!(block_scan(b"<a>", &[INTERRUPT | LAZY], 0), Ok(Some(complete)));
}

// Of each list every name has its place there, letter case ignored; behind `/` and in front of `/>` a raw name is one of kind 7.
#[test]
fn names() {
    for (kind, names) in [(Kind::Raw, &RAW_NAMES[..]), (Kind::Basic, &BLOCK_NAMES[..])] {
        for (place, name) in names.iter().enumerate() {
            for text in [format!("<{name}>"), format!("<{}", name.to_uppercase())] {
                let block = block_scan(text.as_bytes(), &[0], 0).unwrap().unwrap();
                assert_eq!((block.kind, block.name, block.tag_name()), (kind, Some(place as u8), Some(*name)), "{text}");
            }
            for text in [format!("</{name}>"), format!("<{name}/>")] {
                let block = block_scan(text.as_bytes(), &[0], 0).unwrap().unwrap();
                let known = (kind == Kind::Basic).then_some(*name);
                assert_eq!((block.kind == Kind::Complete, block.tag_name()), (known.is_none(), known), "{text}");
            }
        }
    }
    for text in ["<a>", "<!-- -->", "<?pre?>", "<!div>", "<![CDATA[div]]>"] {
        let block = block_scan(text.as_bytes(), &[0], 0).unwrap().unwrap();
        assert_eq!((block.name, block.tag_name()), (None, None), "{text}");
    }
}

#[test]
fn inlines() {
    for carry in 0..=5 {
        assert_eq!(inline_scan(b"<b>", 0, carry), Ok(Inline::Found { stop: 3, carry }));
        assert_eq!(inline_scan(b"<b>", 1, carry), Ok(Inline::Missing { carry }));
        assert_eq!(inline_scan(b"<b>", 3, carry), Ok(Inline::Missing { carry }));
    }
    assert_eq!(inline_scan(b"<![ATA[q]]>", 0, 2), Ok(Inline::Found { stop: 11, carry: 0 }));
    assert_eq!(inline_scan(b"", 0, 0), Ok(Inline::Missing { carry: 0 }));
    assert_eq!(inline_scan(b"<b>", 4, 0), Err(Refusal::WrongIndex));
    assert_eq!(inline_scan(b"<b>", usize::MAX, 0), Err(Refusal::WrongIndex));
    assert_eq!(inline_scan(b"<b>", 0, 6), Err(Refusal::WrongCarry));
    assert_eq!(inline_scan(b"a\n \nb", 0, 0), Err(Refusal::BlankLine));
}

// A line with its flag, and the block that each reading finds there: one where both find it, and one for each of F1 to F6.
#[test]
fn standard_blocks() {
    let complete = |stop| Some(Block { kind: Kind::Complete, name: None, stop, closed: false, closer: stop });
    let cdata = |closed, closer| Some(Block { kind: Kind::Cdata, name: None, stop: 13, closed, closer });
    for (text, flag, rust, standard) in [
        (&b"<a>"[..], LAZY, complete(3), complete(3)),
        (b"<![CDATA[]]]>", 0, cdata(false, 13), cdata(true, 10)),
        (b"<a 1b>", 0, complete(6), None),
        (b"<pre/>", 0, complete(6), None),
        (b"<a b=c/d>", 0, None, complete(9)),
        (b"<a b=c=d>", 0, complete(9), None),
        (b"<a>", INTERRUPT | LAZY, complete(3), None),
    ] {
        assert_eq!(block_scan(text, &[flag], 0), Ok(rust), "{text:?}");
        assert_eq!(standard_block_scan(text, &[flag], 0), Ok(standard), "{text:?}");
    }
    assert_eq!(standard_block_scan(&long(), &[0], 0), Err(Refusal::TooLong));
    assert_eq!(standard_block_scan(b"x", &[0, 0], 0), Err(Refusal::WrongCount));
    assert_eq!(standard_block_scan(b"x", &[4], 0), Err(Refusal::WrongFlag));
    assert_eq!(standard_block_scan(b"x", &[0], 1), Err(Refusal::WrongIndex));
}

// T1 and T2.
#[test]
fn standard_inlines() {
    assert_eq!(inline_scan(b"<a b=c/d>", 0, 0), Ok(Inline::Missing { carry: 0 }));
    for carry in 0..=5 {
        assert_eq!(standard_inline_scan(b"<a b=c/d>", 0, carry), Ok(Inline::Found { stop: 9, carry }));
        assert_eq!(standard_inline_scan(b"<![CDATA[q]]>", 0, carry), Ok(Inline::Found { stop: 13, carry }));
        assert_eq!(standard_inline_scan(b"<![ATA[q]]>", 0, carry), Ok(Inline::Missing { carry }));
        assert_eq!(standard_inline_scan(b"<![CDx", 0, carry), Ok(Inline::Missing { carry }));
    }
    assert_eq!(standard_inline_scan(&long(), 0, 0), Err(Refusal::TooLong));
    assert_eq!(standard_inline_scan(b"<b>", 4, 0), Err(Refusal::WrongIndex));
    assert_eq!(standard_inline_scan(b"<b>", 0, 6), Err(Refusal::WrongCarry));
    assert_eq!(standard_inline_scan(b"a\n \nb", 0, 0), Err(Refusal::BlankLine));
}

#[test]
fn standard_withheld() {
    let bulletin = b"a <b c=d/e>\n<pre/>\n<i 1>";
    let (rust, standard) = (&[span(12, 24, 1)], &[span(2, 11, 0), span(12, 18, 0)]);
    in_every_room(FILL_SPAN, bulletin.len() + 1, standard, 2, |list| standard_find(bulletin, &[0; 3], list));
    in_every_room(FILL_SPAN, bulletin.len() + 1, rust, 1, |list| find(bulletin, &[0; 3], list));
    withholds(standard_withhold, bulletin, standard, b"a \n\n<i 1>");
    withholds(withhold, bulletin, rust, b"a <b c=d/e>\n");
    assert_eq!(standard_withhold(&long(), &[0], &mut [], &mut []), Err(Refusal::TooLong));
    assert_eq!(standard_withhold(b"a", &[0, 0], &mut [], &mut []), Err(Refusal::WrongCount));
    assert_eq!(standard_withhold(b"a", &[4], &mut [], &mut []), Err(Refusal::WrongFlag));
}

#[test]
fn traces() {
    let point = |line, column, index| Point { line, column, index, vs: 0 };
    let mut out = [FILL; 64];

    let length = inline_trace(b"<b>", 0, 0, &mut out).expect("not refused");
    assert_eq!(length, WITHIN);
    assert!(out[length..].iter().all(|&b| b == FILL));
    let records = [
        Record::Enter(Name::HtmlText, point(1, 1, 0)),
        Record::Enter(Name::HtmlTextData, point(1, 1, 0)),
        Record::Exit(Name::HtmlTextData, point(1, 4, 3)),
        Record::Exit(Name::HtmlText, point(1, 4, 3)),
        Record::LastInline { stop: 3, carry: 0 },
    ];
    for (number, record) in records.into_iter().enumerate() {
        assert_eq!(read_trace(&out[..length], number), Ok(record));
    }
    assert_eq!(read_trace(&out[..length], 5), Err(Refusal::CutOff));

    let length = block_trace(b"<div>", &[0], 0, &mut out).expect("not refused");
    let records = [
        Record::Enter(Name::HtmlFlow, point(1, 1, 0)),
        Record::Enter(Name::HtmlFlowData, point(1, 1, 0)),
        Record::Exit(Name::HtmlFlowData, point(1, 6, 5)),
        Record::Exit(Name::HtmlFlow, point(1, 6, 5)),
        Record::LastBlock { stop: 5, kind: Kind::Basic.number() },
    ];
    for (number, record) in records.into_iter().enumerate() {
        assert_eq!(read_trace(&out[..length], number), Ok(record));
    }

    let mut small = [FILL; WITHIN - 1];
    assert_eq!(inline_trace(b"<b>", 0, 0, &mut small), Err(Refusal::NoRoom));
    assert_eq!(block_trace(b"<div>", &[0], 0, &mut small), Err(Refusal::NoRoom));
    assert_eq!(small, [FILL; WITHIN - 1]);
}

// The exits of a piece behind so many lines of two bytes, and of a block whose line has so many tabs: numbers above two bytes.
#[test]
fn far_traces() {
    const FAR: usize = 70_000;
    let mut out = [FILL; WITHIN];
    let text = [&b"a\n".repeat(FAR)[..], b"<b>"].concat();
    let exit = Point { line: FAR + 1, column: 4, index: 2 * FAR + 3, vs: 0 };
    assert_eq!(inline_trace(&text, 2 * FAR, 0, &mut out), Ok(out.len()));
    assert_eq!(read_trace(&out, 3), Ok(Record::Exit(Name::HtmlText, exit)));
    assert_eq!(read_trace(&out, 4), Ok(Record::LastInline { stop: exit.index, carry: 0 }));

    let text = [&b"<!--"[..], &b"\t".repeat(FAR)[..]].concat();
    let exit = Point { line: 1, column: 4 * FAR + 5, index: FAR + 4, vs: 0 };
    assert_eq!(block_trace(&text, &[0], 0, &mut out), Ok(out.len()));
    assert_eq!(read_trace(&out, 3), Ok(Record::Exit(Name::HtmlFlow, exit)));
    assert_eq!(read_trace(&out, 4), Ok(Record::LastBlock { stop: exit.index, kind: Kind::Comment.number() }));
}

// The names of events, in the order of their kinds.
const NAMES: [Name; 6] = [Name::HtmlFlow, Name::HtmlFlowData, Name::LineEnding, Name::HtmlText, Name::HtmlTextData, Name::SpaceOrTab];

#[test]
fn records() {
    let point = Point { line: 0x0102_0304, column: 0x0506_0708, index: 0x090a_0b0c, vs: 13 };
    for kind in 0..=255 {
        let got = read_trace(&[kind, 4, 3, 2, 1, 8, 7, 6, 5, 12, 11, 10, 9, 13], 0);
        let expected = match kind {
            1..=12 if kind % 2 == 1 => Ok(Record::Enter(NAMES[usize::from(kind - 1) / 2], point)),
            1..=12 => Ok(Record::Exit(NAMES[usize::from(kind - 1) / 2], point)),
            13 => Ok(Record::LastInline { stop: 0x0102_0304, carry: 8 }),
            14 => Ok(Record::LastBlock { stop: 0x0102_0304, kind: 8 }),
            _ => Err(Refusal::WrongKind),
        };
        assert_eq!(got, expected);
        if let Ok(record) = got {
            assert_eq!(record.number(), kind);
        }
    }
    // The block kind of a trace is the byte there, whatever it is.
    assert_eq!(read_trace(&[14, 0, 0, 0, 0, 255], 0), Ok(Record::LastBlock { stop: 0, kind: 255 }));
}

// How many bytes a line, column, index or stop has, in a narrow trace and in a wide one, and the greatest number of two bytes.
const NARROW: usize = 2;
const WIDE: usize = 4;
const NARROW_MOST: usize = 65_535;

const EVENT: Record = Record::Exit(Name::LineEnding, Point { line: 1, column: 2, index: 3, vs: 4 });
const LAST: Record = Record::LastInline { stop: 5, carry: 6 };

// The trace of some records, with fields of so many bytes.
fn trace_of(records: &[Record], width: usize) -> Vec<u8> {
    let mut trace = vec![];
    for record in records {
        let (fields, last) = match *record {
            Record::Enter(_, p) | Record::Exit(_, p) => (vec![p.line, p.column, p.index], p.vs),
            Record::LastInline { stop, carry } => (vec![stop], carry),
            Record::LastBlock { stop, kind } => (vec![stop], kind),
        };
        trace.push(record.number());
        for field in fields {
            trace.extend(&field.to_le_bytes()[..width]);
        }
        trace.push(last);
    }
    trace
}

// In every room, the records go across both ways.
fn cross(records: &[Record]) {
    let (narrow, wide) = (trace_of(records, NARROW), trace_of(records, WIDE));
    in_every_room(FILL, wide.len() + 1, &wide, wide.len(), |out| widen_trace(&narrow, out));
    in_every_room(FILL, narrow.len() + 1, &narrow, narrow.len(), |out| narrow_trace(&wide, out));
}

#[test]
fn converted() {
    let point = |line, column, index, vs| Point { line, column, index, vs };
    let mut records = vec![];
    for (n, name) in NAMES.into_iter().enumerate() {
        records.push(Record::Exit(name, point(0x0102 + n, 0x0304 + n, 0x0506 + n, 255)));
        records.push(Record::Enter(name, point(n, NARROW_MOST - n, 256 * n, n as u8)));
    }
    for last in [
        Record::LastInline { stop: 0x0708, carry: 5 },
        Record::LastBlock { stop: 0x0708, kind: 7 },
        Record::LastInline { stop: 0, carry: 255 },
        Record::LastBlock { stop: NARROW_MOST, kind: 255 },
    ] {
        cross(&[last]);
        records.push(last);
        cross(&records);
        records.pop();
    }
    let most = point(NARROW_MOST, NARROW_MOST, NARROW_MOST, 0);
    cross(&[Record::Enter(Name::HtmlText, most), Record::LastInline { stop: NARROW_MOST, carry: 0 }]);

    // Both have more bytes than a bulletin may have.
    let mut many = vec![EVENT; LIMIT / 8];
    many.push(LAST);
    let (narrow, wide) = (trace_of(&many, NARROW), trace_of(&many, WIDE));
    let mut out = vec![FILL; wide.len()];
    assert!(narrow.len() > LIMIT && wide.len() > LIMIT);
    assert_eq!(widen_trace(&narrow, &mut out), Ok(wide.len()));
    assert!(out == wide);
    out.fill(FILL);
    assert_eq!(narrow_trace(&wide, &mut out), Ok(narrow.len()));
    assert!(out[..narrow.len()] == narrow && out[narrow.len()..].iter().all(|&b| b == FILL));
}

// In every room a conversion is refused so, and no byte of the buffer changes.
fn refuse(refusal: Refusal, trace: &[u8], convert: fn(&[u8], &mut [u8]) -> Result<usize, Refusal>) {
    for room in 0..100 {
        let mut out = vec![FILL; room];
        assert_eq!(convert(trace, &mut out), Err(refusal), "{trace:?}");
        assert!(out.iter().all(|&b| b == FILL));
    }
}

// A wrong kind and a cut everywhere, and traces without exactly one last record at their end, both ways.
#[test]
fn wrong_traces() {
    for (convert, width) in [(widen_trace as fn(&[u8], &mut [u8]) -> Result<usize, Refusal>, NARROW), (narrow_trace, WIDE)] {
        let records = [EVENT, LAST, LAST, EVENT];
        let whole = trace_of(&records, width);
        let ends = [0, 1, 2, 3, 4].map(|count| trace_of(&records[..count], width).len());
        for length in (0..whole.len()).filter(|&length| length != ends[2]) {
            let refusal = if ends.contains(&length) { Refusal::NotEnded } else { Refusal::CutOff };
            refuse(refusal, &whole[..length], convert);
        }
        for &at in &ends[..4] {
            for kind in [0, 15, 255] {
                let mut trace = whole.clone();
                trace[at] = kind;
                refuse(Refusal::WrongKind, &trace, convert);
                refuse(Refusal::WrongKind, &trace[..at + 1], convert);
            }
        }
        for records in [&records[..], &[EVENT, LAST, EVENT], &[LAST, EVENT], &[LAST, EVENT, LAST], &[EVENT, EVENT]] {
            refuse(Refusal::NotEnded, &trace_of(records, width), convert);
        }
    }
}

// A field above two bytes alone, and what comes before it.
#[test]
fn above_narrow() {
    for above in [NARROW_MOST + 1, 0x0100_0000, u32::MAX as usize] {
        for (line, column, index, stop) in [(above, 0, 0, 0), (0, above, 0, 0), (0, 0, above, 0), (0, 0, 0, above)] {
            let event = Record::Enter(Name::HtmlFlow, Point { line, column, index, vs: 0 });
            for last in [Record::LastInline { stop, carry: 0 }, Record::LastBlock { stop, kind: 0 }] {
                refuse(Refusal::NotNarrow, &trace_of(&[event, EVENT, last], WIDE), narrow_trace);
                let trace = trace_of(&[EVENT, event, last], WIDE);
                refuse(Refusal::NotNarrow, &trace, narrow_trace);
                refuse(Refusal::NotEnded, &[&trace[..], &trace].concat(), narrow_trace);
                refuse(Refusal::WrongKind, &[&trace[..], &[15]].concat(), narrow_trace);
                refuse(Refusal::CutOff, &[&trace[..], &[12]].concat(), narrow_trace);
            }
        }
    }
}

#[test]
fn refusals() {
    let all = [
        Refusal::TooLong,
        Refusal::WrongCount,
        Refusal::WrongFlag,
        Refusal::WrongIndex,
        Refusal::WrongCarry,
        Refusal::BlankLine,
        Refusal::NoRoom,
        Refusal::WrongKind,
        Refusal::CutOff,
        Refusal::NotEnded,
        Refusal::NotNarrow,
        Refusal::WrongSpans,
    ];
    for (number, refusal) in (1..).zip(all) {
        assert_eq!(refusal.number(), number);
        assert!(!refusal.to_string().is_empty());
    }
    let error: Box<dyn std::error::Error> = Box::new(Refusal::NoRoom);
    assert_eq!(error.to_string(), "the output buffer, or the list of spans, is shorter than the output needs");
}
