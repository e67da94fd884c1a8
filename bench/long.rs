//! What the library costs by length, up to the limit of 1,000,000 bytes: withholding, at once and by finding and showing, the tag filter, scans, traces, reading a trace,
//! taking it narrow and wide, and counting lines. bench/run.sh builds and runs it.
//!
//! The calls of a line, at each length, take turns; all lines are gone through several times, and those with a call above a bound several times more; the least time
//! counts. At the end stand the calls above a bound, and the status is 1 where there is one. It holds for an idle machine: other work can only make a call slower, but
//! that of the short text too. Showing where nothing is withheld only copies: of such calls the growth has no bound.
#![forbid(unsafe_code)]

use foringamo::{Inline, Record, Refusal, Span, LIMIT};
use measure::inputs::{between, filtered_bulletins, flags, in_no_order, list, texts, units, Bulletin, AT_THE_FRONT, IN_A_PARAGRAPH, PROSE, RICH};
use measure::{commas, head, row, Turns, Work};
use std::cell::RefCell;
use std::hint::black_box;
use std::process::ExitCode;
use std::rc::Rc;
use std::time::Duration;

const LENGTHS: [usize; 5] = [SHORT, 125_000, 250_000, 500_000, LIMIT];
const SHORT: usize = 16_000;

// The bounds: of the time a byte at the limit, to that of the short text; and of a call at the limit.
const MOST_GROWTH: f64 = 1.5;
const MOST_MILLISECONDS: f64 = 100.0;

// A call that at the limit takes no longer than so many copies of the text does little else, and its growth, which is the memory's, has no bound.
const COPIES: f64 = 2.0;

const TURNS: Turns = Turns { rounds: 8, enough: Duration::from_millis(60) };
const PASSES: usize = 6;

// The bytes of an event in a trace, and of the last record.
const EVENT: usize = 14;
const LAST: usize = 6;

// The last kind of an event, and that of an inline trace's last record.
const LAST_EVENT: u8 = 12;
const LAST_TEXT: u8 = 13;

// Room for every output: a trace has at most two events for a byte (include/foringamo.h), and nothing is longer.
const ROOM: usize = 2 * LIMIT * EVENT + LAST;

// ---- calls

// What a call is given: a text with its flags, an index, and for a bulletin the spans that are found in it; or a trace and the number of a record.
struct Given {
    text: Vec<u8>,
    flags: Vec<u8>,
    index: usize,
    spans: Vec<Span>,
}

// What a call is lent: a list with room for the spans of any bulletin, and an output buffer.
struct Lent<'a> {
    spans: &'a mut [Span],
    out: &'a mut [u8],
}

// It gives the bytes written, a stop, or a count.
type Call = fn(&Given, Lent) -> Result<usize, Refusal>;

fn withhold(given: &Given, lent: Lent) -> Result<usize, Refusal> {
    Ok(foringamo::withhold(&given.text, &given.flags, lent.spans, lent.out)?.length)
}

fn standard_withhold(given: &Given, lent: Lent) -> Result<usize, Refusal> {
    Ok(foringamo::standard_withhold(&given.text, &given.flags, lent.spans, lent.out)?.length)
}

fn find(given: &Given, lent: Lent) -> Result<usize, Refusal> {
    foringamo::find(&given.text, &given.flags, lent.spans)
}

fn show(given: &Given, lent: Lent) -> Result<usize, Refusal> {
    foringamo::show(&given.text, &given.spans, lent.out)
}

fn filter(given: &Given, lent: Lent) -> Result<usize, Refusal> {
    foringamo::filter(&given.text, &given.flags, lent.out)
}

fn inline_scan(given: &Given, _: Lent) -> Result<usize, Refusal> {
    match foringamo::inline_scan(&given.text, given.index, 0)? {
        Inline::Found { stop, .. } => Ok(stop),
        Inline::Missing { .. } => Ok(given.index),
    }
}

fn inline_trace(given: &Given, lent: Lent) -> Result<usize, Refusal> {
    foringamo::inline_trace(&given.text, given.index, 0, lent.out)
}

fn block_scan(given: &Given, _: Lent) -> Result<usize, Refusal> {
    let block = foringamo::block_scan(&given.text, &given.flags, given.index)?;
    Ok(block.map_or(given.index, |block| block.stop))
}

fn block_trace(given: &Given, lent: Lent) -> Result<usize, Refusal> {
    foringamo::block_trace(&given.text, &given.flags, given.index, lent.out)
}

fn read_last(given: &Given, _: Lent) -> Result<usize, Refusal> {
    match foringamo::read_trace(&given.text, given.index)? {
        Record::LastInline { stop, .. } | Record::LastBlock { stop, .. } => Ok(stop),
        event => panic!("{event:?} is not the last record"),
    }
}

fn narrow_trace(given: &Given, lent: Lent) -> Result<usize, Refusal> {
    foringamo::narrow_trace(&given.text, lent.out)
}

fn widen_trace(given: &Given, lent: Lent) -> Result<usize, Refusal> {
    foringamo::widen_trace(&given.text, lent.out)
}

fn count_lines(given: &Given, _: Lent) -> Result<usize, Refusal> {
    Ok(foringamo::count_lines(&given.text))
}

// Not the library's: what the memory takes.
fn copy(given: &Given, lent: Lent) -> Result<usize, Refusal> {
    let length = given.text.len();
    lent.out[..length].copy_from_slice(&given.text);
    Ok(length)
}

// As many bytes as the events of the longest trace have.
fn fill(given: &Given, lent: Lent) -> Result<usize, Refusal> {
    let length = 2 * given.text.len() * EVENT;
    lent.out[..length].fill(given.text[0]);
    Ok(length)
}

// ---- texts

// The first `<`, or the front where there is none.
fn opening(text: &[u8]) -> usize {
    text.iter().position(|&byte| byte == b'<').unwrap_or(0)
}

fn line_start(text: &[u8], index: usize) -> usize {
    text[..index].iter().rposition(|&byte| byte == b'\n').map_or(0, |i| i + 1)
}

fn at_opening(text: Vec<u8>) -> Given {
    Given { index: opening(&text), flags: flags(&text), text, spans: vec![] }
}

fn at_line(text: Vec<u8>) -> Given {
    Given { index: line_start(&text, opening(&text)), ..at_opening(text) }
}

fn bulletin(text: Vec<u8>) -> Given {
    let given = at_opening(text);
    let mut spans = list(&given.text);
    let count = foringamo::find(&given.text, &given.flags, &mut spans).expect("not refused");
    Given { spans: spans[..count].to_vec(), ..given }
}

// With nothing but bytes.
fn of_trace(text: Vec<u8>, index: usize) -> Given {
    Given { text, flags: vec![], index, spans: vec![] }
}

// With an output buffer and no list.
fn only(out: &mut [u8]) -> Lent<'_> {
    Lent { spans: &mut [], out }
}

// The trace of a text, and the number of its last record.
fn trace_of(given: Given, trace: Call) -> Given {
    let mut records = vec![0; ROOM];
    let length = trace(&given, only(&mut records)).expect("not refused");
    of_trace(records[..length].to_vec(), (length - LAST) / EVENT)
}

// A wide trace with two events for each byte of a text, as long as one of a scan can be, whose numbers fit two bytes.
fn wide_trace(text: Vec<u8>) -> Given {
    let mut trace = Vec::with_capacity(2 * text.len() * EVENT + LAST);
    for number in 0..2 * text.len() {
        trace.push(1 + (number % usize::from(LAST_EVENT)) as u8);
        for field in [number, number / 32, number * 7] {
            trace.extend_from_slice(&u32::from(field as u16).to_le_bytes());
        }
        trace.push(0);
    }
    trace.extend_from_slice(&[LAST_TEXT, 1, 0, 0, 0, 0]);
    of_trace(trace, 0)
}

// The same, narrow.
fn old_trace(text: Vec<u8>) -> Given {
    let wide = wide_trace(text);
    let mut narrow = vec![0; wide.text.len()];
    let length = narrow_trace(&wide, only(&mut narrow)).expect("it fits");
    narrow.truncate(length);
    Given { text: narrow, ..wide }
}

// Two line endings in a row, which no inline text has.
fn has_blank_line(text: &Bulletin) -> bool {
    (text.of_length)(SHORT).windows(2).any(|two| two == b"\n\n")
}

fn screened_texts() -> Vec<Bulletin> {
    let mut all = filtered_bulletins();
    all.push(between("`<t` and a line ending", "", "<t\n", ""));
    all.push(in_no_order("short lines in no order", "", &["<t\n", "<b\n", "<h\n", "<\n", "x\n", "\n"], ""));
    all
}

// Each one paragraph.
fn inline_texts() -> Vec<Bulletin> {
    let lines = [
        ("prose, one paragraph", "", &PROSE[..PROSE.len() - 1], ""),
        ("rich in HTML, one paragraph", "", &RICH[..RICH.find("\n\n").unwrap() + 1], ""),
        ("comment, prose", "<!--", "the stairs are shut\n", "-->"),
        ("comment, one line", "<!--", "x", "-->"),
        ("comment, one line of tabs", "<!--", "\t", "-->"),
        ("comment, lines of a byte", "<!--", "x\n", "-->"),
        ("comment, lines of a byte, CR", "<!--", "x\r", "-->"),
        ("comment, lines of a byte, CR LF", "<!--", "x\r\n", "-->"),
        ("comment, lines of a space and a byte", "<!--", "\n x", "-->"),
        ("comment, lines of a tab and a byte", "<!--", "\n\tx", "-->"),
        ("comment, lines of many tabs and a byte", "<!--", "\n\t\t\t\t\t\t\t\t\t\t\t\t\t\t\t\tx", "-->"),
        ("comment, `-` on each line", "<!--", "x-\n-", "-->"),
        ("instruction, `?` on each line", "<?", "?\n", "?>"),
        ("declaration, lines of a byte", "<!a", "x\n", ">"),
        ("CDATA, `]]` on each line", "<![CDATA[", "]]\n", "]]>"),
        ("tag, a value of lines of a byte", "<a b=\"", "x\n", "\">"),
        ("tag, an attribute on each line", "<a", "\nb", ">"),
        ("tag, values", "<a", "\nb='c' d=e", "       >"),
        ("tag, spaces", "<a", " ", ">"),
        ("closing tag, spaces", "</a", " ", ">"),
        ("tag behind lines of a byte", "", "x\n", "<b>"),
        ("comment, lines of a byte, not closed", "<!--", "x\n", ""),
    ];
    let mut all: Vec<Bulletin> = lines.into_iter().map(|(what, front, unit, end)| between(what, front, unit, end)).collect();
    all.push(in_no_order("comment, lines in no order", "<!--", &["x\n", "xx\r", " x\r\n", "\tx\n", "xxx "], "-->"));
    all.extend(texts().into_iter().filter(|text| !has_blank_line(text)));
    all.extend(units(IN_A_PARAGRAPH));
    all
}

fn block_texts() -> Vec<Bulletin> {
    let blocks = [
        ("1 raw, a broken closer on each line", "<pre>\n", "</pr\n", "</pre>"),
        ("2 comment, prose", "<!--\n", "the stairs are shut\n", "-->"),
        ("2 comment, one line", "<!--", "x", "-->"),
        ("2 comment, one line of tabs", "<!--", "\t", "-->"),
        ("2 comment, `--` on each line", "<!--\n", "--\n", "-->"),
        ("3 instruction, `?` on each line", "<?", "?\n", "?>"),
        ("3 instruction, line endings, not closed", "<?", "\n", ""),
        ("3 instruction, CR, not closed", "<?", "\r", ""),
        ("3 instruction, CR LF, not closed", "<?", "\r\n", ""),
        ("4 declaration, lines of a byte", "<!a\n", "x\n", ">"),
        ("5 CDATA, `]]` on each line", "<![CDATA[\n", "]]\n", "]]>"),
        ("6 basic, prose", "<div>\n", "the stairs are shut\n", ""),
        ("6 basic, lines of a byte", "<div>\n", "x\n", ""),
        ("6 basic, lines of a space and a byte", "<div>\n", " x\n", ""),
        ("6 basic, lines of a tab and a byte", "<div>\n", "\tx\n", ""),
        ("7 complete, lines of a byte", "<map-part>\n", "x\n", ""),
        ("6 basic, behind lines of a byte", "", "x\n", "\n<div>"),
    ];
    let mut all: Vec<Bulletin> = blocks.into_iter().map(|(what, front, unit, end)| between(what, front, unit, end)).collect();
    all.push(in_no_order("3 instruction, lines in no order", "<?", &["\n", "\r", "\r\n", "x\n", "xxx\n"], ""));
    all.extend(texts());
    all.extend(units(AT_THE_FRONT));
    all
}

fn counted_texts() -> Vec<Bulletin> {
    let all = [("one line", "x"), ("LF", "\n"), ("CR", "\r"), ("CR LF", "\r\n")];
    all.into_iter().map(|(what, unit)| between(what, "", unit, "")).collect()
}

// ---- tables

// A call, and the room that it gets for a text's length; none: no more than it writes.
struct Column {
    name: &'static str,
    call: Call,
    room: Option<fn(usize) -> usize>,
}

// With room enough for anything.
fn roomy(name: &'static str, call: Call) -> Column {
    Column { name, call, room: Some(|_| ROOM) }
}

// A text. The works are those of the first column, for each length, and so on.
struct Line {
    what: String,
    works: Vec<Work>,
    // What the last call gives at the limit.
    gives: usize,
}

struct Table {
    title: &'static str,
    columns: Vec<Column>,
    // What `gives` is.
    gives: &'static str,
    lines: Vec<Line>,
}

// The list and the output buffer of all calls.
struct Buffers {
    spans: Vec<Span>,
    out: Vec<u8>,
}

impl Buffers {
    fn lend(&mut self, room: usize) -> Lent<'_> {
        Lent { spans: &mut self.spans, out: &mut self.out[..room] }
    }
}

type Out = Rc<RefCell<Buffers>>;

// A call's work, and what it gives.
fn work(column: &Column, given: &Rc<Given>, out: &Out) -> (Work, usize) {
    let (call, given, out) = (column.call, Rc::clone(given), Rc::clone(out));
    let most = column.room.map_or(ROOM, |room| room(given.text.len()));
    let gives = call(&given, out.borrow_mut().lend(most)).expect("not refused");
    let room = if column.room.is_some() { most } else { gives };
    let run = move || {
        let mut out = out.borrow_mut();
        black_box(call(black_box(&given), black_box(out.lend(room)))).expect("not refused");
    };
    (Work::new(run), gives)
}

impl Table {
    fn new(title: &'static str, columns: Vec<Column>, gives: &'static str) -> Table {
        Table { title, columns, gives, lines: vec![] }
    }

    fn add(&mut self, text: Bulletin, given: fn(Vec<u8>) -> Given, out: &Out) {
        let givens = LENGTHS.map(|length| Rc::new(given((text.of_length)(length))));
        let calls = self.columns.iter().flat_map(|column| givens.iter().map(move |given| work(column, given, out)));
        let (works, gives): (Vec<Work>, Vec<usize>) = calls.unzip();
        self.lines.push(Line { what: text.what, works, gives: gives[gives.len() - 1] });
    }

    fn with(mut self, texts: Vec<Bulletin>, given: fn(Vec<u8>) -> Given, out: &Out) -> Table {
        for text in texts {
            self.add(text, given, out);
        }
        self
    }

    fn pass(&mut self) {
        for line in &mut self.lines {
            TURNS.take(&mut line.works);
        }
    }

    // The lines with a call above a bound.
    fn pass_above(&mut self, copy: &Cost) {
        for line in &mut self.lines {
            if !costs(&self.columns, line).iter().all(|cost| cost.is_within(copy)) {
                TURNS.take(&mut line.works);
            }
        }
    }

    fn costs(&self) -> Vec<Cost> {
        self.lines.iter().flat_map(|line| costs(&self.columns, line)).collect()
    }

    // With what is above a bound in bold, where the bounds are for these calls.
    fn print(&self, copy: Option<&Cost>) {
        let is_above = |cost: &Cost| copy.is_some_and(|copy| !cost.is_within(copy));
        let mut heads = vec![self.title];
        heads.extend(self.columns.iter().flat_map(|column| [column.name, "growth"]));
        heads.push(self.gives);
        head(&heads);
        for line in &self.lines {
            let mut cells = vec![line.what.clone()];
            cells.extend(costs(&self.columns, line).iter().flat_map(|cost| cost.cells(is_above(cost))));
            cells.push(commas(line.gives as f64));
            row(&cells);
        }
    }
}

fn bulletin_table(out: &Out) -> Table {
    let columns = vec![
        Column { name: "withhold", call: withhold, room: Some(|length| length) },
        Column { name: "standard_withhold", call: standard_withhold, room: Some(|length| length) },
        roomy("find", find),
        Column { name: "show", call: show, room: Some(|length| length) },
        Column { name: "filter", call: filter, room: Some(|length| length * 8 / 5) },
        Column { name: "filter, exact room", call: filter, room: None },
    ];
    Table::new("bulletin", columns, "filtered, bytes").with(screened_texts(), bulletin, out)
}

fn inline_table(out: &Out) -> Table {
    let columns = vec![roomy("inline_scan", inline_scan), roomy("inline_trace", inline_trace)];
    Table::new("inline text", columns, "trace, bytes").with(inline_texts(), at_opening, out)
}

fn block_table(out: &Out) -> Table {
    let columns = vec![roomy("block_scan", block_scan), roomy("block_trace", block_trace)];
    Table::new("block", columns, "trace, bytes").with(block_texts(), at_line, out)
}

fn reading_table(out: &Out) -> Table {
    let comment = between("inline comment, lines of a byte", "<!--", "x\n", "-->");
    let endings = between("block, `<?` and line endings", "<?", "\n", "");
    let table = Table::new("last record of a trace", vec![roomy("read_trace", read_last)], "stop");
    let inline = table.with(vec![comment], |text| trace_of(at_opening(text), inline_trace), out);
    inline.with(vec![endings], |text| trace_of(at_line(text), block_trace), out)
}

// By bytes of the text whose trace it could be: 28 of a wide trace, 16 of a narrow one.
fn narrowing_table(out: &Out) -> Table {
    let table = Table::new("wide trace", vec![roomy("narrow_trace", narrow_trace)], "trace, bytes");
    table.with(vec![between("two events a byte", "", "x", "")], wide_trace, out)
}

fn widening_table(out: &Out) -> Table {
    let table = Table::new("narrow trace", vec![roomy("widen_trace", widen_trace)], "trace, bytes");
    table.with(vec![between("two events a byte", "", "x", "")], old_trace, out)
}

fn counting_table(out: &Out) -> Table {
    Table::new("text", vec![roomy("count_lines", count_lines)], "lines").with(counted_texts(), at_opening, out)
}

fn memory_table(out: &Out) -> Table {
    let columns = vec![roomy("memcpy", copy), roomy("memset of 28 bytes a byte", fill)];
    Table::new("memory, for comparison", columns, "bytes set").with(vec![between("one line", "", "x", "")], at_opening, out)
}

// ---- costs

// What a call takes for each length, in nanoseconds a byte.
struct Cost {
    call: String,
    nanoseconds: Vec<f64>,
}

fn costs(columns: &[Column], line: &Line) -> Vec<Cost> {
    let works = line.works.chunks(LENGTHS.len());
    works.zip(columns).map(|(works, column)| Cost::new(format!("{}: {}", column.name, line.what), works)).collect()
}

impl Cost {
    fn new(call: String, works: &[Work]) -> Cost {
        let nanoseconds = works.iter().zip(LENGTHS).map(|(work, length)| work.least * 1e9 / length as f64).collect();
        Cost { call, nanoseconds }
    }

    // At the limit.
    fn last(&self) -> f64 {
        self.nanoseconds[LENGTHS.len() - 1]
    }

    fn milliseconds(&self) -> f64 {
        self.last() * LIMIT as f64 / 1e6
    }

    // How the time a byte grows from the short text to the limit.
    fn growth(&self) -> f64 {
        self.last() / self.nanoseconds[0]
    }

    fn only_copies(&self, copy: &Cost) -> bool {
        self.last() <= COPIES * copy.last()
    }

    fn is_within(&self, copy: &Cost) -> bool {
        (self.only_copies(copy) || self.growth() <= MOST_GROWTH) && self.milliseconds() <= MOST_MILLISECONDS
    }

    fn cells(&self, bold: bool) -> [String; 2] {
        let all: Vec<String> = self.nanoseconds.iter().map(|&nanoseconds| three(nanoseconds)).collect();
        let mark = if bold { "**" } else { "" };
        [format!("{mark}{}{mark}", all.join(" ")), format!("{mark}{:.2}{mark}", self.growth())]
    }

    fn print(&self) {
        println!("{}: {:.1} ms, growth {:.2}", self.call, self.milliseconds(), self.growth());
    }
}

// Three digits.
fn three(number: f64) -> String {
    match number {
        _ if number < 1.0 => format!("{number:.3}"),
        _ if number < 10.0 => format!("{number:.2}"),
        _ => format!("{number:.1}"),
    }
}

// Prints how the costs stand to the bounds, and tells whether all are within.
fn judge(costs: &[Cost], copy: &Cost) -> bool {
    let mut growths: Vec<f64> = costs.iter().filter(|cost| !cost.only_copies(copy)).map(Cost::growth).collect();
    growths.sort_by(f64::total_cmp);
    let (least, middle, most) = (growths[0], growths[growths.len() / 2], growths[growths.len() - 1]);
    println!("\n{} calls: growth {least:.2} to {most:.2}, {middle:.2} in the middle.", growths.len());
    println!("{} others take no longer than {COPIES} copies.", costs.len() - growths.len());
    let slowest = costs.iter().max_by(|one, other| one.last().total_cmp(&other.last())).expect("there are calls");
    print!("The slowest: ");
    slowest.print();
    let above: Vec<&Cost> = costs.iter().filter(|cost| !cost.is_within(copy)).collect();
    println!("Above a growth of {MOST_GROWTH} or {MOST_MILLISECONDS} ms: {}.", above.len());
    above.iter().for_each(|cost| cost.print());
    above.is_empty()
}

fn main() -> ExitCode {
    let out: Out = Rc::new(RefCell::new(Buffers { spans: vec![Span::default(); LIMIT], out: vec![1; ROOM] }));
    let mut tables = [bulletin_table, inline_table, block_table, reading_table, narrowing_table, widening_table, counting_table].map(|table| table(&out));
    let mut memory = memory_table(&out);
    for _ in 0..PASSES {
        tables.iter_mut().for_each(Table::pass);
        memory.pass();
    }
    let copy = memory.costs().swap_remove(0);
    for _ in 0..PASSES {
        tables.iter_mut().for_each(|table| table.pass_above(&copy));
    }
    println!("\n### By length");
    tables.iter().for_each(|table| table.print(Some(&copy)));
    memory.print(None);
    let costs: Vec<Cost> = tables.iter().flat_map(Table::costs).collect();
    if judge(&costs, &copy) {
        ExitCode::SUCCESS
    } else {
        ExitCode::FAILURE
    }
}
