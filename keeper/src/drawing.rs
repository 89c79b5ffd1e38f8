//! A network as a drawing: its lookups in a column on the left, a row for each; gates to the right of what they take,
//! one step for each gate on the longest way there; the answer on the right.
//!
//! Where a wire could be misread, the gate has the number of the record that it would come from.

use crate::layout::{BELOW, Layout, Place, ROW, times_taken};
use crate::library::{Gate, Network, Record};
use crate::listing::label;
use crate::names::{Names, count, many};

/// With more records than this a drawing is hard to read.
pub const READABLE: usize = 128;

/// By this line behind the opening tag the program knows its own drawings.
const MARK: &str = "<!-- drawn by keeper -->";

const TOP: f64 = 62.0;
const STEP: f64 = 64.0;
const GATE: f64 = 44.0;
/// How far before a gate its wires run upright.
const TURN: f64 = 11.0;
const STUB: f64 = 7.0;
const LINE: f64 = 16.0;
/// Digits are this wide at the size of a gate's number.
const DIGIT: f64 = 6.5;

/// Whether a file is a drawing of this program.
pub fn is_drawing(bytes: &[u8]) -> bool {
    let mut lines = bytes.split(|&byte| byte == b'\n');
    lines.next().is_some_and(|line| line.starts_with(b"<svg ")) && lines.next() == Some(MARK.as_bytes())
}

/// Why a drawing of these records is hard to read, if it is.
pub fn hard_to_read(records: &[Record]) -> Option<String> {
    let reasons = reasons(records, &Layout::of(records));
    (!reasons.is_empty()).then(|| reasons.join(". "))
}

pub fn draw(network: &Network, names: &Names, title: &str) -> String {
    let records = network.records();
    let numbered = |(number, record)| format!("{number}  {}", label(record, names));
    let labels: Vec<String> = records.iter().enumerate().map(numbered).collect();
    let layout = Layout::of(&records);
    let mut caption = title.to_string() + ": " + &many(records.len(), "record");
    match layout.places[records.len() - 1].depth {
        0 => {}
        depth => caption += &format!(", {} deep", many(depth, "gate")),
    }
    let reasons = reasons(&records, &layout);
    let sheet = Sheet::new(&labels, layout, reasons.len());
    let legend = sheet.legend();
    let texts = reasons.iter().chain([&legend]).map(|text| width(text)).fold(width(&caption) * 1.1, f64::max);
    let (wide, high) = ((sheet.answer + 52.0).max(20.0 + texts).max(430.0), sheet.bottom + 34.0);

    let mut out = opening(wide, high, &caption);
    for (line, reason) in reasons.iter().enumerate() {
        out += &small_text(24.0 + LINE * (line + 1) as f64, reason);
    }
    out += &sheet.wires();
    out += &sheet.grade();
    let taken = times_taken(&records);
    for (number, record) in records.iter().enumerate() {
        let unused = taken[number] == 0 && number + 1 < records.len();
        out += &match record {
            Record::Gate { gate, left, right, .. } => sheet.gate_box(number, *gate, (*left, *right), unused),
            _ => sheet.lookup_box(number, &labels[number], unused),
        };
    }
    if !legend.is_empty() {
        out += &small_text(high - 12.0, &legend);
    }
    out + "</svg>\n"
}

/// What makes a drawing hard to read, a line for each.
fn reasons(records: &[Record], layout: &Layout) -> Vec<String> {
    let mut reasons = Vec::new();
    if records.len() > READABLE {
        reasons.push(format!("{} records are many for a drawing", count(records.len())));
    }
    let times = times_taken(records);
    let often = times.iter().filter(|&&times| times > 1).count();
    let never = times.iter().rev().skip(1).filter(|&&times| times == 0).count();
    let records_are = |number| many(number, "record") + if number == 1 { " is" } else { " are" };
    match (often, never) {
        (0, 0) => {}
        (0, _) => reasons.push(records_are(never) + " never taken (dashed)"),
        (_, 0) => reasons.push(records_are(often) + " taken more than once"),
        _ => reasons.push(format!("{} taken more than once, {} never (dashed)", records_are(often), count(never))),
    }
    let stubs = layout.inputs.iter().any(|input| !input.wired);
    let place = match (stubs, layout.answer_wired) {
        (true, true) => Some("a gate"),
        (true, false) => Some("a gate or the grade"),
        (false, false) => Some("the grade"),
        (false, true) => None,
    };
    if let Some(place) = place {
        reasons.push(format!("A number left of {place} stands for a wire from that record"));
    }
    if let Some(last) = reasons.last_mut() {
        *last += ": keeper list is easier to read";
    }
    reasons
}

/// A layout on its sheet.
struct Sheet {
    layout: Layout,
    /// Where the lookups end.
    column: f64,
    step: f64,
    top: f64,
    bottom: f64,
    answer: f64,
}

impl Sheet {
    fn new(labels: &[String], layout: Layout, lines: usize) -> Sheet {
        let widest = layout.columns[0].iter().map(|&number| width(&labels[number])).fold(0.0, f64::max);
        let column = 30.0 + widest.ceil();
        // Columns are as far apart as the numbers at stubs ask for.
        let answer = (!layout.answer_wired).then_some(layout.places.len() - 1);
        let stubs = layout.inputs.iter().filter(|input| !input.wired).map(|input| input.from).chain(answer);
        let digits = stubs.max().map_or(0, |number| number.to_string().len());
        let more = (DIGIT * digits as f64 - 6.0).max(0.0).ceil();
        let top = TOP + LINE * lines as f64;
        let rows = ROW * layout.columns[0].len() as f64;
        let bottom = top + layout.places.iter().map(|place| place.y + BELOW).fold(rows, f64::max);
        let mut sheet = Sheet { layout, column, step: STEP + more, top, bottom, answer: 0.0 };
        let last = sheet.layout.columns.len() - 1;
        sheet.answer = 18.0 + more + if last == 0 { column } else { sheet.left(last) + GATE };
        sheet
    }

    /// Where the boxes of a column of gates begin.
    fn left(&self, depth: usize) -> f64 {
        self.column - 20.0 + self.step * depth as f64
    }

    /// Where a wire leaves a record.
    fn end(&self, number: usize) -> (f64, f64) {
        let Place { depth, y } = self.layout.places[number];
        (if depth == 0 { self.column } else { self.left(depth) + GATE }, self.top + y)
    }

    fn wires(&self) -> String {
        let mut out = String::new();
        for input in &self.layout.inputs {
            let (x, y) = (self.left(self.layout.places[input.to].depth), self.top + input.port);
            if !input.wired {
                let side = if input.port < self.layout.places[input.to].y { -3.0 } else { 3.0 };
                out += &stub(input.from, (x, y), side);
                continue;
            }
            let (start, level) = self.end(input.from);
            out += &format!(
                "<path class=\"wire\" d=\"M{start:.0} {level:.1}H{:.0}V{y:.1}H{x:.0}\" fill=\"none\" stroke=\"#555\"/>\n",
                x - TURN
            );
        }
        for (depth, y) in self.layout.forks() {
            let (x, y) = (self.left(depth) - TURN, self.top + y);
            out += &format!("<circle cx=\"{x:.0}\" cy=\"{y:.1}\" r=\"2.5\" fill=\"#555\"/>\n");
        }
        out
    }

    fn grade(&self) -> String {
        let (answer, last) = (self.answer, self.layout.places.len() - 1);
        let (end, y) = self.end(last);
        let wire = match self.layout.answer_wired {
            true => format!("<path d=\"M{end:.0} {y:.1}H{answer:.0}\" stroke=\"#555\"/>\n"),
            false => stub(last, (answer, y), 0.0),
        };
        let (x, base) = (answer + 5.0, y + 4.5);
        wire + &format!("<text x=\"{x:.0}\" y=\"{base:.1}\" font-weight=\"bold\">grade</text>\n")
    }

    fn legend(&self) -> String {
        if self.layout.columns.len() == 1 {
            return String::new();
        }
        let dots = if self.layout.forks().is_empty() { "" } else { "; a dot: one record's wire forks" };
        format!("min: the lesser of two grades; max: the greater{dots}")
    }

    fn gate_box(&self, number: usize, gate: Gate, (left, right): (usize, usize), unused: bool) -> String {
        let (color, word) = match gate {
            Gate::Min => ("#1f5fa8", "min"),
            Gate::Max => ("#b5541c", "max"),
        };
        let (fill, ink, dashed) = match unused {
            false => (color, "white", String::new()),
            true => ("white", color, format!(" stroke=\"{color}\" {DASHED}")),
        };
        let (end, y) = self.end(number);
        let (x, middle) = (end - GATE, end - GATE / 2.0);
        format!(
            "<g id=\"r{number}\" data-takes=\"{left} {right}\">\
             <rect x=\"{x:.0}\" y=\"{:.1}\" width=\"{GATE:.0}\" height=\"22\" rx=\"11\" fill=\"{fill}\"{dashed}/>\
             <text x=\"{middle:.0}\" y=\"{:.1}\" fill=\"{ink}\" text-anchor=\"middle\">{word}</text>\
             <text x=\"{middle:.0}\" y=\"{:.1}\" fill=\"#555\" text-anchor=\"middle\" font-size=\"10\">{number}</text></g>\n",
            y - 11.0,
            y + 4.5,
            y - 14.0
        )
    }

    fn lookup_box(&self, number: usize, label: &str, unused: bool) -> String {
        let (end, y) = self.end(number);
        let look = if unused { format!("white\" {DASHED}") } else { "#f4f4f4\"".to_string() };
        format!(
            "<g id=\"r{number}\"><rect x=\"10\" y=\"{:.1}\" width=\"{:.0}\" height=\"24\" fill=\"{look} \
             stroke=\"#999\"/><text x=\"20\" y=\"{:.1}\" xml:space=\"preserve\">{}</text></g>\n",
            y - 12.0,
            end - 10.0,
            y + 4.5,
            escaped(label)
        )
    }
}

const DASHED: &str = "stroke-dasharray=\"5 4\"";

fn opening(wide: f64, high: f64, caption: &str) -> String {
    format!(
        "<svg xmlns=\"http://www.w3.org/2000/svg\" viewBox=\"0 0 {wide:.0} {high:.0}\" width=\"{wide:.0}\" \
         height=\"{high:.0}\" font-family=\"sans-serif\" font-size=\"13\">\n\
         {MARK}\n\
         <rect width=\"100%\" height=\"100%\" fill=\"white\"/>\n\
         <text x=\"10\" y=\"24\" font-size=\"14\">{}</text>\n",
        escaped(caption)
    )
}

fn small_text(y: f64, text: &str) -> String {
    format!("<text x=\"10\" y=\"{y:.0}\" font-size=\"11\" fill=\"#555\">{}</text>\n", escaped(text))
}

/// A short wire to a port with the number of the record that it is from, which stands off to a side.
fn stub(from: usize, (x, y): (f64, f64), side: f64) -> String {
    format!(
        "<path class=\"stub\" d=\"M{:.0} {y:.1}H{x:.0}\" stroke=\"#555\"/>\
         <text class=\"stub\" x=\"{:.0}\" y=\"{:.1}\" text-anchor=\"end\" font-size=\"10\">{from}</text>\n",
        x - STUB,
        x - STUB - 2.0,
        y + side + 3.5
    )
}

/// How wide a text is at most, at the size of labels: no character is wider in DejaVu Sans, which is among the widest
/// fonts. For letters that it does not have a guess.
fn width(text: &str) -> f64 {
    text.chars().map(width_of).sum()
}

fn width_of(character: char) -> f64 {
    const NARROW: &str = " !'(),-./:;IJ[\\]fijlrt|";
    const WIDE: &str = "#%&+<=>@MW^mw~";
    const WIDE_LETTERS: &str = "ÆæĦŒœŴŵŉωώϖϣЉЊЖФШЩЪЫЮжфшщюљњ©®¼½¾";
    match character {
        _ if NARROW.contains(character) => 5.5,
        _ if WIDE.contains(character) => 13.5,
        'A'..='Z' => 10.5,
        '!'..='~' => 8.5,
        // Latin, Greek and Cyrillic
        _ if WIDE_LETTERS.contains(character) => 14.5,
        '\u{a0}'..='\u{17f}' | '\u{370}'..='\u{45f}' => {
            if character.is_lowercase() {
                10.5
            } else {
                12.5
            }
        }
        // marks upon letters
        '\u{300}'..='\u{36f}' => 5.5,
        // Cyrillic of other languages, Armenian, Hebrew, Arabic; Thai and Lao; Georgian
        '\u{460}'..='\u{77f}' | '\u{e00}'..='\u{eff}' | '\u{10a0}'..='\u{10ff}' => 16.0,
        // Latin and Greek with several marks
        '\u{1e00}'..='\u{1fff}' => 14.5,
        // dashes and quotation marks, arrows
        '\u{2000}'..='\u{202f}' | '\u{2190}'..='\u{21ff}' => 13.5,
        // Chinese, Japanese and Korean, in squares
        '\u{2e80}'..='\u{a4cf}' | '\u{ac00}'..='\u{d7af}' | '\u{f900}'..='\u{faff}' | '\u{ff00}'..='\u{ffff}' => 14.0,
        _ => 23.0,
    }
}

fn escaped(text: &str) -> String {
    let mut out = String::new();
    for character in text.chars() {
        match character {
            '&' => out += "&amp;",
            '<' => out += "&lt;",
            '>' => out += "&gt;",
            '"' => out += "&quot;",
            // XML 1.0 has no such characters, or advises against them.
            '\u{fffe}' | '\u{ffff}' => out.push('\u{fffd}'),
            _ if character.is_control() => out.push('\u{fffd}'),
            _ => out.push(character),
        }
    }
    out
}
