//! A plot of cost against cells, as a drawing that a browser shows: cells on a scale of powers of two, cost on one of
//! powers of ten.

use crate::report::grouped;
use std::fmt::Write;

pub struct Line {
    pub name: String,
    /// Lines of one kind have one colour.
    pub kind: &'static str,
    pub plain: bool,
    /// Cells and instructions.
    pub points: Vec<(f64, f64)>,
}

const WIDTH: f64 = 760.0;
const HEIGHT: f64 = 440.0;
const LEFT: f64 = 100.0;
const RIGHT: f64 = 180.0;
const TOP: f64 = 40.0;
const BOTTOM: f64 = 60.0;
const COLOURS: [&str; 2] = ["#1f5fa8", "#b5541c"];
const GREY: &str = "#666";
const TITLE: &str = "Instructions of one compile by cells of the table";
/// What lies between the feet of two labels at least.
const LABEL: f64 = 15.0;

/// A label at the end of a line: the height of the end, a colour, a text.
struct Label<'a> {
    end: f64,
    colour: &'a str,
    text: &'a str,
}

/// What the drawing shows, in words.
fn description(lines: &[Line]) -> String {
    let said = lines.iter().filter_map(|line| {
        let (first, last) = (line.points.first()?, line.points.last()?);
        let said = |point: &(f64, f64)| format!("{} at {} cells", grouped(point.1), grouped(point.0));
        Some(format!("{}, from {} to {}.", line.name, said(first), said(last)))
    });
    said.collect::<Vec<_>>().join(" ")
}

pub fn draw(lines: &[Line]) -> String {
    let all = || lines.iter().flat_map(|line| line.points.iter());
    let extent = |of: fn(&(f64, f64)) -> f64| {
        let least = all().map(of).fold(f64::MAX, f64::min);
        (least, all().map(of).fold(1.0, f64::max))
    };
    let ((least_x, most_x), (least_y, most_y)) = (extent(|point| point.0), extent(|point| point.1));
    let (lowest, highest) = (10f64.powf(least_y.log10().floor()), 10f64.powf(most_y.log10().ceil()));
    let share = |value: f64, from: f64, to: f64| (value / from).ln() / (to / from).ln();
    let x = |cells: f64| LEFT + share(cells, least_x, most_x) * (WIDTH - LEFT - RIGHT);
    let y = |cost: f64| HEIGHT - BOTTOM - share(cost, lowest, highest) * (HEIGHT - TOP - BOTTOM);
    let (right, foot) = (WIDTH - RIGHT, HEIGHT - BOTTOM);
    let mut out = format!(
        "<svg xmlns=\"http://www.w3.org/2000/svg\" viewBox=\"0 0 {WIDTH} {HEIGHT}\" font-family=\"sans-serif\" \
         font-size=\"12\" role=\"img\" aria-labelledby=\"title description\">\n\
         <title id=\"title\">{TITLE}</title>\n\
         <desc id=\"description\">{}</desc>\n\
         <rect width=\"{WIDTH}\" height=\"{HEIGHT}\" fill=\"white\"/>\n\
         <text x=\"{LEFT}\" y=\"22\" font-size=\"14\">{TITLE}</text>\n",
        description(lines)
    );
    let mut cells = least_x;
    while cells <= most_x {
        let at = x(cells);
        let _ = writeln!(out, "<path d=\"M{at:.1} {TOP}V{foot:.1}\" stroke=\"#ddd\"/>");
        let _ = writeln!(
            out,
            "<text x=\"{at:.1}\" y=\"{:.1}\" text-anchor=\"middle\">{}</text>",
            foot + 18.0,
            grouped(cells)
        );
        cells *= 2.0;
    }
    let mut cost = lowest;
    while cost <= highest {
        let at = y(cost);
        let _ = writeln!(out, "<path d=\"M{LEFT} {at:.1}H{right:.1}\" stroke=\"#ddd\"/>");
        let _ = writeln!(
            out,
            "<text x=\"{:.1}\" y=\"{:.1}\" text-anchor=\"end\">{}</text>",
            LEFT - 8.0,
            at + 4.0,
            grouped(cost)
        );
        cost *= 10.0;
    }
    let _ = writeln!(
        out,
        "<text x=\"{:.1}\" y=\"{:.1}\" text-anchor=\"middle\">size of the table, in cells</text>",
        (LEFT + right) / 2.0,
        foot + 42.0
    );
    let middle = (TOP + foot) / 2.0;
    let _ = writeln!(
        out,
        "<text x=\"16\" y=\"{middle:.1}\" text-anchor=\"middle\" transform=\"rotate(-90 16 {middle:.1})\">\
         cost of one compile, in instructions</text>"
    );
    // Slope 1: what a cost in proportion to the cells looks like.
    let in_proportion = lowest * most_x / least_x;
    let _ = writeln!(
        out,
        "<path d=\"M{:.1} {:.1}L{:.1} {:.1}\" stroke=\"{GREY}\" stroke-dasharray=\"1 3\"/>",
        x(least_x),
        y(lowest),
        x(most_x),
        y(in_proportion)
    );
    let mut labels = vec![Label { end: y(in_proportion), colour: GREY, text: "slope 1, to compare" }];
    let mut kinds: Vec<&str> = vec![];
    for line in lines {
        let kind = kinds.iter().position(|kind| *kind == line.kind).unwrap_or_else(|| {
            kinds.push(line.kind);
            kinds.len() - 1
        });
        let colour = COLOURS[kind % COLOURS.len()];
        let (dashes, fill) = if line.plain { (" stroke-dasharray=\"5 4\"", "white") } else { ("", colour) };
        let places: Vec<(f64, f64)> = line.points.iter().map(|&(cells, cost)| (x(cells), y(cost))).collect();
        let points: Vec<String> = places.iter().map(|(x, y)| format!("{x:.1},{y:.1}")).collect();
        let _ = writeln!(
            out,
            "<polyline points=\"{}\" fill=\"none\" stroke=\"{colour}\" stroke-width=\"2\"{dashes}/>",
            points.join(" ")
        );
        for (x, y) in &places {
            let _ = writeln!(
                out,
                "<circle cx=\"{x:.1}\" cy=\"{y:.1}\" r=\"3.5\" fill=\"{fill}\" stroke=\"{colour}\" stroke-width=\"1.5\"/>"
            );
        }
        labels.extend(places.last().map(|&(_, end)| Label { end, colour, text: &line.name }));
    }
    labels.sort_by(|one, two| one.end.total_cmp(&two.end));
    let mut free = 0.0;
    for Label { end, colour, text } in labels {
        // Labels of lines that end close together stand one under the other.
        let at = f64::max(end + 4.0, free);
        free = at + LABEL;
        let _ = writeln!(out, "<text x=\"{:.1}\" y=\"{at:.1}\" fill=\"{colour}\">{text}</text>", right + 12.0);
    }
    out + "</svg>\n"
}
