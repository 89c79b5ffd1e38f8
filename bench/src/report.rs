//! What was measured, as a table in Markdown, as the document around it, and as the lines of the plot.

use crate::plot;
use std::process::Command;

/// What one call costs with each implementation.
pub struct Row {
    pub name: String,
    /// In the plot: which line it belongs to, and the number of cells.
    pub growth: Option<(&'static str, usize)>,
    pub counts: Vec<f64>,
    /// In microseconds.
    pub times: Vec<f64>,
}

/// The rows, and the names of the implementations: the library first where there are two.
pub struct Report {
    pub names: Vec<&'static str>,
    pub rows: Vec<Row>,
}

/// The first figure as so many times the second, where there are two.
fn ratio(figures: &[f64]) -> Option<f64> {
    if let [library, plain] = figures { Some(library / plain) } else { None }
}

/// The greatest of some ratios, each with what it is of.
fn greatest<T>(ratios: impl Iterator<Item = (f64, T)>) -> Option<(f64, T)> {
    ratios.max_by(|(one, _), (two, _)| one.total_cmp(two))
}

/// Lines as items of a list.
fn items(lines: &str) -> String {
    lines.lines().map(|line| format!("- {line}\n")).collect()
}

/// A whole number with a comma after each third digit.
pub fn grouped(count: f64) -> String {
    let digits = format!("{count:.0}");
    let groups: Vec<&str> =
        digits.as_bytes().rchunks(3).rev().map(|group| std::str::from_utf8(group).unwrap_or("")).collect();
    groups.join(",")
}

/// What a compiler says of itself.
fn version(compiler: &str, argument: &str) -> String {
    let output = Command::new(compiler).arg(argument).output();
    let said = output.ok().and_then(|output| String::from_utf8(output.stdout).ok());
    said.map(|said| said.trim().to_string()).filter(|said| !said.is_empty()).unwrap_or("not known".into())
}

impl Report {
    pub fn new(names: Vec<&'static str>) -> Report {
        Report { names, rows: vec![] }
    }

    pub fn heading(&self) -> String {
        let ratio = if self.names.len() == 2 { " ratio |" } else { "" };
        let columns =
            |unit: &str| self.names.iter().map(|name| format!(" {name}, {unit} |")).collect::<String>() + ratio;
        let headings = format!("| call |{}{}", columns("instructions"), columns("µs"));
        let figures = headings.matches('|').count() - 2;
        format!("{headings}\n|---|{}\n", "---:|".repeat(figures))
    }

    pub fn shown(&self, row: &Row) -> String {
        let ratio = |figures: &[f64]| ratio(figures).map_or(String::new(), |ratio| format!(" {ratio:.2} |"));
        let counts: String = row.counts.iter().map(|&count| format!(" {} |", grouped(count))).collect();
        let times: String = row.times.iter().map(|time| format!(" {time:.1} |")).collect();
        format!("| {} |{counts}{}{times}{}\n", row.name, ratio(&row.counts), ratio(&row.times))
    }

    /// The greatest ratio of instructions and the greatest of times, each with its call.
    pub fn worst(&self) -> String {
        let worst = |unit: &str, of: fn(&Row) -> &[f64]| {
            let worst = greatest(self.rows.iter().filter_map(|row| Some((ratio(of(row))?, &row.name))));
            worst.map_or(String::new(), |(ratio, name)| format!("Worst ratio of {unit}: {ratio:.2}, {name}.\n"))
        };
        worst("instructions", |row| &row.counts) + &worst("times", |row| &row.times)
    }

    /// The forecast that takes most of what compiling the same table takes.
    pub fn forecasts(&self) -> String {
        self.worst_beside("forecast ", "compile ", "a forecast to compiling its table")
    }

    /// The day of visits that takes most of what as many single calls take.
    pub fn visits(&self) -> String {
        let [one, single] = ["1,000 visits in one call, ", "1,000 visits in single calls, "];
        self.worst_beside(one, single, "a day of visits to as many single calls")
    }

    /// Of the rows that begin in one way, the one that takes most of what the row takes that begins in the other way
    /// and goes on alike, with the first implementation.
    fn worst_beside(&self, begin: &str, other: &str, ratio: &str) -> String {
        let beside = |rest: &str| self.rows.iter().find(|row| row.name.strip_prefix(other) == Some(rest));
        let most = greatest(self.rows.iter().filter_map(|row| {
            let rest = row.name.strip_prefix(begin)?;
            let (count, beside) = (row.counts[0], beside(rest)?.counts[0]);
            Some((count / beside, (count, beside, rest)))
        }));
        most.map_or(String::new(), |(_, (count, beside, rest))| {
            let figures = format!("{} to {} instructions, {}", grouped(count), grouped(beside), self.names[0]);
            format!("Worst ratio of {ratio}: {figures}, {rest}.\n")
        })
    }

    pub fn document(&self) -> String {
        let table: String = self.rows.iter().map(|row| self.shown(row)).collect();
        let heading = self.heading();
        let ratios = match &items(&self.worst())[..] {
            "" => String::new(),
            worst => format!("- A ratio is the library's figure divided by the plain one's.\n{worst}"),
        };
        let ratios = ratios + &items(&self.forecasts()) + &items(&self.visits());
        let (rust, rattle) = (version("rustc", "--version"), version("rt", "version"));
        format!(
            "\
# Benchmarks

What a call costs in the proved library, and in plain safe Rust that answers the same calls with the same bytes
(`tests/second/calls/src/plain`). `bench/run` measures both and writes this file.

- Instructions are counted by callgrind, and are the same in every run with the same compilers.
- Times are in microseconds, the least in one run, on a machine that does other work as well.
{ratios}- A table is named by its cardinalities and what it holds: 8 2⁷ is a condition of eight values and seven of two, 1,024 cells.
  m is the number of grades. A parity table splits at every stage, and builds no weak join. The tables that are named by
  their stages have more of them than any other that was found: where no two sets join, a stage builds a weak join beside
  its split. The drawn tables were among the slowest, each of its shape, of some 540,000 that `bench/run search 60` drew
  and timed when there were splits alone.
- A row of compiling that ends with a setting has the table under that one alone: min wins ties, splits take the condition
  with most values, no weak joins. All others are without settings.
- The rows to and from sets convert the longest file, m 16, which lists every cell, with limits that noise decides.
- A row of a join that names sets has the sizes of S and of T. Of 1, S is condition 0, which has the eight values, and T is
  condition 7; a set of 7 is all the others. Sets of 3 are 0 1 2 and 5 6 7, adjoining, or 1 3 5 and 2 4 6, alternating. The
  table, m 16, is the max, or the min where the row says so, of a random function blind to T and of one blind to S.
- A row of visits has the grades at 1,000 cells, drawn from 1,024, so that some come again: all in one call, or each in a
  call of its own. The network is that of the table that is named; where only a shape is, it is made up for it.
- Compilers: `{rust}` for the plain one, `{rattle}` for the library.

{heading}{table}
![Instructions of one compile by cells of the table](compile-cost.svg)
"
        )
    }

    /// The plot's lines: each kind of table with each implementation.
    pub fn lines(&self) -> Vec<plot::Line> {
        let mut lines: Vec<plot::Line> = vec![];
        for row in &self.rows {
            let Some((line, cells)) = row.growth else { continue };
            for (name, &count) in self.names.iter().zip(&row.counts) {
                let name = format!("{line}: {name}");
                let at = lines.iter().position(|line| line.name == name).unwrap_or_else(|| {
                    lines.push(plot::Line { plain: name.ends_with("plain"), kind: line, name, points: vec![] });
                    lines.len() - 1
                });
                lines[at].points.push((cells as f64, count));
            }
        }
        lines
    }
}
