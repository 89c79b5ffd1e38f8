//! Drawings: what they show, that nothing in them can be misread, and that they are sound whatever the names.

mod common;

use common::{EXAMPLES, Folder, Random, example};
use keeper::drawing::{self, READABLE};
use keeper::library::{Network, Record, Shape, Table};
use keeper::names::Names;

/// A part of a wire, or a box: from left to right and from top to bottom.
#[derive(Clone, Copy, Debug)]
struct Area {
    left: f64,
    right: f64,
    top: f64,
    bottom: f64,
}

impl Area {
    /// Of two points, in any order.
    fn between(one: (f64, f64), other: (f64, f64)) -> Area {
        let (left, right) = (one.0.min(other.0), one.0.max(other.0));
        Area { left, right, top: one.1.min(other.1), bottom: one.1.max(other.1) }
    }

    /// Whether the two have a point within both, edges aside.
    fn meets(&self, other: &Area) -> bool {
        let slack = 0.2;
        let across = self.left + slack < other.right && other.left + slack < self.right;
        across && self.top + slack < other.bottom && other.top + slack < self.bottom
    }

    /// Whether one is within a distance of the other.
    fn is_near(&self, other: &Area, distance: f64) -> bool {
        let across = self.left <= other.right + distance && other.left <= self.right + distance;
        across && self.top <= other.bottom + distance && other.top <= self.bottom + distance
    }

    fn is_level(&self) -> bool {
        self.bottom - self.top < 0.01
    }

    fn is_upright(&self) -> bool {
        self.right - self.left < 0.01
    }

    fn middle(&self) -> f64 {
        (self.top + self.bottom) / 2.0
    }
}

/// What comes between two strings, at the first place.
fn between<'a>(text: &'a str, before: &str, after: &str) -> Option<&'a str> {
    let rest = &text[text.find(before)? + before.len()..];
    Some(&rest[..rest.find(after)?])
}

fn number(text: &str, before: &str, after: &str) -> f64 {
    between(text, before, after).unwrap_or_else(|| panic!("{before} in {text}")).parse().unwrap()
}

/// A drawing, read back.
struct Drawn {
    svg: String,
    boxes: Vec<Area>,
    dashed: Vec<bool>,
    /// What the groups say that gates take.
    takes: Vec<Option<[usize; 2]>>,
    /// Of each wire the record that it is from, its parts, and where it ends.
    wires: Vec<(usize, Vec<Area>, (f64, f64))>,
    /// Of each stub the record's number, where the number stands, and where the stub ends.
    stubs: Vec<(usize, Area, (f64, f64))>,
    forks: usize,
}

impl Drawn {
    fn new(network: &Network, names: &Names) -> Drawn {
        let svg = drawing::draw(network, names, "room");
        let forks = svg.matches("<circle").count();
        let (boxes, dashed, takes) = (Vec::new(), Vec::new(), Vec::new());
        let mut drawn = Drawn { svg, boxes, dashed, takes, wires: Vec::new(), stubs: Vec::new(), forks };
        let lines: Vec<String> = drawn.svg.lines().map(String::from).collect();
        for line in lines.iter().filter(|line| line.starts_with("<g id=")) {
            assert_eq!(between(line, "<g id=\"r", "\""), Some(drawn.boxes.len().to_string().as_str()));
            drawn.add_box(line);
        }
        for line in lines.iter().filter(|line| line.starts_with("<path")) {
            if line.contains("class=\"stub\"") { drawn.add_stub(line) } else { drawn.add_wire(line) }
        }
        drawn
    }

    fn add_box(&mut self, group: &str) {
        let (left, top) = (number(group, " x=\"", "\""), number(group, " y=\"", "\""));
        let (right, bottom) = (left + number(group, " width=\"", "\""), top + number(group, " height=\"", "\""));
        self.boxes.push(Area { left, right, top, bottom });
        self.dashed.push(group.contains("stroke-dasharray"));
        self.takes.push(between(group, "data-takes=\"", "\"").map(|takes| {
            let (left, right) = takes.split_once(' ').unwrap();
            [left.parse().unwrap(), right.parse().unwrap()]
        }));
    }

    fn add_wire(&mut self, path: &str) {
        let points = points(path);
        let leaves = |area: &Area| area.right == points[0].0 && (area.middle() - points[0].1).abs() < 0.2;
        let from: Vec<usize> = (0..self.boxes.len()).filter(|&record| leaves(&self.boxes[record])).collect();
        assert_eq!(from.len(), 1, "{path} leaves a box");
        let parts = points.windows(2).map(|pair| Area::between(pair[0], pair[1])).collect();
        self.wires.push((from[0], parts, points[points.len() - 1]));
    }

    fn add_stub(&mut self, path: &str) {
        let points = points(path);
        let (label, from) = (&path[path.find("<text").unwrap()..], between(path, "\"10\">", "</text>").unwrap());
        let (right, base) = (number(label, " x=\"", "\""), number(label, " y=\"", "\""));
        let text = Area { left: right - 6.4 * from.len() as f64, right, top: base - 7.3, bottom: base };
        assert!(right < points[0].0 && text.is_near(&Area::between(points[0], points[0]), 4.0), "{path}");
        self.stubs.push((from.parse().unwrap(), text, points[1]));
    }

    /// The records that come in at a gate's left edge, from the top, with how far they are from its middle.
    fn inputs(&self, gate: usize) -> Vec<(usize, f64)> {
        let area = self.boxes[gate];
        let wires = self.wires.iter().map(|(from, _, end)| (*from, *end));
        let ends = wires.chain(self.stubs.iter().map(|(from, _, end)| (*from, *end)));
        let here = ends.filter(|(_, end)| end.0 == area.left && area.top < end.1 && end.1 < area.bottom);
        let mut inputs: Vec<(usize, f64)> = here.map(|(from, end)| (from, end.1 - area.middle())).collect();
        inputs.sort_by(|one, other| one.1.total_cmp(&other.1));
        inputs
    }

    fn boxes_stand_alone(&self) {
        let (wide, high) = (number(&self.svg, " width=\"", "\""), number(&self.svg, " height=\"", "\""));
        for (at, area) in self.boxes.iter().enumerate() {
            assert!(area.left >= 0.0 && area.right < wide && area.top > 30.0 && area.bottom < high - 20.0);
            assert!(self.boxes[..at].iter().all(|other| !area.is_near(other, 5.0)), "{area:?}\n{}", self.svg);
        }
    }

    /// No wire and no number at a stub is on a box, no wire on such a number.
    fn wires_meet_nothing(&self) {
        for part in self.wires.iter().flat_map(|(_, parts, _)| parts) {
            let thick = Area { top: part.top - 0.5, bottom: part.bottom + 0.5, ..*part };
            let thick = Area { left: thick.left - 0.1, right: thick.right + 0.1, ..thick };
            assert!(self.boxes.iter().all(|area| !thick.meets(area)), "{part:?}\n{}", self.svg);
            assert!(self.stubs.iter().all(|(_, text, _)| !thick.meets(text)), "{part:?}\n{}", self.svg);
        }
        for (_, text, _) in &self.stubs {
            assert!(self.boxes.iter().all(|area| !text.meets(area)), "{text:?}\n{}", self.svg);
        }
    }

    /// No part of a wire lies along a part of a wire from another record, or ends on its end.
    fn wires_are_apart(&self) {
        let parts = || self.wires.iter().flat_map(|(from, parts, _)| parts.iter().map(move |part| (from, part)));
        for (from, part) in parts() {
            for (others_from, other) in parts().filter(|(others_from, _)| from < *others_from) {
                let along = (part.is_level() && other.is_level()) || (part.is_upright() && other.is_upright());
                let on = along && part.is_near(other, 2.0);
                assert!(!on, "{part:?} of {from}, {other:?} of {others_from}\n{}", self.svg);
            }
        }
    }

    fn shows(&self, records: &[Record]) {
        assert_eq!(self.boxes.len(), records.len());
        let mut taken = vec![false; records.len()];
        for (gate, record) in records.iter().enumerate() {
            let Record::Gate { left, right, .. } = record else {
                assert_eq!((self.takes[gate], self.inputs(gate).len()), (None, 0));
                continue;
            };
            assert_eq!(self.takes[gate], Some([*left, *right]));
            let inputs = self.inputs(gate);
            let [(upper, above), (lower, below)] = inputs[..] else { panic!("{inputs:?} at {gate}\n{}", self.svg) };
            assert!((above + 5.0).abs() < 0.2 && (below - 5.0).abs() < 0.2, "{inputs:?} at {gate}");
            assert!([upper, lower] == [*left, *right] || [lower, upper] == [*left, *right], "{gate}\n{}", self.svg);
            (taken[*left], taken[*right]) = (true, true);
        }
        // The last record gives the grade.
        taken[records.len() - 1] = true;
        assert!(self.dashed.iter().zip(&taken).all(|(dashed, taken)| dashed != taken), "{}", self.svg);
        let gates = self.takes.iter().flatten().count();
        assert_eq!(self.wires.len() + self.stubs.len(), 2 * gates + 1);
        assert_eq!(self.grade_from(), [records.len() - 1]);
    }

    /// The records whose wire or stub ends at the word `grade`.
    fn grade_from(&self) -> Vec<usize> {
        let text = self.svg.lines().find(|line| line.ends_with(">grade</text>")).unwrap();
        let (x, y) = (number(text, " x=\"", "\"") - 5.0, number(text, " y=\"", "\"") - 4.5);
        let here = |end: (f64, f64)| end.0 == x && (end.1 - y).abs() < 0.2;
        let wires = self.wires.iter().filter(|(_, _, end)| here(*end)).map(|(from, _, _)| *from);
        wires.chain(self.stubs.iter().filter(|(_, _, end)| here(*end)).map(|(from, _, _)| *from)).collect()
    }

    fn cannot_be_misread(&self, records: &[Record]) {
        self.shows(records);
        self.boxes_stand_alone();
        self.wires_meet_nothing();
        self.wires_are_apart();
        is_well_formed(&self.svg);
        assert!(drawing::is_drawing(self.svg.as_bytes()));
    }
}

/// The points of a path that runs level and upright.
fn points(path: &str) -> Vec<(f64, f64)> {
    let data = between(path, "d=\"M", "\"").unwrap();
    let (start, steps) = data.split_at(data.find('H').unwrap());
    let (x, y) = start.split_once(' ').unwrap();
    let mut points: Vec<(f64, f64)> = vec![(x.parse().unwrap(), y.parse().unwrap())];
    for (at, letter) in steps.match_indices(['H', 'V']) {
        let rest = &steps[at + 1..];
        let value = rest[..rest.find(['H', 'V']).unwrap_or(rest.len())].parse().unwrap();
        let (x, y) = points[points.len() - 1];
        points.push(if letter == "H" { (value, y) } else { (x, value) });
    }
    points
}

/// Tags are closed in order, and `<` and `&` stand for nothing else.
fn is_well_formed(svg: &str) {
    let mut open: Vec<&str> = Vec::new();
    for piece in svg.split('<').skip(1) {
        let (tag, text) = piece.split_once('>').unwrap();
        match tag.strip_prefix('/') {
            Some(name) => assert_eq!(open.pop(), Some(name)),
            None if tag.ends_with('/') || tag.starts_with("!--") => {}
            None => open.push(tag.split(' ').next().unwrap()),
        }
        assert!(tag.starts_with("!--") || tag.matches('"').count() % 2 == 0, "{tag}");
        for entity in text.split('&').skip(1) {
            assert!(["amp;", "lt;", "gt;", "quot;"].iter().any(|name| entity.starts_with(name)), "{text}");
        }
        let allowed = |letter: char| letter == '\n' || (letter >= ' ' && letter != '\u{fffe}' && letter != '\u{ffff}');
        assert!(!text.contains('>') && piece.chars().all(allowed), "{piece:?}");
    }
    assert!(open.is_empty(), "{open:?}");
}

/// A record of a network by hand. The kinds are those of docs/FORMAT.md.
#[derive(Clone)]
enum Part {
    Constant(u8),
    Lookup(u8, Vec<u8>),
    Min(usize, usize),
    Max(usize, usize),
}

fn network(parts: &[Part], shape: &Shape) -> Network {
    let mut ceilings: Vec<u8> = Vec::new();
    let mut bytes = Vec::new();
    for part in parts {
        let (kind, first, ceiling, left, right) = match part {
            Part::Constant(grade) => (0, *grade, *grade, 0, 0),
            Part::Lookup(condition, grades) => (1, *condition, *grades.iter().max().unwrap(), 0, 0),
            Part::Min(left, right) => (2, 0, ceilings[*left].min(ceilings[*right]), *left, *right),
            Part::Max(left, right) => (3, 0, ceilings[*left].max(ceilings[*right]), *left, *right),
        };
        ceilings.push(ceiling);
        let number = |record: usize| u16::try_from(record).unwrap().to_le_bytes();
        let mut record = [&[kind, first, ceiling, 0][..], &number(left), &number(right)].concat();
        if let Part::Lookup(_, grades) = part {
            record.extend(grades);
        }
        record.resize(16, 0);
        bytes.extend(record);
    }
    Network::read(&bytes, shape).unwrap()
}

/// A table of three conditions and four grades.
fn alarm() -> Table {
    Table::read(&example("alarm.table")).unwrap()
}

fn lookup(random: &mut Random, shape: &Shape) -> Part {
    let grade = |random: &mut Random| random.below(shape.grades()) as u8;
    if random.below(5) == 0 {
        return Part::Constant(grade(random));
    }
    let condition = random.below(shape.conditions());
    Part::Lookup(condition as u8, (0..shape.values(condition)).map(|_| grade(random)).collect())
}

/// Records that gates take from anywhere, from nearby, or in turn, so that few are taken twice.
fn by_hand(random: &mut Random, shape: &Shape) -> Vec<Part> {
    let (records, gates, kind) = (1 + random.below(50), 1 + random.below(4), random.below(3));
    let mut parts = vec![lookup(random, shape)];
    let mut waiting = vec![0];
    while parts.len() < records {
        let number = parts.len();
        let mut taken = || match kind {
            0 => random.below(number),
            1 => number - 1 - random.below(number.min(4)),
            _ if waiting.is_empty() => random.below(number),
            _ => waiting.swap_remove(random.below(waiting.len())),
        };
        let (left, right) = (taken(), taken());
        parts.push(match random.below(5) {
            choice if choice > gates => lookup(random, shape),
            0 | 2 => Part::Min(left, right),
            _ => Part::Max(left, right),
        });
        waiting.push(number);
    }
    parts
}

#[test]
fn examples_are_drawn_as_they_are_kept() {
    let folder = Folder::with_examples("draw");
    for room in EXAMPLES {
        let drawn = folder.keeper(&["draw", &format!("{room}.table")]);
        let kept = String::from_utf8(example(&format!("{room}.svg"))).unwrap();
        drawn.is(0, &kept, "");
    }
}

#[test]
fn compiled_networks_are_drawn_with_all_their_wires() {
    let mut random = Random(7);
    let mut largest = 0;
    for _ in 0..400 {
        let table = Table::read(&random.table()).unwrap();
        let network = table.compile().unwrap();
        let records = network.records();
        largest = largest.max(records.len());
        let drawn = Drawn::new(&network, &Names::numbered(table.shape()));
        drawn.cannot_be_misread(&records);
        assert_eq!((drawn.stubs.len(), drawn.forks), (0, 0), "{}", drawn.svg);
        assert_eq!(drawing::hard_to_read(&records).is_some(), records.len() > READABLE);
    }
    assert!(largest > 100, "{largest}");
}

#[test]
fn networks_by_hand_cannot_be_misread() {
    let mut random = Random(13);
    let table = alarm();
    let (mut wires, mut stubs, mut forks) = (0, 0, 0);
    for _ in 0..600 {
        let network = network(&by_hand(&mut random, table.shape()), table.shape());
        let records = network.records();
        let drawn = Drawn::new(&network, &Names::numbered(table.shape()));
        drawn.cannot_be_misread(&records);
        let note = drawing::hard_to_read(&records).unwrap_or_default();
        assert_eq!(note.contains("stands for a wire"), !drawn.stubs.is_empty(), "{note}");
        assert_eq!(note.contains("(dashed)"), drawn.dashed.contains(&true), "{note}");
        assert!(drawn.forks == 0 || note.contains("taken more than once"), "{note}");
        wires += drawn.wires.len();
        stubs += drawn.stubs.len();
        forks += drawn.forks;
    }
    assert!(wires > 5_000 && stubs > 2_000 && forks > 100, "{wires} {stubs} {forks}");
}

#[test]
fn a_shared_lookup_has_its_number_at_the_gates() {
    let table = alarm();
    let names = Names::numbered(table.shape());
    let lookups = || vec![Part::Lookup(0, vec![0, 1, 3]), Part::Lookup(1, vec![2, 0])];
    // A chain: each gate takes the one before it and the first lookup.
    let chain = lookups().into_iter().chain((1..11).map(|before| Part::Max(before, 0))).collect::<Vec<_>>();
    let drawn = Drawn::new(&network(&chain, table.shape()), &names);
    assert_eq!(drawn.stubs.iter().map(|(from, ..)| *from).collect::<Vec<_>>(), [0; 9]);
    // A diamond: both lookups go to both gates, which the last one takes.
    let diamond = [Part::Min(0, 1), Part::Max(0, 1), Part::Max(2, 3)];
    let diamond: Vec<Part> = lookups().into_iter().chain(diamond).collect();
    let drawn = Drawn::new(&network(&diamond, table.shape()), &names);
    assert_eq!((drawn.stubs.len(), drawn.forks), (1, 1));
    // One lookup at both inputs.
    let twice = [Part::Constant(1), Part::Min(0, 0)];
    let drawn = Drawn::new(&network(&twice, table.shape()), &names);
    assert_eq!((drawn.stubs.len(), drawn.forks), (0, 1));
}

#[test]
fn notes_say_what_is_so() {
    let shape = alarm().shape().clone();
    let note = |gates: &[Part]| {
        let mut parts: Vec<Part> = (0..4).map(Part::Constant).collect();
        parts.extend_from_slice(gates);
        let network = network(&parts, &shape);
        let note = drawing::hard_to_read(&network.records()).unwrap_or_default();
        let drawn = drawing::draw(&network, &Names::numbered(&shape), "room");
        assert!(note.split(". ").all(|line| line.is_empty() || drawn.contains(&format!(">{line}</text>"))), "{drawn}");
        note
    };
    let list = ": keeper list is easier to read";
    let number = format!("A number left of a gate stands for a wire from that record{list}");
    assert_eq!(note(&[Part::Max(0, 1), Part::Max(2, 3), Part::Max(4, 5)]), "");
    assert_eq!(note(&[Part::Max(1, 0), Part::Max(3, 2), Part::Max(5, 4)]), "");
    assert_eq!(note(&[Part::Max(0, 1), Part::Max(4, 2)]), format!("1 record is never taken (dashed){list}"));
    assert_eq!(note(&[Part::Max(0, 1)]), format!("2 records are never taken (dashed){list}"));
    assert_eq!(note(&[Part::Max(0, 2), Part::Max(1, 3), Part::Max(4, 5)]), number);
    let once_more = [Part::Max(0, 1), Part::Max(1, 2), Part::Max(4, 5), Part::Max(6, 3)];
    assert_eq!(note(&once_more), format!("1 record is taken more than once{list}"));
    let both = note(&[Part::Max(0, 1), Part::Max(0, 1), Part::Max(4, 5)]);
    assert_eq!(both, format!("2 records are taken more than once, 2 never (dashed). {number}"));
    // The wire to the grade would run behind the second gate.
    let hidden = note(&[Part::Max(2, 3), Part::Max(2, 3), Part::Constant(0)]);
    let number = number.replace("a gate", "a gate or the grade");
    assert_eq!(hidden, format!("2 records are taken more than once, 4 never (dashed). {number}"));
}

#[test]
fn drawings_that_are_hard_to_read_say_so() {
    let folder = Folder::new("draw_large");
    let mut parity = String::new();
    for i in 0..7 {
        parity += &format!("condition c{i} 0 1\n");
    }
    parity += "grades 0 1\n";
    for cell in 0..128u32 {
        let values: Vec<String> = (0..7).map(|i| ((cell >> i) & 1).to_string()).collect();
        parity += &format!("{} {}\n", values.join(" "), cell.count_ones() % 2);
    }
    folder.write("parity.txt", parity.as_bytes());
    folder.keeper(&["make", "parity.txt", "-o", "parity.table"]).is(0, "", "");
    let drawn = folder.keeper(&["draw", "parity.table"]);
    assert_eq!(drawn.err, "parity.table: 379 records are many for a drawing: keeper list is easier to read\n");
    assert!(drawn.out.contains(">379 records are many for a drawing: keeper list is easier to read</text>"));
    assert_eq!(folder.keeper(&["--quiet", "draw", "parity.table"]).err, "");
    // A network by hand, whose last gate takes its second lookup twice.
    folder.write("rota.table", &example("rota.table"));
    folder.keeper(&["compile", "rota.table", "-o", "rota.network"]).is(0, "", "");
    folder.change("rota.network", &[(32 + 4, 1)]);
    let drawn = folder.keeper(&["draw", "rota.network"]);
    let why = "1 record is taken more than once, 1 never (dashed): keeper list is easier to read";
    assert_eq!(drawn.err, format!("rota.network: {why}\n"));
}

#[test]
fn drawings_are_sound_whatever_the_names() {
    let folder = Folder::new("draw_names");
    folder.write("<&>.txt", b"condition \"class\" <guard> a&b\ngrades 'none' >all\n<guard> 'none'\na&b >all\n");
    folder.keeper(&["make", "<&>.txt", "-o", "<&>.table"]).is(0, "", "");
    let drawn = folder.keeper(&["draw", "<&>.table"]).out;
    let label = "0  &quot;class&quot;: &lt;guard&gt;→'none', a&amp;b→&gt;all</text>";
    assert!(drawn.contains(label) && drawn.contains(">&lt;&amp;&gt;: 1 record</text>"), "{drawn}");
    is_well_formed(&drawn);
    // What XML 1.0 has not is replaced.
    let drawn = always("\u{fffe}a\u{ffff}b\u{1b}c\u{85}d\u{1ffff}");
    assert!(drawn.contains("always \u{fffd}a\u{fffd}b\u{fffd}c\u{fffd}d\u{1ffff}</text>"), "{drawn}");
    is_well_formed(&drawn);
}

#[test]
fn drawings_are_known_again() {
    assert!(drawing::is_drawing(&example("alarm.svg")));
    let mark = "<!-- drawn by keeper -->\n";
    assert!(always("all").lines().nth(1) == Some(mark.trim_end()));
    assert!(!drawing::is_drawing(always("all").replace(mark, "").as_bytes()));
    assert!(!drawing::is_drawing(format!("<svg>\n<g/>\n{mark}</svg>\n").as_bytes()));
    assert!(!drawing::is_drawing(mark.as_bytes()) && !drawing::is_drawing(b"") && !drawing::is_drawing(b"<svg "));
}

/// The drawing of a constant whose grade, and whose room, has this name.
fn always(name: &str) -> String {
    let table = Table::read(&[&[2, 2][..], &[0; 14]].concat()).unwrap();
    let names = Names { conditions: Vec::new(), grades: vec![name.to_string(); 2] };
    drawing::draw(&table.compile().unwrap(), &names, name)
}

#[test]
fn labels_stay_in_their_boxes() {
    // How wide the widest of some characters is in DejaVu Sans at 13 pixels.
    let widths = [
        ("WŴ", 12.86),
        ("Mm", 12.66),
        ("@", 13.0),
        ("%", 12.35),
        ("→+w", 10.89),
        ("OÖ", 10.23),
        ("A", 8.89),
        ("ad0gé_\"", 8.27),
        ("rt-", 5.34),
        ("IJil .,:", 4.38),
        ("œæ", 13.3),
        ("ω", 10.88),
        ("Ωд", 9.94),
        ("щш", 12.24),
        ("Щ", 14.22),
        ("ش", 15.87),
        ("שệ", 9.2),
        ("ლ", 13.84),
        ("Ǆ", 18.48),
        ("⟶", 18.64),
        ("—…", 13.0),
        ("‱", 22.56),
        ("😴", 20.85),
        ("\u{fffd}", 13.33),
    ];
    // Characters in squares, which that font has not.
    let squares = ("室あ한Ｗ", 13.0);
    let before = 8.27 + 3.0 * 4.13 + 7.97 + 3.61 + 10.63 + 7.97 + 7.69 + 6.77;
    let letters = widths.iter().chain([&squares]).flat_map(|(letters, width)| letters.chars().map(move |c| (c, width)));
    for (letter, times) in letters.flat_map(|letter| [1, 40, 400].map(|times| (letter, times))) {
        let ((letter, width), times) = (letter, times as f64);
        let drawn = always(&letter.to_string().repeat(times as usize));
        let group = &drawn[drawn.find("<g id").unwrap()..];
        let (start, room) = (number(group, "<text x=\"", "\""), number(group, " width=\"", "\""));
        assert!(number(group, " x=\"", "\"") + room >= start + before + width * times + 5.0, "{letter} {times}");
        // The caption is of size 14, and ends in `: 1 record`.
        let caption = 10.0 + (width * times + 63.0) * 14.0 / 13.0;
        assert!(number(&drawn, " width=\"", "\"") >= caption, "{letter} {times}");
    }
}
