//! Compiling: document 01, section "Stages", step by step, with the weak joins that request 5 has before a split, under
//! the settings of request 8; and a forecast, from the records of a whole compile.

use crate::join::{exists, first_block, relieves, second_block};
use crate::network::{Record, depth, grade};
use crate::{Answer, Gate, Limits, Shape, Table, Values, has, refusal, stop_if, with};
use std::cell::OnceCell;
use std::cmp::Reverse;
use std::collections::{BTreeMap, BTreeSet, HashMap};
use std::rc::Rc;

/// How a network is grown.
#[derive(Clone, Copy, Debug, PartialEq, Eq, Hash)]
pub struct Settings {
    /// The gate that wins where the other's grouping is as good.
    wins_ties: Gate,
    /// Whether a split takes a condition with most values, and not the lowest.
    most_values: bool,
    weak_joins: bool,
}

impl Settings {
    /// What there was before there were settings.
    pub const USUAL: Settings = Settings { wins_ties: Gate::Max, most_values: false, weak_joins: true };

    /// The settings that the last three binary digits of a byte choose; the others mean nothing.
    pub fn from_byte(byte: u8) -> Settings {
        let changed = |place: u8| byte / place % 2 == 1;
        Settings {
            wins_ties: if changed(1) { Gate::Min } else { Gate::Max },
            most_values: changed(2),
            weak_joins: !changed(4),
        }
    }
}

/// Two sets that a gate joins. In a weak join the second is empty.
struct Grouping {
    gate: Gate,
    s: u8,
    t: u8,
    /// The first block's table, once it was asked for.
    first: OnceCell<Table>,
}

impl Grouping {
    fn new(gate: Gate, s: u8, t: u8) -> Grouping {
        Grouping { gate, s, t, first: OnceCell::new() }
    }
}

/// What compiling and a forecast are lent; the work buffer is given by its length.
pub struct Lent<'a> {
    shape: &'a [u8],
    lower: &'a [u8],
    upper: &'a [u8],
    work: usize,
    /// What the table's stages make, which takes long, under the settings for which a call has asked for it.
    built: HashMap<Settings, Built>,
    plans: Plans,
}

/// What a stage finds before a setting is asked, which takes longest: the table that step 1 leaves; where two conditions
/// or more are left in it, a grouping by each gate that has one; where none has, the weak join that counts.
struct Plan {
    table: Table,
    groupings: Vec<Grouping>,
    weak: Option<Grouping>,
}

/// The plans of the stages so far: most come again under other settings.
type Plans = HashMap<Table, Rc<Plan>>;

/// Records, and how many of the stages that made them built a weak join and kept it, or built one and split.
#[derive(Default)]
struct Built {
    records: Vec<Record>,
    weak: WeakJoins,
}

/// How many weak joins were kept, and how many were built and gave way to a split.
#[derive(Clone, Copy, Default, Debug)]
pub struct WeakJoins {
    pub kept: usize,
    pub rejected: usize,
}

/// The most records that there can be.
fn most_records(count: usize) -> usize {
    if count == 1 { 1 } else { 3 * count - 5 }
}

impl<'a> Lent<'a> {
    pub fn new(shape: &'a [u8], lower: &'a [u8], upper: &'a [u8], work: usize) -> Lent<'a> {
        Lent { shape, lower, upper, work, built: HashMap::new(), plans: Plans::new() }
    }

    /// The rows that both calls have; the records, if what the call writes has room where there are so many cells.
    fn judged(&mut self, settings: Settings, has_room: impl Fn(usize) -> bool) -> Answer<&[Record]> {
        let shape = Shape::from_bytes(self.shape)?;
        let count = shape.count();
        let short = self.lower.len() < count || self.upper.len() < count || self.work < 32 * count;
        stop_if(short || !has_room(count), refusal::SHORT_BUFFER)?;
        let table = shape.table(self.lower, self.upper)?;
        let built = self.built.entry(settings).or_insert_with(|| built(&shape, table, settings, &mut self.plans));
        Ok(&built.records)
    }

    /// The weak joins of the stages whose records are in the network; none where no call has been accepted.
    pub fn weak_joins(&self, settings: Settings) -> WeakJoins {
        self.built.get(&settings).map_or(WeakJoins::default(), |built| built.weak)
    }

    /// The records that compiling writes, with a network buffer of this length.
    pub fn compile(&mut self, settings: Settings, network: usize) -> Answer<&[Record]> {
        self.judged(settings, |count| network >= 16 * most_records(count))
    }

    /// How many records these are and the depth of the last, as a forecast tells with a depth buffer of this length.
    pub fn forecast(&mut self, settings: Settings, room: usize) -> Answer<(usize, u16)> {
        let records = self.judged(settings, |_| room >= 2)?;
        Ok((records.len(), depth(records, records.len() as u16 - 1)))
    }
}

/// What a table's stages make, its records held to its limits.
fn built(shape: &Shape, table: Table, settings: Settings, plans: &mut Plans) -> Built {
    let mut compiling = Compiling { shape, settings, plans, built: Built::default() };
    compiling.stage(table.clone(), true);
    let (built, count) = (compiling.built, shape.count());
    let records = &built.records;
    assert!(records.len() <= most_records(count), "{} records for {count} cells", records.len());
    for (&cell, limits) in &table.limits {
        let grade = grade(records, 0, cell);
        assert!(limits.allow(grade), "outside its limits at {cell:?}: {table:?}");
    }
    built
}

struct Compiling<'a> {
    shape: &'a Shape,
    settings: Settings,
    plans: &'a mut Plans,
    built: Built,
}

/// The table over the conditions that pass, each cell as it is where the other conditions are 0.
fn part(table: &Table, limits: &BTreeMap<Values, Limits>, keeps: impl Fn(usize) -> bool) -> Table {
    let (kept, left): (Vec<usize>, Vec<usize>) = table.conditions.iter().partition(|&&condition| keeps(condition));
    let limits = limits.iter().filter(|(cell, _)| left.iter().all(|&condition| cell[condition] == 0));
    Table { conditions: kept, limits: limits.map(|(&cell, &limits)| (cell, limits)).collect() }
}

/// Every pair of sets that extends this one by some of the conditions, itself the first.
fn extensions(s: u8, t: u8, conditions: impl IntoIterator<Item = usize>) -> Vec<(u8, u8)> {
    let mut pairs = vec![(s, t)];
    for condition in conditions {
        let bit = 1 << condition;
        pairs = pairs.into_iter().flat_map(|(s, t)| [(s, t), (s | bit, t), (s, t | bit)]).collect();
    }
    pairs
}

impl Plan {
    fn new(shape: &Shape, table: Table) -> Plan {
        let table = dropped(shape, table);
        let mut plan = Plan { table, groupings: vec![], weak: None };
        if plan.table.conditions.len() > 1 {
            plan.groupings =
                [Gate::Max, Gate::Min].into_iter().filter_map(|gate| grouping(shape, &plan.table, gate)).collect();
            if plan.groupings.is_empty() {
                no_join(shape, &plan.table);
                plan.weak = weak_join(shape, &plan.table);
            }
        }
        plan
    }
}

/// Step 1: a condition can go when some function that is blind to it is within the limits, and leaves what such a
/// function may be.
fn dropped(shape: &Shape, mut table: Table) -> Table {
    for condition in table.conditions.clone() {
        let open = table.open(shape, 1 << condition, |_, limits| move |grade| limits.allow(grade));
        if let Some(limits) = open {
            table = part(&table, &limits, |other| other != condition);
        }
    }
    table
}

/// Step 3, for one gate.
fn grouping(shape: &Shape, table: &Table, gate: Gate) -> Option<Grouping> {
    let joins = |s: u8, t: u8| exists(shape, table, gate, s, t);
    let conditions = &table.conditions;
    let pairs = conditions.iter().flat_map(|i| conditions.iter().filter(move |j| i < j).map(move |j| (*i, *j)));
    let (i, j) = pairs.into_iter().find(|(i, j)| joins(1 << i, 1 << j))?;
    let (mut s, mut t) = (1u8 << i, 1u8 << j);
    for condition in conditions.iter().filter(|&&condition| condition != i && condition != j) {
        let (in_s, in_t) = ((s | 1 << condition, t), (s, t | 1 << condition));
        let tries = if s.count_ones() <= t.count_ones() { [in_s, in_t] } else { [in_t, in_s] };
        (s, t) = tries.into_iter().find(|&(s, t)| joins(s, t)).unwrap_or((s, t));
    }
    no_extension(shape, table, gate, s, t);
    Some(Grouping::new(gate, s, t))
}

/// The claim that a grouping cannot be extended, tried on every pair of sets that holds it.
fn no_extension(shape: &Shape, table: &Table, gate: Gate, s: u8, t: u8) {
    let shared = table.conditions.iter().copied().filter(|&condition| !has(s | t, condition));
    for (s, t) in extensions(s, t, shared).into_iter().skip(1) {
        assert!(!exists(shape, table, gate, s, t), "a grouping extends to {s} {t}: {table:?}");
    }
}

/// The claim that no two sets join, tried on every pair.
fn no_join(shape: &Shape, table: &Table) {
    let pairs = extensions(0, 0, table.conditions.iter().copied());
    for (s, t) in pairs.into_iter().filter(|&(s, t)| s != 0 && t != 0) {
        for gate in [Gate::Max, Gate::Min] {
            assert!(!exists(shape, table, gate, s, t), "no grouping where {s} {t} join: {table:?}");
        }
    }
}

/// The first weak join that counts: one that asks less of its first block than the table does.
fn weak_join(shape: &Shape, table: &Table) -> Option<Grouping> {
    let each = table
        .conditions
        .iter()
        .flat_map(|condition| [Gate::Max, Gate::Min].map(|gate| Grouping::new(gate, 1 << condition, 0)));
    each.into_iter().find(|weak| relieves(shape, table, weak.gate, weak.s))
}

impl Compiling<'_> {
    fn push(&mut self, record: Record) -> u16 {
        self.built.records.push(record);
        self.last()
    }

    fn last(&self) -> u16 {
        (self.built.records.len() - 1) as u16
    }

    fn plan(&mut self, table: Table) -> Rc<Plan> {
        let new = |table: &Table| Rc::new(Plan::new(self.shape, table.clone()));
        self.plans.entry(table).or_insert_with_key(new).clone()
    }

    /// Makes a stage's records; the number of the last. The stage may take a weak join if it is told so, and if step 1
    /// takes a condition from it.
    fn stage(&mut self, table: Table, may: bool) -> u16 {
        let before = table.conditions.len();
        let plan = self.plan(table);
        let table = &plan.table;
        let may = may || table.conditions.len() < before;
        let lower = |cell| table.limits[&cell].lower;
        match table.conditions[..] {
            [] => self.push(Record::Constant(lower([0; 8]))),
            [condition] => {
                let mut held = [0; 8];
                for value in 0..self.shape.cardinalities[condition] {
                    held[value as usize] = lower(with([0; 8], condition, value));
                }
                self.push(Record::Literal(condition as u8, held))
            }
            _ => match self.chosen(&plan) {
                Some(grouping) => self.join(table, grouping, true),
                None => self.without_grouping(&plan, may),
            },
        }
    }

    /// Step 4: the grouping that comes first by size, by difference and, in a tie, by gate.
    fn chosen<'p>(&self, plan: &'p Plan) -> Option<&'p Grouping> {
        let rank = |grouping: &&Grouping| {
            let (s, t) = (grouping.s.count_ones(), grouping.t.count_ones());
            (Reverse(s + t), s.abs_diff(t), grouping.gate != self.settings.wins_ties)
        };
        plan.groupings.iter().min_by_key(rank)
    }

    /// Step 5; `may` is for the first block.
    fn join(&mut self, table: &Table, grouping: &Grouping, may: bool) -> u16 {
        let (shape, &Grouping { gate, s, t, ref first }) = (self.shape, grouping);
        let start = self.built.records.len();
        let limits = || first_block(shape, table, gate, s, t);
        let first = first.get_or_init(|| part(table, &limits(), |condition| !has(t, condition)));
        let left = self.stage(first.clone(), may);
        // The function that the first network computes, read from its records.
        let records = &self.built.records[start..];
        let first: BTreeMap<Values, u8> =
            table.limits.keys().map(|&cell| (cell, grade(records, start, cell))).collect();
        let limits = second_block(shape, table, gate, s, t, |cell| first[&cell]);
        let right = self.stage(part(table, &limits, |condition| !has(s, condition)), true);
        self.push(Record::Gate(gate, left, right))
    }

    /// Where no two sets join: the weak join, if there is one that the stage may take and it is shorter than the split;
    /// else the split.
    fn without_grouping(&mut self, plan: &Plan, may: bool) -> u16 {
        let table = &plan.table;
        let weak = plan.weak.as_ref().filter(|_| may && self.settings.weak_joins);
        let Some(weak) = weak else { return self.split(table) };
        let mut weak = self.apart(|compiling| compiling.join(table, weak, false));
        let mut split = self.apart(|compiling| compiling.split(table));
        let kept = if weak.records.len() < split.records.len() {
            weak.weak.kept += 1;
            weak
        } else {
            split.weak.rejected += 1;
            split
        };
        self.built.records.extend(kept.records);
        self.built.weak.kept += kept.weak.kept;
        self.built.weak.rejected += kept.weak.rejected;
        self.last()
    }

    /// What is built behind the records so far, taken away from there again.
    fn apart(&mut self, build: impl FnOnce(&mut Self) -> u16) -> Built {
        let (start, before) = (self.built.records.len(), std::mem::take(&mut self.built.weak));
        build(self);
        Built { records: self.built.records.split_off(start), weak: std::mem::replace(&mut self.built.weak, before) }
    }

    /// The condition that a split takes: the lowest left, or the first of those that have most values in the table's
    /// cells. One that is not left has one value there.
    fn split_condition(&self, table: &Table) -> usize {
        if !self.settings.most_values {
            return table.conditions[0];
        }
        let values = |condition: usize| -> BTreeSet<u8> { table.limits.keys().map(|cell| cell[condition]).collect() };
        (0..8).min_by_key(|&condition| Reverse(values(condition).len())).expect("there are eight")
    }

    /// Step 6.
    fn split(&mut self, table: &Table) -> u16 {
        let condition = self.split_condition(table);
        let mut total = None;
        for value in 0..self.shape.cardinalities[condition] {
            let mut held = [0; 8];
            held[value as usize] = self.shape.grades - 1;
            let literal = self.push(Record::Literal(condition as u8, held));
            let here = table.limits.iter().filter(|(cell, _)| cell[condition] == value);
            let limits = here.map(|(&cell, &limits)| (with(cell, condition, 0), limits)).collect();
            let stage = self.stage(part(table, &limits, |other| other != condition), true);
            let least = self.push(Record::Gate(Gate::Min, literal, stage));
            total = Some(match total {
                None => least,
                Some(before) => self.push(Record::Gate(Gate::Max, before, least)),
            });
        }
        total.expect("a condition has two values or more")
    }
}
