// Small goals: the traces that the composition rules give them, and the records of all lives that the engines give them, within the
// same bounds, compared as sets.

use std::collections::HashSet;

use crate::difference::Difference;
use crate::expression::{Expression, Parameter};
use crate::generate::{self, Maker, Shape};
use crate::host::{Controller, Row, Sheet, Window, NO_END};
use crate::judging::read_file;
use crate::lives::{play, snapshot, verdict, whole, Rooms};
use crate::proved::{Judgement, Request};
use crate::random::Random;
use crate::run::{Act, Call, Event, Run};
use crate::traces::{Bounds, Item, Rules};

#[derive(Clone, Default)]
pub struct Compared {
    pub goals: u64,
    pub traces: u64,
    pub records: u64,
    pub states: u64,
    pub replays: u64,
    pub longest: usize,
    pub most: usize,
}

impl Compared {
    pub fn add(&mut self, other: &Compared) {
        self.goals += other.goals;
        self.traces += other.traces;
        self.records += other.records;
        self.states += other.states;
        self.replays += other.replays;
        self.longest = self.longest.max(other.longest);
        self.most = self.most.max(other.most);
    }

    pub fn print(&self) {
        println!(
            "  goals {}, traces by the rules {}, records of lives {}; the longest has {} events, a goal has up to {}",
            self.goals, self.traces, self.records, self.longest, self.most
        );
        println!("  states of lives {}, lives played by the proved engine {}", self.states, self.replays);
    }
}

type Record = (Vec<Event>, u32);

// Values that are tried as replies at every ticket; no site of a small goal replies another.
const REPLIES: std::ops::RangeInclusive<u16> = 0..=4;

// A state of a life, with the calls that lead to it.
struct Reached<'h> {
    run: Run<'h>,
    calls: Vec<Request>,
}

// All lives within the bounds: every call of every state is tried. Each accepted call, with a list of calls that leads to it, is played by
// the proved engine too; and each state once with every call that it refuses.
fn records(
    host: &Controller,
    file: &[u8],
    sheet: &[u8],
    bounds: Bounds,
    rooms: &mut Rooms,
    met: &mut Compared,
) -> Result<HashSet<Record>, (Vec<Request>, String)> {
    let (begun, judged) = Run::begin(host, file);
    let judgement = Judgement { sheet: Default::default(), file: verdict(judged.map_err(|fault| fault.told())) };
    let mut records = HashSet::new();
    let mut seen: HashSet<(Vec<u8>, Vec<Event>, u32)> = HashSet::new();
    let mut left = vec![Reached { run: begun, calls: Vec::new() }];
    while let Some(Reached { run, calls }) = left.pop() {
        if !seen.insert((run.form(), run.record().to_vec(), run.clock())) {
            // Another way to a state that is known.
            met.replays += 1;
            if let Err(what) = play(file, sheet, &calls, &snapshot(judgement, &run), whole(rooms)) {
                return Err((calls, what));
            }
            continue;
        }
        met.states += 1;
        records.insert((run.record().to_vec(), run.clock()));
        let goes = (0..=run.due_count()).map(Call::Go);
        let answers = (0..=run.issued() + 1).flat_map(|ticket| REPLIES.map(move |value| Call::Answer(ticket, value)));
        let waits = (0..=bounds.end - run.clock()).map(Call::Wait);
        let mut tried = calls.clone();
        for call in goes.chain(answers).chain(waits) {
            let mut then = run.clone();
            let outcome = verdict(then.make(call).map_err(|refusal| refusal.told()));
            let request = Request { outcome, ..Request::of(call) };
            match outcome.number {
                0 => {
                    if then.record().len() <= bounds.acts {
                        let mut calls = calls.clone();
                        calls.push(request);
                        left.push(Reached { run: then, calls });
                    }
                }
                27..=29 => {
                    tried.push(request);
                    return Err((tried, "a small goal has met a limit".into()));
                }
                _ => tried.push(request),
            }
        }
        met.replays += 1;
        if let Err(what) = play(file, sheet, &tried, &snapshot(judgement, &run), whole(rooms)) {
            return Err((tried, what));
        }
    }
    Ok(records)
}

fn told(record: &Record) -> String {
    let one = |event: &Event| match event.act {
        Act::Called(site, value) => format!("{}:call {site} {value}", event.clock),
        Act::Inner => format!("{}:inner", event.clock),
        Act::Out(value) => format!("{}:out {value}", event.clock),
    };
    format!("[{}] end {}", record.0.iter().map(one).collect::<Vec<_>>().join(", "), record.1)
}

// One file with its goal: the two sets.
pub fn compare(
    name: &str,
    seed: u64,
    case: u64,
    file: &[u8],
    sheet: &Sheet,
    bounds: Bounds,
    rooms: &mut Rooms,
    met: &mut Compared,
) -> Result<(), Difference> {
    let sheet_bytes = generate::sheet_bytes(sheet);
    let differs = |calls: &[Request], what: String| Difference::of(seed, name, case, file, &sheet_bytes, calls, what);
    let host = Controller { sheet: sheet.clone() };
    let read = read_file(&host, file).map_err(|fault| differs(&[], format!("a small file was refused: {fault:?}")))?;
    let traces: HashSet<Record> = Rules::of_goal(&host, &read.definitions, &read.goal, bounds)
        .iter()
        .map(|trace| {
            let event = |item: &Item| match item {
                Item::Act(clock, act) => Event { clock: *clock, act: *act },
                Item::Arrival(_) => unreachable!("nothing arrives for a goal"),
            };
            (trace.items.iter().map(event).collect(), trace.end)
        })
        .collect();
    let records = records(&host, file, &sheet_bytes, bounds, rooms, met).map_err(|(calls, what)| differs(&calls, what))?;
    met.goals += 1;
    met.traces += traces.len() as u64;
    met.records += records.len() as u64;
    met.longest = met.longest.max(records.iter().map(|record| record.0.len()).max().unwrap_or(0));
    met.most = met.most.max(records.len());
    let mut lacking: Vec<_> = traces.difference(&records).collect();
    let mut beyond: Vec<_> = records.difference(&traces).collect();
    lacking.sort();
    beyond.sort();
    let what = match (lacking.first(), beyond.first()) {
        (None, None) => return Ok(()),
        (Some(trace), _) => format!("{} of {} traces are no record of a life, as {}", lacking.len(), traces.len(), told(trace)),
        (_, Some(record)) => format!("{} of {} records are no trace, as {}", beyond.len(), records.len(), told(record)),
    };
    Err(differs(&[], what))
}

// --- all goals of up to two operators

// A contact that replies 1 or 2 at an age of 1 or 2 ticks, or stays silent; and one that replies 3 at once, or later 0, in any case.
fn contacts() -> Sheet {
    let window = |earliest, latest, lowest, highest| Window { earliest, latest, lowest, highest };
    Sheet {
        rows: vec![
            Row { site: 0, first: 0, last: 65_535, silent: true, windows: vec![window(1, 2, 1, 2)] },
            Row { site: 1, first: 0, last: 1, silent: false, windows: vec![window(0, 0, 3, 3), window(2, NO_END, 0, 0)] },
        ],
    }
}

fn leaves(bound: &[u8]) -> Vec<Expression> {
    let value = Parameter::Value(1);
    let mut leaves = vec![
        Expression::Stop,
        Expression::Site(0, value),
        Expression::Site(1, Parameter::Value(0)),
        Expression::Site(3, value),
        Expression::Site(4, value),
        Expression::Site(5, value),
        Expression::Definition(0, value),
    ];
    for x in bound {
        let variable = Parameter::Variable(*x);
        leaves.extend([Expression::Site(0, variable), Expression::Site(3, variable), Expression::Site(4, variable), Expression::Definition(0, variable)]);
    }
    leaves
}

// All expressions with so many operators, over the variables 0 and 1.
fn expressions(operators: usize, bound: &[u8]) -> Vec<Expression> {
    if operators == 0 {
        return leaves(bound);
    }
    let mut all = Vec::new();
    for left in 0..operators {
        let right = operators - 1 - left;
        for f in expressions(left, bound) {
            for g in expressions(right, bound) {
                all.push(Expression::Parallel(Box::new(f.clone()), Box::new(g)));
            }
        }
        for x in [0, 1] {
            let mut within: Vec<u8> = bound.iter().copied().filter(|y| *y != x).collect();
            within.push(x);
            for f in expressions(left, bound) {
                for g in expressions(right, &within) {
                    all.push(Expression::Sequential(x, Box::new(f.clone()), Box::new(g)));
                }
            }
            for f in expressions(left, &within) {
                for g in expressions(right, bound) {
                    all.push(Expression::Pruning(x, Box::new(f.clone()), Box::new(g)));
                }
            }
        }
    }
    all
}

// A definition that calls itself, and the goal.
fn file_of(definitions: &[(u8, Expression)], goal: &Expression) -> Vec<u8> {
    let mut bytes = vec![definitions.len() as u8];
    for (formal, body) in definitions {
        bytes.push(*formal);
        bytes.extend_from_slice(&(body.size() as u16).to_be_bytes());
        body.write(&mut bytes);
    }
    goal.write(&mut bytes);
    bytes
}

pub struct Family {
    goals: Vec<Expression>,
    definitions: Vec<(u8, Expression)>,
    sheet: Sheet,
}

impl Family {
    pub fn new(operators: usize) -> Family {
        let goals = (0..=operators).flat_map(|count| expressions(count, &[])).collect();
        // beat(x) is let(x) | (rtimer(x) >y> beat(x))
        let (x, y) = (0, 1);
        let variable = Parameter::Variable(x);
        let beat = Expression::Sequential(y, Box::new(Expression::Site(3, variable)), Box::new(Expression::Definition(0, variable)));
        let body = Expression::Parallel(Box::new(Expression::Site(0, variable)), Box::new(beat));
        Family { goals, definitions: vec![(x, body)], sheet: contacts() }
    }

    pub fn len(&self) -> u64 {
        self.goals.len() as u64
    }

    pub fn one(&self, case: u64, rooms: &mut Rooms, met: &mut Compared) -> Result<(), Difference> {
        let file = file_of(&self.definitions, &self.goals[case as usize]);
        compare("small goals", 0, case, &file, &self.sheet, Bounds { acts: 5, end: 3 }, rooms, met)
    }
}

// --- random goals

pub fn random(seed: u64, case: u64, rooms: &mut Rooms, met: &mut Compared) -> Result<(), Difference> {
    let mut r = Random::of(seed, 3, case);
    let r = &mut r;
    let rows = (0..r.between(1, 2)).map(|site| {
        let silent = r.once_in(2);
        let windows = (0..r.between(u64::from(!silent), 2)).map(|_| {
            let earliest = r.below(3) as u32;
            let latest = if r.once_in(4) { NO_END } else { earliest + r.below(3) as u32 };
            let lowest = r.below(3) as u16;
            Window { earliest, latest, lowest, highest: lowest + r.below(2) as u16 }
        });
        Row { site: site as u8, first: 0, last: 65_535, silent, windows: windows.collect() }
    });
    let sheet = Sheet { rows: rows.collect() };
    let mut sites = vec![0, 0, 1, 2, 3, 3];
    sites.extend(sheet.rows.iter().flat_map(|row| [row.site + 4, row.site + 4]));
    let definitions = r.below(3) as u8;
    let variables = r.between(1, 2) as u8;
    let mut maker = Maker { r, sites, values: vec![0, 1, 2], definitions, variables, shape: Shape::Even, mistakes: 0, definition_calls: 30, wild_values: false };
    let bodies: Vec<(u8, Expression)> = (0..definitions)
        .map(|_| {
            let formal = maker.r.below(u64::from(variables)) as u8;
            let leaves = 1 + maker.r.index(3);
            (formal, maker.expression(leaves, 1 << formal))
        })
        .collect();
    let leaves = 2 + maker.r.index(4);
    let goal = maker.expression(leaves, 0);
    let bounds = match leaves {
        2 => Bounds { acts: 7, end: 4 },
        3 => Bounds { acts: 6, end: 4 },
        4 => Bounds { acts: 5, end: 3 },
        _ => Bounds { acts: 5, end: 2 },
    };
    compare("random goals", seed, case, &file_of(&bodies, &goal), &sheet, bounds, rooms, met)
}
