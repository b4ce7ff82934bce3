// The timed traces of small expressions, enumerated by the composition rules of docs/SEMANTICS.md, section 5.
//
// All that is enumerated lies within bounds: so many acts, and an end of at most so many ticks. Arrivals come from outside, so a trace is
// asked for with the arrivals that it is to have, in their order: at the top none, and within a pruning those that its right part's traces
// bring about. So only finitely many arrivals are ever asked for.

use std::collections::{HashMap, HashSet};
use std::rc::Rc;

use crate::expression::{Expression, Parameter};
use crate::host::{Controller, Handle};
use crate::judging::Definition;
use crate::run::Act;

// A value that comes from outside for a free variable.
#[derive(Clone, Copy, PartialEq, Eq, Hash, PartialOrd, Ord, Debug)]
pub struct Arrival {
    pub tick: u32,
    pub variable: u8,
    pub value: u16,
}

#[derive(Clone, Copy, PartialEq, Eq, Hash, PartialOrd, Ord, Debug)]
pub enum Item {
    Act(u32, Act),
    Arrival(Arrival),
}

impl Item {
    fn tick(&self) -> u32 {
        match self {
            Item::Act(tick, _) => *tick,
            Item::Arrival(arrival) => arrival.tick,
        }
    }

    fn is_act(&self) -> bool {
        matches!(self, Item::Act(..))
    }

    fn is_out(&self) -> bool {
        matches!(self, Item::Act(_, Act::Out(_)))
    }
}

#[derive(Clone, PartialEq, Eq, Hash, PartialOrd, Ord, Debug)]
pub struct Trace {
    pub items: Vec<Item>,
    pub end: u32,
}

impl Trace {
    fn acts(&self) -> usize {
        acts(&self.items)
    }
}

fn acts(items: &[Item]) -> usize {
    items.iter().filter(|item| item.is_act()).count()
}

fn arrivals_of(items: &[Item]) -> Vec<Arrival> {
    let one = |item: &Item| match item {
        Item::Arrival(arrival) => Some(*arrival),
        Item::Act(..) => None,
    };
    items.iter().filter_map(one).collect()
}

fn listed(arrivals: &[Arrival]) -> Vec<Item> {
    arrivals.iter().copied().map(Item::Arrival).collect()
}

// All arrivals but those for the variable.
fn without(arrivals: &[Arrival], variable: u8) -> Vec<Arrival> {
    arrivals.iter().copied().filter(|arrival| arrival.variable != variable).collect()
}

#[derive(Clone, Copy)]
pub struct Bounds {
    pub acts: usize,
    pub end: u32,
}

// An expression, its beginning, the arrivals that its traces are to have, a depth, and the most acts.
type Question = (Expression, u32, Vec<Arrival>, usize, usize);
type Answers = Rc<Vec<Trace>>;

pub struct Rules<'a> {
    pub host: &'a Controller,
    pub definitions: &'a [Definition],
    pub end: u32,
    known: HashMap<Question, Answers>,
}

impl<'a> Rules<'a> {
    // The traces of a goal: nothing arrives. Each unfolding is an act, so a depth above the number of acts cuts nothing off.
    pub fn of_goal(host: &'a Controller, definitions: &'a [Definition], goal: &Expression, bounds: Bounds) -> Answers {
        let mut rules = Rules { host, definitions, end: bounds.end, known: HashMap::new() };
        rules.traces(goal, 0, &[], bounds.acts + 1, bounds.acts)
    }

    fn traces(&mut self, expression: &Expression, start: u32, arrivals: &[Arrival], depth: usize, most: usize) -> Answers {
        let question = (expression.clone(), start, arrivals.to_vec(), depth, most);
        if let Some(answers) = self.known.get(&question) {
            return answers.clone();
        }
        let mut found = HashSet::new();
        self.enumerate(expression, start, arrivals, depth, most, &mut found);
        let answers: Answers = Rc::new(found.into_iter().collect());
        self.known.insert(question, answers.clone());
        answers
    }

    // Arrivals alone, and any end.
    fn idle(&self, start: u32, arrivals: &[Arrival], found: &mut HashSet<Trace>) {
        let first = arrivals.last().map_or(start, |last| last.tick);
        for end in first..=self.end {
            found.insert(Trace { items: listed(arrivals), end });
        }
    }

    // Arrivals alone, and the end is the beginning.
    fn unmoved(&self, start: u32, arrivals: &[Arrival], found: &mut HashSet<Trace>) {
        if arrivals.iter().all(|arrival| arrival.tick == start) {
            found.insert(Trace { items: listed(arrivals), end: start });
        }
    }

    fn enumerate(&mut self, expression: &Expression, start: u32, arrivals: &[Arrival], depth: usize, most: usize, found: &mut HashSet<Trace>) {
        if depth == 0 {
            return self.unmoved(start, arrivals, found);
        }
        match expression {
            Expression::Stop => self.idle(start, arrivals, found),
            Expression::Site(_, Parameter::Variable(x)) | Expression::Definition(_, Parameter::Variable(x)) => {
                let Some(freed) = arrivals.iter().position(|arrival| arrival.variable == *x) else {
                    return self.idle(start, arrivals, found);
                };
                let Arrival { tick, value, .. } = arrivals[freed];
                let call = expression.with(*x, value);
                for trace in self.traces(&call, tick, &arrivals[freed + 1..], depth, most).iter() {
                    let mut items = listed(&arrivals[..=freed]);
                    items.extend_from_slice(&trace.items);
                    found.insert(Trace { items, end: trace.end });
                }
            }
            Expression::Site(site, Parameter::Value(value)) => {
                let handle = self.host.handle(*site, *value).expect("goals call known sites");
                self.made(start, arrivals, Act::Called(*site, *value), most, found, |rules, arrivals, most| {
                    rules.handle(&handle, start, arrivals, most)
                });
            }
            Expression::Definition(number, Parameter::Value(value)) => {
                let definition = &self.definitions[usize::from(*number)];
                let body = definition.body.with(definition.formal, *value);
                self.made(start, arrivals, Act::Inner, most, found, |rules, arrivals, most| {
                    rules.traces(&body, start, arrivals, depth - 1, most).to_vec()
                });
            }
            Expression::Parallel(f, g) => {
                let (fs, gs) = (self.traces(f, start, arrivals, depth, most), self.traces(g, start, arrivals, depth, most));
                for a in fs.iter() {
                    for b in gs.iter().filter(|b| b.end == a.end && a.acts() + b.acts() <= most) {
                        merge(&a.items, &b.items, None, |items| {
                            found.insert(Trace { items, end: a.end });
                        });
                    }
                }
            }
            Expression::Sequential(x, f, g) => {
                for trace in self.traces(f, start, arrivals, depth, most).iter() {
                    for items in self.spawned(*x, &trace.items, g, trace.end, depth, most) {
                        found.insert(Trace { items, end: trace.end });
                    }
                }
            }
            Expression::Pruning(x, f, g) => self.pruned(*x, f, g, start, arrivals, depth, most, found),
            Expression::Pending(_) => unreachable!("a goal holds no pending call"),
        }
    }

    // A call with a value: not made yet; or made at the beginning, and then what follows it.
    fn made(
        &mut self,
        start: u32,
        arrivals: &[Arrival],
        act: Act,
        most: usize,
        found: &mut HashSet<Trace>,
        after: impl Fn(&mut Self, &[Arrival], usize) -> Vec<Trace>,
    ) {
        self.unmoved(start, arrivals, found);
        if most == 0 {
            return;
        }
        for before in 0..=arrivals.len() {
            if arrivals[..before].iter().any(|arrival| arrival.tick != start) {
                break;
            }
            for trace in after(self, &arrivals[before..], most - 1) {
                let mut items = listed(&arrivals[..before]);
                items.push(Item::Act(start, act));
                items.extend_from_slice(&trace.items);
                found.insert(Trace { items, end: trace.end });
            }
        }
    }

    // The traces of a handle of a call that was made at `called`.
    fn handle(&self, handle: &Handle, called: u32, arrivals: &[Arrival], most: usize) -> Vec<Trace> {
        let mut found = HashSet::new();
        // Unanswered.
        self.idle(called, arrivals, &mut found);
        found.retain(|trace| handle.can_stand(called, u64::from(trace.end)));
        // Answered, between two arrivals.
        if most > 0 {
            for before in 0..=arrivals.len() {
                let first = arrivals[..before].last().map_or(called, |last| last.tick);
                let last = arrivals[before..].first().map_or(self.end, |next| next.tick);
                for tick in first..=last {
                    for window in handle.windows() {
                        for value in window.lowest..=window.highest {
                            if !window.admits(called, u64::from(tick), value) {
                                continue;
                            }
                            let mut items = listed(&arrivals[..before]);
                            items.push(Item::Act(tick, Act::Out(value)));
                            items.extend(listed(&arrivals[before..]));
                            let least = arrivals.last().map_or(tick, |last| last.tick.max(tick));
                            for end in least..=self.end {
                                found.insert(Trace { items: items.clone(), end });
                            }
                        }
                    }
                }
            }
        }
        found.into_iter().collect()
    }

    // The rule of a sequential on a trace of its left part, or on what is left of one.
    fn spawned(&mut self, x: u8, items: &[Item], g: &Expression, end: u32, depth: usize, most: usize) -> Vec<Vec<Item>> {
        let Some(at) = items.iter().position(Item::is_out) else {
            return vec![items.to_vec()];
        };
        let Item::Act(tick, Act::Out(value)) = items[at] else { unreachable!("it was found as an out") };
        let mut copied = g.clone();
        for arrival in arrivals_of(&items[..at]) {
            if arrival.variable != x {
                copied.substitute(arrival.variable, arrival.value);
            }
        }
        let rest = &items[at + 1..];
        let copy = copied.with(x, value);
        let copies = self.traces(&copy, tick, &arrivals_of(rest), depth, most - acts(items));
        let mut found = Vec::new();
        for left in self.spawned(x, rest, &copied, end, depth, most - at_most(items, at)) {
            for right in copies.iter().filter(|right| right.end == end && at_most(items, at) + acts(&left) + right.acts() <= most) {
                merge(&left, &right.items, None, |merged| {
                    let mut whole = items[..at].to_vec();
                    whole.push(Item::Act(tick, Act::Inner));
                    whole.extend(merged);
                    found.push(whole);
                });
            }
        }
        found
    }

    #[allow(clippy::too_many_arguments)]
    fn pruned(
        &mut self,
        x: u8,
        f: &Expression,
        g: &Expression,
        start: u32,
        arrivals: &[Arrival],
        depth: usize,
        most: usize,
        found: &mut HashSet<Trace>,
    ) {
        // Open: the right part publishes nothing.
        let fs = self.traces(f, start, &without(arrivals, x), depth, most);
        let gs = self.traces(g, start, arrivals, depth, most);
        for b in gs.iter().filter(|b| !b.items.iter().any(Item::is_out)) {
            for a in fs.iter().filter(|a| a.end == b.end && a.acts() + b.acts() <= most) {
                merge(&a.items, &b.items, Some(x), |items| {
                    found.insert(Trace { items, end: a.end });
                });
            }
        }
        // Bound: its trace ends with its only out, before which it has seen the first arrivals.
        for seen in 0..=arrivals.len() {
            let (before, after) = arrivals.split_at(seen);
            for b in self.traces(g, start, before, depth, most).iter() {
                let Some((Item::Act(tick, Act::Out(value)), right)) = b.items.split_last() else {
                    continue;
                };
                if right.iter().any(Item::is_out) || b.end != *tick || after.first().is_some_and(|next| next.tick < *tick) {
                    continue;
                }
                let mut met = without(before, x);
                let binding = met.len();
                met.push(Arrival { tick: *tick, variable: x, value: *value });
                met.extend_from_slice(after);
                for a in self.traces(f, start, &met, depth, most - b.acts()).iter() {
                    let at = (0..a.items.len()).filter(|at| !a.items[*at].is_act()).nth(binding).expect("the trace has the arrivals that were asked for");
                    let (p, q) = (&a.items[..at], &a.items[at + 1..]);
                    merge(p, right, Some(x), |mut items| {
                        items.push(Item::Act(*tick, Act::Inner));
                        items.extend_from_slice(q);
                        found.insert(Trace { items, end: a.end });
                    });
                }
            }
        }
    }
}

// The acts up to and with an item.
fn at_most(items: &[Item], at: usize) -> usize {
    acts(&items[..=at])
}

// Each way to interleave the acts of two lists that keeps both orders, and in which ticks do not fall. An arrival stands in both lists and
// once in the result; one for `alone` stands in the second list alone.
fn merge(a: &[Item], b: &[Item], alone: Option<u8>, mut each: impl FnMut(Vec<Item>)) {
    fn rest(a: &[Item], b: &[Item], alone: Option<u8>, so_far: &mut Vec<Item>, each: &mut dyn FnMut(Vec<Item>)) {
        let by_itself = |item: &Item| match item {
            Item::Act(..) => true,
            Item::Arrival(arrival) => alone == Some(arrival.variable),
        };
        let (first_a, first_b) = (a.first(), b.first());
        if first_a.is_none() && first_b.is_none() {
            each(so_far.clone());
            return;
        }
        if let Some(item) = first_a {
            if item.is_act() && first_b.is_none_or(|other| item.tick() <= other.tick()) {
                so_far.push(*item);
                rest(&a[1..], b, alone, so_far, each);
                so_far.pop();
            }
        }
        if let Some(item) = first_b {
            if by_itself(item) && first_a.is_none_or(|other| item.tick() <= other.tick()) {
                so_far.push(*item);
                rest(a, &b[1..], alone, so_far, each);
                so_far.pop();
            }
        }
        if let (Some(Item::Arrival(one)), Some(Item::Arrival(other))) = (first_a, first_b) {
            if one == other && alone != Some(one.variable) {
                so_far.push(Item::Arrival(*one));
                rest(&a[1..], &b[1..], alone, so_far, each);
                so_far.pop();
            }
        }
    }
    rest(a, b, alone, &mut Vec::new(), &mut each);
}
