// Sheets, parameter files and damage, made at random.

use crate::expression::{Expression, Parameter};
use crate::host::{Row, Sheet, Window, NO_END, SPLIT};
use crate::judging::LONGEST;
use crate::random::Random;

// --- sheets

fn age(r: &mut Random) -> u32 {
    match r.below(20) {
        0..=5 => 0,
        6..=14 => r.below(12) as u32,
        15 => r.below(70_000) as u32,
        16 => r.word() as u32,
        17 => NO_END - r.between(1, 12) as u32,
        18 => 1 << r.below(32),
        _ => r.below(200) as u32,
    }
}

fn number(r: &mut Random) -> u16 {
    match r.below(12) {
        0..=2 => 0,
        3..=7 => r.below(6) as u16,
        8 => u16::MAX - r.below(3) as u16,
        9 => r.word() as u16,
        10 => 1 << r.below(16),
        _ => r.below(40) as u16,
    }
}

fn window(r: &mut Random) -> Window {
    let earliest = age(r).min(NO_END - 1);
    let latest = match r.below(10) {
        0 | 1 => NO_END,
        2 | 3 => earliest,
        4 => NO_END - 1,
        5 => earliest.max(age(r)),
        _ => earliest.saturating_add(r.below(10) as u32),
    };
    let (a, b) = (number(r), number(r));
    Window { earliest, latest, lowest: a.min(b), highest: if r.once_in(3) { a.min(b) } else { a.max(b) } }
}

pub fn sheet(r: &mut Random) -> Sheet {
    let count = match r.below(40) {
        0 => 64,
        1 => r.between(50, 64),
        2..=5 => 0,
        6..=9 => r.below(20),
        _ => r.between(1, 5),
    };
    let sites = if r.once_in(3) { 28 } else { 4 };
    let full = r.once_in(4);
    let rows = (0..count).map(|_| {
        let site = r.below(sites) as u8;
        let (first, last) = if r.once_in(2) {
            (0, u16::MAX)
        } else {
            let (a, b) = (number(r), number(r));
            (a.min(b), a.max(b))
        };
        let silent = r.once_in(3);
        let windows = if full && !r.once_in(8) { 4 } else { r.between(u64::from(!silent), 4) };
        Row { site, first, last, silent, windows: (0..windows).map(|_| window(r)).collect() }
    });
    Sheet { rows: rows.collect() }
}

pub fn sheet_bytes(sheet: &Sheet) -> Vec<u8> {
    let mut bytes = Vec::new();
    for row in &sheet.rows {
        bytes.extend_from_slice(&[0x10, row.site]);
        bytes.extend_from_slice(&row.first.to_be_bytes());
        bytes.extend_from_slice(&row.last.to_be_bytes());
        bytes.push(u8::from(row.silent));
        for window in &row.windows {
            bytes.push(0x11);
            bytes.extend_from_slice(&window.earliest.to_be_bytes());
            bytes.extend_from_slice(&window.latest.to_be_bytes());
            bytes.extend_from_slice(&window.lowest.to_be_bytes());
            bytes.extend_from_slice(&window.highest.to_be_bytes());
        }
    }
    bytes
}

// --- parameter files

// How a form is shaped.
#[derive(Clone, Copy, PartialEq, Eq, Debug)]
pub enum Shape {
    Even,
    Left,
    Right,
}

// What the forms of a file are made of.
pub struct Maker<'a> {
    pub r: &'a mut Random,
    pub sites: Vec<u8>,
    pub values: Vec<u16>,
    pub definitions: u8,
    // So many variables are used.
    pub variables: u8,
    pub shape: Shape,
    // One operand in so many is wrong; 0 is none.
    pub mistakes: u64,
    // Of 100 calls, so many are of definitions.
    pub definition_calls: u64,
    // Other values than these are put in too.
    pub wild_values: bool,
}

impl Maker<'_> {
    fn parameter(&mut self, bound: u32) -> Parameter {
        if bound != 0 && self.r.percent(60) {
            let bits: Vec<u8> = (0..32).filter(|x| bound & (1 << x) != 0).collect();
            return Parameter::Variable(self.r.pick(&bits));
        }
        let value = match self.r.below(8) {
            0 if self.wild_values => number(self.r),
            1 if self.wild_values => self.r.word() as u16,
            _ => self.r.pick(&self.values),
        };
        Parameter::Value(value)
    }

    fn call(&mut self, bound: u32) -> Expression {
        let parameter = self.parameter(bound);
        if self.definitions > 0 && self.r.percent(self.definition_calls) {
            Expression::Definition(self.r.below(u64::from(self.definitions)) as u8, parameter)
        } else {
            Expression::Site(self.r.pick(&self.sites), parameter)
        }
    }

    // An expression of `leaves` leaves, with no variable free but the bound ones.
    pub fn expression(&mut self, leaves: usize, bound: u32) -> Expression {
        if leaves <= 1 {
            return if self.r.once_in(14) { Expression::Stop } else { self.call(bound) };
        }
        let left = match self.shape {
            Shape::Even => 1 + self.r.index(leaves - 1),
            Shape::Left => leaves - 1,
            Shape::Right => 1,
        };
        let variable = self.r.below(u64::from(self.variables)) as u8;
        let within = bound | 1 << variable;
        match self.r.below(10) {
            0..=3 => Expression::Parallel(Box::new(self.expression(left, bound)), Box::new(self.expression(leaves - left, bound))),
            4..=6 => {
                let f = self.expression(left, bound);
                Expression::Sequential(variable, Box::new(f), Box::new(self.expression(leaves - left, within)))
            }
            _ => {
                let f = self.expression(left, within);
                Expression::Pruning(variable, Box::new(f), Box::new(self.expression(leaves - left, bound)))
            }
        }
    }

    // Writes the form, with mistakes.
    fn write(&mut self, expression: &Expression, bytes: &mut Vec<u8>) {
        let start = bytes.len();
        match expression {
            Expression::Stop | Expression::Pending(_) => bytes.push(0),
            Expression::Site(..) | Expression::Definition(..) => {
                expression.write(bytes);
                if self.slips() {
                    match self.r.below(6) {
                        0 => bytes[start + 1] = self.r.byte(),
                        1 => bytes[start + 1] = self.r.between(16, 33) as u8,
                        2 => bytes[start + 2] = self.r.between(1, 3) as u8,
                        3 => {
                            bytes[start + 2] = 1;
                            bytes[start + 3] = 0;
                            bytes[start + 4] = self.r.below(34) as u8;
                        }
                        4 => bytes[start + 3] = self.r.byte(),
                        _ => bytes[start] = self.r.pick(&[2, 1, 6, 7, 0x10]),
                    }
                }
            }
            Expression::Parallel(f, g) => {
                bytes.push(3);
                if self.slips() {
                    bytes[start] = self.r.pick(&[6, 7, 0x10, 0x11, 0xff]);
                }
                self.write(f, bytes);
                self.write(g, bytes);
            }
            Expression::Sequential(variable, f, g) | Expression::Pruning(variable, f, g) => {
                bytes.push(if matches!(expression, Expression::Sequential(..)) { 4 } else { 5 });
                bytes.push(*variable);
                if self.slips() {
                    match self.r.below(4) {
                        0 => bytes[start] ^= 1,
                        1 => bytes[start + 1] = self.r.below(40) as u8,
                        2 => bytes[start + 1] = self.r.pick(&[31, 32, 255]),
                        _ => bytes[start] = self.r.pick(&[6, 8, 0x10, 0x80]),
                    }
                }
                self.write(f, bytes);
                self.write(g, bytes);
            }
        }
    }

    fn slips(&mut self) -> bool {
        self.mistakes != 0 && self.r.once_in(self.mistakes)
    }
}

// What a file is like.
#[derive(Clone, Copy, PartialEq, Eq, Debug)]
pub enum Kind {
    Small,
    // Up to the longest.
    Large,
    // Definitions that call themselves and each other much, so that forms grow.
    Growing,
    // A definition that goes on for ever in a small form.
    Endless,
}

pub fn file(r: &mut Random, sheet: &Sheet, kind: Kind, mistakes: u64) -> Vec<u8> {
    let mut sites = vec![0, 1, 2, 3, 0, 3];
    let mut values = vec![0, 1, 2, 3, 5, 7, 65_535];
    for row in &sheet.rows {
        for _ in 0..2 {
            sites.push(row.site + SPLIT);
        }
        values.extend([row.first, row.last, row.first.wrapping_sub(1), row.last.wrapping_add(1)]);
    }
    let definitions = match kind {
        Kind::Growing | Kind::Endless => r.between(1, 3),
        _ if r.once_in(20) => r.between(10, 16),
        _ => r.below(5),
    } as u8;
    let variables = if r.once_in(6) { 32 } else { r.between(1, 3) as u8 };
    let shape = match (kind, r.below(6)) {
        (Kind::Large, 0 | 1) | (_, 0) => Shape::Left,
        (Kind::Large, 2 | 3) | (_, 1) => Shape::Right,
        _ => Shape::Even,
    };
    let definition_calls = match kind {
        Kind::Growing => 70,
        Kind::Large => 10,
        _ => 25,
    };
    let mut maker = Maker { r, sites, values, definitions, variables, shape, mistakes, definition_calls, wild_values: true };
    let room = match kind {
        Kind::Small => 80,
        Kind::Large => LONGEST,
        Kind::Growing => 600,
        Kind::Endless => 200,
    };
    let mut bytes = vec![definitions];
    for _ in 0..definitions {
        let formal = maker.r.below(u64::from(maker.variables)) as u8;
        let leaves = match kind {
            Kind::Small => 1 + maker.r.index(5),
            Kind::Large => 1 + maker.r.index(12),
            Kind::Growing => 2 + maker.r.index(60),
            Kind::Endless => 1,
        };
        let body = match kind {
            Kind::Endless => endless(maker.r, formal),
            _ => maker.expression(leaves, 1 << formal),
        };
        bytes.push(formal);
        let at = bytes.len();
        bytes.extend_from_slice(&[0, 0]);
        maker.write(&body, &mut bytes);
        let length = (bytes.len() - at - 2) as u16;
        bytes[at..at + 2].copy_from_slice(&length.to_be_bytes());
        if maker.slips() {
            match maker.r.below(4) {
                0 => bytes[at - 1] = maker.r.below(40) as u8,
                1 => bytes[at + 1] = bytes[at + 1].wrapping_add(1),
                2 => bytes[at + 1] = bytes[at + 1].wrapping_sub(1),
                _ => bytes[at + maker.r.index(2)] = maker.r.byte(),
            }
        }
    }
    let goal = match kind {
        Kind::Small => {
            let leaves = 1 + maker.r.index(9);
            maker.expression(leaves, 0)
        }
        Kind::Large => {
            let left = room.saturating_sub(bytes.len());
            // A leaf and what holds it have about 6.5 bytes.
            let most = (left / 7).max(1);
            let leaves = if maker.r.once_in(2) { most } else { 1 + maker.r.index(most) };
            maker.expression(leaves, 0)
        }
        Kind::Growing => {
            let leaves = 1 + maker.r.index(40);
            maker.expression(leaves, 0)
        }
        Kind::Endless => Expression::Definition(0, Parameter::Value(maker.r.below(3) as u16)),
    };
    let goal_at = bytes.len();
    maker.write(&goal, &mut bytes);
    // Stops beside the goal's form fill a file to its very length.
    if kind == Kind::Large && maker.r.once_in(3) {
        let wanted = LONGEST + maker.r.index(4) - maker.r.index(4);
        while bytes.len() + 1 < wanted {
            let pad: &[u8] = match (wanted - bytes.len(), maker.r.below(3)) {
                (3, _) | (5.., 0) => &[5, 0, 0],
                _ => &[3, 0],
            };
            bytes.splice(goal_at..goal_at, pad.iter().copied());
        }
    }
    if maker.slips() {
        bytes[0] = maker.r.below(20) as u8;
    }
    bytes
}

// Bodies that call themselves for ever, in a form that does not grow.
fn endless(r: &mut Random, x: u8) -> Expression {
    let site = |site, parameter| Expression::Site(site, parameter);
    let again = |parameter| Expression::Definition(0, parameter);
    let (value, variable) = (Parameter::Value(r.below(3) as u16), Parameter::Variable(x));
    let y = r.below(32) as u8;
    let timer = match r.below(3) {
        0 => site(3, value),
        1 => site(3, variable),
        _ => site(0, value),
    };
    let next = again(if r.once_in(2) { variable } else { value });
    let beat = Expression::Sequential(y, Box::new(timer), Box::new(if y == x { again(Parameter::Variable(x)) } else { next.clone() }));
    match r.below(4) {
        0 => Expression::Parallel(Box::new(site(0, variable)), Box::new(beat)),
        1 => next,
        2 => beat,
        _ => Expression::Pruning(y, Box::new(again(Parameter::Variable(y))), Box::new(site(r.pick(&[0, 2, 3]), value))),
    }
}

// --- damage

const TELLING: [u8; 22] = [0, 1, 2, 3, 4, 5, 6, 7, 8, 9, 0x0a, 0x0f, 0x10, 0x11, 0x12, 0x1b, 0x1c, 0x1f, 0x20, 0x7f, 0x80, 0xff];

pub fn damage(r: &mut Random, bytes: &mut Vec<u8>, other: &[u8]) {
    for _ in 0..1 + r.below(3) {
        let length = bytes.len();
        let at = r.index(length + 1);
        match r.below(16) {
            0..=2 if length > 0 => bytes[r.index(length)] = r.byte(),
            3..=5 if length > 0 => bytes[r.index(length)] = r.pick(&TELLING),
            6 if length > 0 => bytes[r.index(length)] ^= 1 << r.below(8),
            7 if length > 0 => {
                let place = r.index(length);
                bytes[place] = if r.once_in(2) { bytes[place].wrapping_add(1) } else { bytes[place].wrapping_sub(1) };
            }
            8 => bytes.truncate(at),
            9 => {
                let most = if r.once_in(8) { 40 } else { 3 };
                let more = 1 + r.index(most);
                for _ in 0..more {
                    let byte = if r.once_in(2) { r.byte() } else { r.pick(&TELLING) };
                    bytes.push(byte);
                }
            }
            10 => {
                let end = (at + 1 + r.index(8)).min(length);
                bytes.drain(at.min(end)..end);
            }
            11 => {
                let byte = if r.once_in(2) { r.byte() } else { r.pick(&TELLING) };
                bytes.insert(at, byte);
            }
            12 if !other.is_empty() => {
                let from = r.index(other.len());
                let to = (from + 1 + r.index(24)).min(other.len());
                let end = if r.once_in(2) { at } else { (at + to - from).min(length) };
                bytes.splice(at..end, other[from..to].iter().copied());
            }
            13 if length > 1 => {
                let (a, b) = (r.index(length), r.index(length));
                bytes.swap(a, b);
            }
            14 if length > 1 => {
                let number = (r.between(0, 260) as u16).to_be_bytes();
                let place = r.index(length - 1);
                bytes[place..place + 2].copy_from_slice(&number);
            }
            15 if r.once_in(8) => {
                // Up to the longest that is read, or above it.
                let wanted = LONGEST + r.index(6) - r.index(6);
                let fill = r.pick(&TELLING);
                bytes.resize(wanted, fill);
            }
            _ => {}
        }
    }
}

// Bytes with no plan.
pub fn noise(r: &mut Random) -> Vec<u8> {
    let length = match r.below(20) {
        0 => r.between(4080, 4110),
        1 => r.below(9000),
        _ => r.below(40),
    };
    let telling = r.once_in(2);
    (0..length).map(|_| if telling { r.pick(&TELLING) } else { r.byte() }).collect()
}
