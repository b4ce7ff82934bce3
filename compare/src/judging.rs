// Sheets and parameter files, judged byte by byte: docs/FORMATS.md and docs/REFUSALS.md.

use crate::expression::{Expression, Parameter};
use crate::host::{Controller, Row, Sheet, Window, NO_END};

pub const LONGEST: usize = 4096;

#[derive(Clone, Copy, PartialEq, Eq, Debug)]
pub enum Fault {
    CutShort(usize),
    UnknownCommand(usize),
    BeyondRange(usize),
    DefinitionNumber(usize),
    SiteUnknown(usize),
    FreeVariable(usize),
    TooLong,
    BytesAfter(usize),
    WindowBeforeRow(usize),
    EmptyRow(usize),
    SecondBelowFirst(usize),
    OneTooMany(usize),
}

impl Fault {
    // Number and place.
    pub fn told(self) -> (u32, u32) {
        let (number, place) = match self {
            Fault::CutShort(place) => (1, place),
            Fault::UnknownCommand(place) => (2, place),
            Fault::BeyondRange(place) => (3, place),
            Fault::DefinitionNumber(place) => (4, place),
            Fault::SiteUnknown(place) => (5, place),
            Fault::FreeVariable(place) => (6, place),
            Fault::TooLong => (7, LONGEST),
            Fault::BytesAfter(place) => (8, place),
            Fault::WindowBeforeRow(place) => (9, place),
            Fault::EmptyRow(place) => (10, place),
            Fault::SecondBelowFirst(place) => (11, place),
            Fault::OneTooMany(place) => (12, place),
        };
        (number, place as u32)
    }
}

type Judged<T> = Result<T, Fault>;

// The bytes that are left up to an end.
struct Bytes<'a> {
    all: &'a [u8],
    at: usize,
    end: usize,
}

impl Bytes<'_> {
    fn ended(&self) -> bool {
        self.at == self.end
    }

    // An operand of N bytes, and its place.
    fn operand<const N: usize>(&mut self) -> Judged<(usize, [u8; N])> {
        let place = self.at;
        if self.end - place < N {
            return Err(Fault::CutShort(self.end));
        }
        self.at += N;
        Ok((place, std::array::from_fn(|i| self.all[place + i])))
    }

    fn one(&mut self) -> Judged<(usize, u8)> {
        self.operand::<1>().map(|(place, bytes)| (place, bytes[0]))
    }

    fn two(&mut self) -> Judged<(usize, u16)> {
        self.operand::<2>().map(|(place, bytes)| (place, u16::from_be_bytes(bytes)))
    }

    fn four(&mut self) -> Judged<(usize, u32)> {
        self.operand::<4>().map(|(place, bytes)| (place, u32::from_be_bytes(bytes)))
    }

    // One byte that is at most `largest`.
    fn within(&mut self, largest: u8) -> Judged<u8> {
        let (place, byte) = self.one()?;
        if byte > largest { Err(Fault::BeyondRange(place)) } else { Ok(byte) }
    }
}

// --- the sheet

// A row, and the place of its command.
struct Opened {
    row: Row,
    place: usize,
}

impl Opened {
    fn says_nothing(&self) -> bool {
        !self.row.silent && self.row.windows.is_empty()
    }
}

pub fn read_sheet(bytes: &[u8]) -> Judged<Sheet> {
    if bytes.len() > LONGEST {
        return Err(Fault::TooLong);
    }
    let mut input = Bytes { all: bytes, at: 0, end: bytes.len() };
    let mut rows: Vec<Opened> = Vec::new();
    while !input.ended() {
        let (place, command) = input.one()?;
        match command {
            0x10 => {
                if let Some(last) = rows.last().filter(|last| last.says_nothing()) {
                    return Err(Fault::EmptyRow(last.place));
                }
                if rows.len() == 64 {
                    return Err(Fault::OneTooMany(place));
                }
                rows.push(Opened { row: read_row(&mut input)?, place });
            }
            0x11 => {
                let Some(last) = rows.last_mut() else {
                    return Err(Fault::WindowBeforeRow(place));
                };
                if last.row.windows.len() == 4 {
                    return Err(Fault::OneTooMany(place));
                }
                last.row.windows.push(read_window(&mut input)?);
            }
            _ => return Err(Fault::UnknownCommand(place)),
        }
    }
    match rows.last() {
        Some(last) if last.says_nothing() => Err(Fault::EmptyRow(last.place)),
        _ => Ok(Sheet { rows: rows.into_iter().map(|opened| opened.row).collect() }),
    }
}

fn read_row(input: &mut Bytes) -> Judged<Row> {
    let site = input.within(27)?;
    let (_, first) = input.two()?;
    let (place, last) = input.two()?;
    if last < first {
        return Err(Fault::SecondBelowFirst(place));
    }
    let silent = input.within(1)? == 1;
    Ok(Row { site, first, last, silent, windows: Vec::new() })
}

fn read_window(input: &mut Bytes) -> Judged<Window> {
    let (place, earliest) = input.four()?;
    if earliest == NO_END {
        return Err(Fault::BeyondRange(place));
    }
    let (place, latest) = input.four()?;
    if latest < earliest {
        return Err(Fault::SecondBelowFirst(place));
    }
    let (_, lowest) = input.two()?;
    let (place, highest) = input.two()?;
    if highest < lowest {
        return Err(Fault::SecondBelowFirst(place));
    }
    Ok(Window { earliest, latest, lowest, highest })
}

// --- the parameter file

#[derive(Clone, PartialEq, Eq, Debug)]
pub struct Definition {
    pub formal: u8,
    pub body: Expression,
    // How many bytes the body's form has.
    pub size: usize,
}

#[derive(Clone, PartialEq, Eq, Debug)]
pub struct File {
    pub definitions: Vec<Definition>,
    pub goal: Expression,
}

pub fn read_file(host: &Controller, bytes: &[u8]) -> Judged<File> {
    if bytes.len() > LONGEST {
        return Err(Fault::TooLong);
    }
    let mut input = Bytes { all: bytes, at: 0, end: bytes.len() };
    let count = input.within(16)?;
    let mut definitions = Vec::with_capacity(usize::from(count));
    for _ in 0..count {
        let formal = input.within(31)?;
        let (_, length) = input.two()?;
        let size = usize::from(length);
        if input.end - input.at < size {
            return Err(Fault::CutShort(input.end));
        }
        let mut part = Bytes { all: bytes, at: input.at, end: input.at + size };
        let body = Reader { host, count, bound: 1 << formal }.whole(&mut part)?;
        input.at = part.end;
        definitions.push(Definition { formal, body, size });
    }
    let goal = Reader { host, count, bound: 0 }.whole(&mut input)?;
    Ok(File { definitions, goal })
}

// What a form is judged with.
struct Reader<'a> {
    host: &'a Controller,
    // How many definitions the file has.
    count: u8,
    // The variables that are bound here, one bit for each.
    bound: u32,
}

impl Reader<'_> {
    // A form that ends where the input does.
    fn whole(&self, input: &mut Bytes) -> Judged<Expression> {
        let expression = self.form(input)?;
        if input.ended() { Ok(expression) } else { Err(Fault::BytesAfter(input.at)) }
    }

    fn form(&self, input: &mut Bytes) -> Judged<Expression> {
        let (place, command) = input.one()?;
        match command {
            0 => Ok(Expression::Stop),
            1 => {
                let (place, site) = input.one()?;
                if site > 31 {
                    return Err(Fault::BeyondRange(place));
                }
                if !self.host.knows(site) {
                    return Err(Fault::SiteUnknown(place));
                }
                Ok(Expression::Site(site, self.parameter(input)?))
            }
            2 => {
                let (place, number) = input.one()?;
                if number >= self.count {
                    return Err(Fault::DefinitionNumber(place));
                }
                Ok(Expression::Definition(number, self.parameter(input)?))
            }
            3 => {
                let f = self.form(input)?;
                let g = self.form(input)?;
                Ok(Expression::Parallel(Box::new(f), Box::new(g)))
            }
            4 => {
                let variable = input.within(31)?;
                let f = self.form(input)?;
                let g = self.binding(variable).form(input)?;
                Ok(Expression::Sequential(variable, Box::new(f), Box::new(g)))
            }
            5 => {
                let variable = input.within(31)?;
                let f = self.binding(variable).form(input)?;
                let g = self.form(input)?;
                Ok(Expression::Pruning(variable, Box::new(f), Box::new(g)))
            }
            _ => Err(Fault::UnknownCommand(place)),
        }
    }

    fn parameter(&self, input: &mut Bytes) -> Judged<Parameter> {
        let mark = input.within(1)?;
        let (place, number) = input.two()?;
        if mark == 0 {
            return Ok(Parameter::Value(number));
        }
        if number > 31 {
            return Err(Fault::BeyondRange(place));
        }
        if self.bound & (1 << number) == 0 {
            return Err(Fault::FreeVariable(place));
        }
        Ok(Parameter::Variable(number as u8))
    }

    fn binding(&self, variable: u8) -> Self {
        Reader { bound: self.bound | 1 << variable, ..*self }
    }
}
