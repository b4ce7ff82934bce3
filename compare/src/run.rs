// A run: a parameter file at work with a host. docs/ENGINE.md.

use std::rc::Rc;

use crate::expression::{Expression, Parameter, Pending};
use crate::host::Controller;
use crate::judging::{read_file, Fault, File, LONGEST};

pub const RECORD: usize = 512;
pub const CLOCK_END: u32 = 4_294_967_294;

#[derive(Clone, Copy, PartialEq, Eq, Debug)]
pub enum Refusal {
    NotLoaded,
    NoneDue(u32),
    NotStanding(u32),
    OutsideEveryWindow(u32),
    DueFirst(u32),
    Overdue(u32),
    ClockEnd(u32),
    Outgrown(usize),
    RecordFull,
}

impl Refusal {
    // Number and place.
    pub fn told(self) -> (u32, u32) {
        match self {
            Refusal::NotLoaded => (21, 0),
            Refusal::NoneDue(due) => (22, due),
            Refusal::NotStanding(ticket) => (23, ticket),
            Refusal::OutsideEveryWindow(ticket) => (24, ticket),
            Refusal::DueFirst(due) => (25, due),
            Refusal::Overdue(ticket) => (26, ticket),
            Refusal::ClockEnd(clock) => (27, clock),
            Refusal::Outgrown(size) => (28, size as u32),
            Refusal::RecordFull => (29, RECORD as u32),
        }
    }
}

#[derive(Clone, Copy, PartialEq, Eq, Hash, PartialOrd, Ord, Debug)]
pub enum Act {
    Called(u8, u16),
    Inner,
    Out(u16),
}

#[derive(Clone, Copy, PartialEq, Eq, Hash, PartialOrd, Ord, Debug)]
pub struct Event {
    pub clock: u32,
    pub act: Act,
}

#[derive(Clone, Copy, PartialEq, Eq, Debug, Default)]
pub struct Totals {
    pub called: u32,
    pub answered: u32,
    pub withdrawn: u32,
    pub lapsed: u32,
}

#[derive(Clone, Copy, PartialEq, Eq, Hash, Debug)]
pub enum Call {
    Go(u32),
    Answer(u32, u16),
    Wait(u32),
}

#[derive(Clone)]
pub struct Run<'h> {
    host: &'h Controller,
    file: Option<Rc<File>>,
    clock: u32,
    form: Expression,
    // How many bytes the form has.
    size: usize,
    issued: u32,
    record: Vec<Event>,
    totals: [Totals; 32],
}

impl<'h> Run<'h> {
    pub fn begin(host: &'h Controller, bytes: &[u8]) -> (Run<'h>, Result<(), Fault>) {
        let mut run = Run {
            host,
            file: None,
            clock: 0,
            form: Expression::Stop,
            size: 1,
            issued: 0,
            record: Vec::new(),
            totals: [Totals::default(); 32],
        };
        let judged = read_file(host, bytes).map(|file| {
            run.form = file.goal.clone();
            run.size = run.form.simplify();
            run.file = Some(Rc::new(file));
        });
        (run, judged)
    }

    pub fn make(&mut self, call: Call) -> Result<(), Refusal> {
        match call {
            Call::Go(number) => self.go(number),
            Call::Answer(ticket, value) => self.answer(ticket, value),
            Call::Wait(ticks) => self.wait(ticks),
        }
    }

    pub fn go(&mut self, number: u32) -> Result<(), Refusal> {
        let Some(file) = &self.file else {
            return Err(Refusal::NotLoaded);
        };
        let mut left = number;
        let Some(call) = self.form.due_call(&mut left) else {
            // Every due call was passed.
            return Err(Refusal::NoneDue(number - left));
        };
        if self.record.len() == RECORD {
            return Err(Refusal::RecordFull);
        }
        let (next, growth, act) = match *call {
            Expression::Site(site, Parameter::Value(value)) => {
                let pending = Pending { ticket: self.issued + 1, site, value, clock: self.clock };
                (Expression::Pending(pending), 7, Act::Called(site, value))
            }
            Expression::Definition(number, Parameter::Value(value)) => {
                let definition = &file.definitions[usize::from(number)];
                (definition.body.with(definition.formal, value), definition.size.saturating_sub(5), Act::Inner)
            }
            _ => unreachable!("a due call has a value"),
        };
        // The form as it was is kept only where it might be needed.
        let before = if self.size + growth > LONGEST {
            let before = self.form.clone();
            *self.form.due_call(&mut { number }).expect("it was found above") = next;
            Some(before)
        } else {
            *call = next;
            None
        };
        let lapsed = self.settle(before, true)?;
        if let Act::Called(site, _) = act {
            self.issued += 1;
            self.totals[usize::from(site)].called += 1;
        }
        self.count_lapsed(&lapsed);
        self.record.push(Event { clock: self.clock, act });
        Ok(())
    }

    pub fn answer(&mut self, ticket: u32, value: u16) -> Result<(), Refusal> {
        if self.file.is_none() {
            return Err(Refusal::NotLoaded);
        }
        let Some(standing) = self.form.standing(ticket) else {
            return Err(Refusal::NotStanding(ticket));
        };
        let pending = standing.pending;
        if !self.host.made(pending.site, pending.value).admits(pending.clock, u64::from(self.clock), value) {
            return Err(Refusal::OutsideEveryWindow(ticket));
        }
        if self.record.len() == RECORD {
            return Err(Refusal::RecordFull);
        }
        let before = (self.size + standing.growth > LONGEST).then(|| self.form.clone());
        let replied = self.form.reply(ticket, value).expect("the ticket stands");
        self.settle(before, false)?;
        self.totals[usize::from(pending.site)].answered += 1;
        for call in &replied.withdrawn {
            self.totals[usize::from(call.site)].withdrawn += 1;
        }
        let act = if replied.published { Act::Out(value) } else { Act::Inner };
        self.record.push(Event { clock: self.clock, act });
        Ok(())
    }

    pub fn wait(&mut self, ticks: u32) -> Result<(), Refusal> {
        if self.file.is_none() {
            return Err(Refusal::NotLoaded);
        }
        if ticks > 0 {
            let due = self.form.due_count();
            if due > 0 {
                return Err(Refusal::DueFirst(due));
            }
        }
        let then = u64::from(self.clock) + u64::from(ticks);
        let host = self.host;
        let overdue = |call: &Pending| !host.made(call.site, call.value).can_stand(call.clock, then);
        if let Some(call) = self.form.find_pending(&mut { overdue }) {
            return Err(Refusal::Overdue(call.ticket));
        }
        if then > u64::from(CLOCK_END) {
            return Err(Refusal::ClockEnd(self.clock));
        }
        self.clock = then as u32;
        let lapsed = self.settle(None, true)?;
        self.count_lapsed(&lapsed);
        Ok(())
    }

    // The end of each call: what can no longer be answered lapses, after go and wait; then the form is simplified. If it has too many
    // bytes then, the form that was stands again. The answer is what has lapsed.
    fn settle(&mut self, before: Option<Expression>, lapses: bool) -> Result<Vec<Pending>, Refusal> {
        let mut lapsed = Vec::new();
        if lapses {
            let (host, clock) = (self.host, u64::from(self.clock));
            self.form.lapse(&mut |call| {
                let ended = !host.made(call.site, call.value).reaches(call.clock, clock);
                if ended {
                    lapsed.push(*call);
                }
                ended
            });
        }
        let size = self.form.simplify();
        if size > LONGEST {
            self.form = before.expect("kept where the form might outgrow");
            return Err(Refusal::Outgrown(size));
        }
        self.size = size;
        Ok(lapsed)
    }

    fn count_lapsed(&mut self, lapsed: &[Pending]) {
        for call in lapsed {
            self.totals[usize::from(call.site)].lapsed += 1;
        }
    }

    // --- what can be read

    pub fn clock(&self) -> u32 {
        self.clock
    }

    pub fn expression(&self) -> &Expression {
        &self.form
    }

    pub fn form(&self) -> Vec<u8> {
        self.form.form()
    }

    pub fn size(&self) -> usize {
        self.size
    }

    pub fn issued(&self) -> u32 {
        self.issued
    }

    pub fn due_count(&self) -> u32 {
        self.form.due_count()
    }

    pub fn record(&self) -> &[Event] {
        &self.record
    }

    pub fn totals(&self) -> &[Totals; 32] {
        &self.totals
    }

    // How many tickets of each site stand, counted in the form.
    pub fn standing(&self) -> [u32; 32] {
        let mut counts = [0; 32];
        for call in self.form.pending_calls() {
            counts[usize::from(call.site)] += 1;
        }
        counts
    }
}
