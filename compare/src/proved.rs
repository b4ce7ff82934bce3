// The proved engine, through its C boundary.

use crate::run::{Act, Call, Event};

#[repr(C)]
#[derive(Clone, Copy, PartialEq, Eq, Debug, Default)]
pub struct Verdict {
    pub number: u32,
    pub place: u32,
}

#[repr(C)]
#[derive(Clone, Copy, PartialEq, Eq, Debug, Default)]
pub struct Judgement {
    pub sheet: Verdict,
    pub file: Verdict,
}

// A call, and what it met. Any numbers may stand in it: kind 3 and above, and values above 65,535, are no calls.
#[repr(C)]
#[derive(Clone, Copy, PartialEq, Eq, Debug, Default)]
pub struct Request {
    pub kind: u32,
    pub number: u32,
    pub value: u32,
    pub outcome: Verdict,
}

#[repr(C)]
#[derive(Clone, Copy, PartialEq, Eq, Debug, Default)]
pub struct Row {
    pub clock: u32,
    pub kind: u32,
    pub number: u32,
    pub value: u32,
}

#[repr(C)]
#[derive(Clone, Copy, PartialEq, Eq, Debug, Default)]
pub struct Counts {
    pub called: u32,
    pub answered: u32,
    pub withdrawn: u32,
    pub lapsed: u32,
    pub standing: u32,
}

#[repr(C)]
#[derive(Clone, Copy, PartialEq, Eq, Debug, Default)]
pub struct State {
    pub clock: u32,
    pub size: u32,
    pub due: u32,
    pub events: u32,
}

unsafe extern "C" {
    fn teyumbi_check(file: *const u8, file_length: usize, sheet: *const u8, sheet_length: usize, judgement: *mut Judgement);
    fn teyumbi_play(
        file: *const u8,
        file_length: usize,
        sheet: *const u8,
        sheet_length: usize,
        calls: *mut Request,
        calls_length: usize,
        form: *mut u8,
        form_length: usize,
        events: *mut Row,
        events_length: usize,
        totals: *mut Counts,
        totals_length: usize,
        judgement: *mut Judgement,
        state: *mut State,
    );
}

pub const NO_CALL: Verdict = Verdict { number: u32::MAX, place: 0 };

impl Request {
    pub fn of(call: Call) -> Request {
        let (kind, number, value) = match call {
            Call::Go(number) => (0, number, 0),
            Call::Answer(ticket, value) => (1, ticket, u32::from(value)),
            Call::Wait(ticks) => (2, ticks, 0),
        };
        Request { kind, number, value, outcome: Verdict::default() }
    }

    // None if this is no call.
    pub fn call(&self) -> Option<Call> {
        let value = u16::try_from(self.value).ok()?;
        match self.kind {
            0 => Some(Call::Go(self.number)),
            1 => Some(Call::Answer(self.number, value)),
            2 => Some(Call::Wait(self.number)),
            _ => None,
        }
    }
}

impl Row {
    pub fn of(event: Event) -> Row {
        let (kind, number, value) = match event.act {
            Act::Called(site, value) => (0, u32::from(site), u32::from(value)),
            Act::Inner => (1, 0, 0),
            Act::Out(value) => (2, 0, u32::from(value)),
        };
        Row { clock: event.clock, kind, number, value }
    }
}

pub fn check(file: &[u8], sheet: &[u8]) -> Judgement {
    let mut judgement = Judgement::default();
    // The slices give the pointers their lengths; the judgement is this function's own.
    unsafe { teyumbi_check(file.as_ptr(), file.len(), sheet.as_ptr(), sheet.len(), &mut judgement) };
    judgement
}

// The caller's memory: as long as the caller likes. What is not written stays as it was.
pub struct Room {
    pub form: Vec<u8>,
    pub events: Vec<Row>,
    pub totals: Vec<Counts>,
}

impl Room {
    pub fn new(form: usize, events: usize, totals: usize) -> Room {
        Room { form: vec![0; form], events: vec![Row::default(); events], totals: vec![Counts::default(); totals] }
    }
}

pub fn play(file: &[u8], sheet: &[u8], calls: &mut [Request], room: &mut Room) -> (Judgement, State) {
    let (mut judgement, mut state) = (Judgement::default(), State::default());
    // The slices give the pointers their lengths, and none of them lies in another.
    unsafe {
        teyumbi_play(
            file.as_ptr(),
            file.len(),
            sheet.as_ptr(),
            sheet.len(),
            calls.as_mut_ptr(),
            calls.len(),
            room.form.as_mut_ptr(),
            room.form.len(),
            room.events.as_mut_ptr(),
            room.events.len(),
            room.totals.as_mut_ptr(),
            room.totals.len(),
            &mut judgement,
            &mut state,
        )
    };
    (judgement, state)
}
