// Random lives of runs, made by the independent engine and played again by the proved one.

use crate::coverage::Coverage;
use crate::difference::Difference;
use crate::expression::Pending;
use crate::generate::{self, Kind};
use crate::host::{Controller, NO_END};
use crate::judging::{read_sheet, LONGEST};
use crate::proved::{self, Counts, Judgement, Request, Room, Row, State, Verdict, NO_CALL};
use crate::random::Random;
use crate::run::{Call, Run, CLOCK_END, RECORD};

pub const SITES: usize = 32;

// --- what a run holds, in the numbers of the boundary

#[derive(Clone, PartialEq, Eq, Debug)]
pub struct Snapshot {
    pub judgement: Judgement,
    pub state: State,
    pub form: Vec<u8>,
    pub events: Vec<Row>,
    pub totals: Vec<Counts>,
}

pub fn verdict(told: Result<(), (u32, u32)>) -> Verdict {
    match told {
        Ok(()) => Verdict::default(),
        Err((number, place)) => Verdict { number, place },
    }
}

pub fn snapshot(judgement: Judgement, run: &Run) -> Snapshot {
    let form = run.form();
    let standing = run.standing();
    let totals = run.totals().iter().zip(standing).map(|(counts, standing)| {
        Counts { called: counts.called, answered: counts.answered, withdrawn: counts.withdrawn, lapsed: counts.lapsed, standing }
    });
    Snapshot {
        judgement,
        state: State { clock: run.clock(), size: run.size() as u32, due: run.due_count(), events: run.record().len() as u32 },
        form,
        events: run.record().iter().copied().map(Row::of).collect(),
        totals: totals.collect(),
    }
}

// --- choosing the next call

// How the calls of a life are chosen.
#[derive(Clone, Copy)]
struct Habits {
    // Of 100 calls, so many are wild.
    wild: u64,
    // Of 100 calls with something due, so many are go.
    eager: u64,
    // Of 100 waits, so many go to the clock's end.
    late: u64,
}

fn edge(r: &mut Random) -> u32 {
    match r.below(7) {
        0 => 0,
        1 => 1,
        2 => NO_END,
        3 => NO_END - 1 - r.below(4) as u32,
        4 => r.below(20) as u32,
        5 => 1 << r.below(32),
        _ => r.word() as u32,
    }
}

fn wild(r: &mut Random, run: &Run) -> Request {
    let ticket = if r.once_in(2) { edge(r) } else { r.below(u64::from(run.issued()) + 3) as u32 };
    let call = match r.below(8) {
        0 | 1 => Call::Go(edge(r)),
        2 => Call::Go(run.due_count().saturating_add(r.below(2) as u32)),
        3 | 4 => Call::Answer(ticket, if r.once_in(2) { r.word() as u16 } else { r.below(4) as u16 }),
        5 => Call::Wait(CLOCK_END - run.clock() + r.below(3) as u32 - r.below(2).min(u64::from(CLOCK_END - run.clock())) as u32),
        _ => Call::Wait(edge(r)),
    };
    let mut request = Request::of(call);
    match r.below(24) {
        // These are no calls.
        0 => request.kind = r.pick(&[3, 4, 256, 65_536, NO_END]),
        1 => request.value = r.pick(&[65_536, 65_537, 131_072, NO_END]),
        // The value of a go or a wait is not looked at, up to 65,535.
        2 if request.kind != 1 => request.value = r.below(65_536) as u32,
        _ => {}
    }
    request
}

fn answer(r: &mut Random, host: &Controller, clock: u32, pending: &Pending) -> Option<Call> {
    let age = clock - pending.clock;
    let handle = host.made(pending.site, pending.value);
    let open: Vec<_> = handle.windows().iter().filter(|w| w.earliest <= age && (w.latest == NO_END || age <= w.latest)).collect();
    if open.is_empty() && !r.once_in(8) {
        return None;
    }
    let any = handle.windows();
    let window = if open.is_empty() { any.get(r.index(any.len().max(1)))? } else { r.pick(&open) };
    let value = match r.below(16) {
        0 => window.lowest.wrapping_sub(1),
        1 => window.highest.wrapping_add(1),
        2 => r.word() as u16,
        3..=6 => window.lowest,
        7..=9 => window.highest,
        _ => r.between(u64::from(window.lowest), u64::from(window.highest)) as u16,
    };
    Some(Call::Answer(pending.ticket, value))
}

fn wait(r: &mut Random, host: &Controller, clock: u32, pending: &[Pending], habits: Habits) -> Call {
    if r.percent(habits.late) {
        return Call::Wait((CLOCK_END - clock).saturating_sub(r.below(16) as u32));
    }
    // Up to an edge of a window, or one tick aside of it.
    let mut edges: Vec<u64> = Vec::new();
    for call in pending {
        for window in host.made(call.site, call.value).windows() {
            for end in [window.earliest, window.latest] {
                if end != NO_END {
                    let tick = u64::from(call.clock) + u64::from(end);
                    if tick >= u64::from(clock) {
                        edges.push(tick - u64::from(clock));
                    }
                }
            }
        }
    }
    edges.sort_unstable();
    let ticks = match r.below(20) {
        0 => 0,
        1 => r.below(3),
        2 => r.below(300),
        3 => u64::from(edge(r)),
        _ if edges.is_empty() => r.below(4),
        4..=14 => edges[r.index(edges.len().min(3))],
        15 => r.pick(&edges),
        16 => edges[0].saturating_sub(1),
        _ => edges[0] + 1,
    };
    Call::Wait(ticks.min(u64::from(NO_END)) as u32)
}

fn next(r: &mut Random, host: &Controller, run: &Run, habits: Habits) -> Request {
    if r.percent(habits.wild) {
        return wild(r, run);
    }
    let due = run.due_count();
    if due > 0 && r.percent(habits.eager) {
        let beyond = u64::from(r.once_in(40));
        return Request::of(Call::Go(r.below(u64::from(due) + beyond) as u32));
    }
    let pending = run.expression().pending_calls();
    if !pending.is_empty() && r.percent(75) {
        for _ in 0..3 {
            let chosen = pending[r.index(pending.len())];
            if let Some(call) = answer(r, host, run.clock(), &chosen) {
                return Request::of(call);
            }
        }
    }
    if run.issued() > 0 && r.once_in(12) {
        // Mostly a ticket that has ended.
        return Request::of(Call::Answer(r.between(1, u64::from(run.issued()) + 1) as u32, r.below(3) as u16));
    }
    if due > 0 && !r.once_in(6) {
        return Request::of(Call::Go(r.below(u64::from(due)) as u32));
    }
    Request::of(wait(r, host, run.clock(), &pending, habits))
}

// --- one life

pub struct Rooms {
    whole: Room,
}

impl Rooms {
    pub fn new() -> Rooms {
        Rooms { whole: Room::new(LONGEST, RECORD, SITES) }
    }
}

pub fn life(seed: u64, case: u64, rooms: &mut Rooms, coverage: &mut Coverage) -> Result<(), Difference> {
    let mut r = Random::of(seed, 1, case);
    let r = &mut r;
    let sheet = generate::sheet(r);
    let mut sheet_bytes = generate::sheet_bytes(&sheet);
    let kind = match r.below(1000) {
        0..=4 => Kind::Large,
        5..=19 => Kind::Growing,
        20..=22 => Kind::Endless,
        _ => Kind::Small,
    };
    let file = {
        let mut bytes = generate::file(r, &sheet, kind, 0);
        if r.once_in(60) {
            generate::damage(r, &mut bytes, &sheet_bytes);
        }
        if r.once_in(200) {
            generate::damage(r, &mut sheet_bytes, &bytes);
        }
        bytes
    };
    let most = match kind {
        Kind::Small => {
            if r.once_in(40) {
                r.between(100, 400)
            } else {
                r.between(4, 60)
            }
        }
        Kind::Large => r.between(4, 30),
        Kind::Growing => r.between(20, 400),
        Kind::Endless => {
            if r.once_in(2) {
                2600
            } else {
                r.between(20, 400)
            }
        }
    } as usize;
    let habits = Habits {
        wild: if r.once_in(10) { 30 } else { 4 },
        eager: if kind == Kind::Growing { 90 } else { r.pick(&[60, 60, 85, 97]) },
        late: if r.once_in(30) { 25 } else { 0 },
    };
    // Most endless lives come soon after another to a full record.
    let habits = if kind == Kind::Endless { Habits { wild: 2, eager: 97, ..habits } } else { habits };

    // The independent engine.
    let judged_sheet = read_sheet(&sheet_bytes);
    let host = Controller { sheet: judged_sheet.clone().unwrap_or_default() };
    let (mut run, judged_file) = Run::begin(&host, &file);
    let judgement = Judgement {
        sheet: verdict(judged_sheet.map(|_| ()).map_err(|fault| fault.told())),
        file: verdict(judged_file.map_err(|fault| fault.told())),
    };
    coverage.lives += 1;
    coverage.files[judgement.file.number as usize] += 1;
    let stop_at = [r.index(most), r.index(most.min(12))];
    let mut points: Vec<(usize, Snapshot)> = Vec::new();
    let mut requests: Vec<Request> = Vec::with_capacity(most);
    let mut idle = 0;
    for made in 0..most {
        if stop_at.contains(&made) {
            points.push((made, snapshot(judgement, &run)));
        }
        let mut request = next(r, &host, &run, habits);
        let reply = request.call().and_then(|call| on_edge(&host, &run, call));
        request.outcome = match request.call() {
            None => NO_CALL,
            Some(call) => verdict(run.make(call).map_err(|refusal| refusal.told())),
        };
        met(coverage, &request, &run, reply);
        coverage.largest_form = coverage.largest_form.max(run.size() as u64);
        requests.push(request);
        // A run with nothing left to do, or at a limit, is left after some calls.
        let over = run.due_count() == 0 && run.expression().find_pending(&mut |_| true).is_none();
        if over || run.record().len() == RECORD || request.outcome.number == 28 {
            idle += 1;
            if idle > 6 {
                break;
            }
        }
    }
    let ended = snapshot(judgement, &run);
    count(coverage, &ended, requests.len());

    // The proved engine plays the same calls, and their first ones.
    let differs = |calls: &[Request], what: String| Difference::of(seed, "lives", case, &file, &sheet_bytes, calls, what);
    play(&file, &sheet_bytes, &requests, &ended, &mut rooms.whole).map_err(|what| differs(&requests, what))?;
    for (made, expected) in &points {
        if *made >= requests.len() {
            continue;
        }
        coverage.prefixes += 1;
        let calls = &requests[..*made];
        let told = if r.once_in(4) {
            // The caller's memory may be shorter or longer.
            let form = r.pick(&[0, 1, expected.form.len().saturating_sub(1), expected.form.len() + 1, 5000]);
            let events = r.pick(&[0, 1, expected.events.len().saturating_sub(1), expected.events.len() + 1, 600]);
            let totals = r.pick(&[0, 1, 31, 33, 40]);
            play(&file, &sheet_bytes, calls, expected, &mut Room::new(form, events, totals))
        } else {
            play(&file, &sheet_bytes, calls, expected, &mut rooms.whole)
        };
        told.map_err(|what| differs(calls, what))?;
    }
    Ok(())
}

// The ages of the window that a reply falls in: is it the first, and the last?
fn on_edge(host: &Controller, run: &Run, call: Call) -> Option<(bool, bool)> {
    let Call::Answer(ticket, value) = call else { return None };
    let pending = run.expression().standing(ticket)?.pending;
    let age = run.clock() - pending.clock;
    let handle = host.made(pending.site, pending.value);
    let window = handle.windows().iter().find(|w| w.earliest < w.latest && w.admits(pending.clock, u64::from(run.clock()), value))?;
    Some((age == window.earliest, age == window.latest))
}

fn met(coverage: &mut Coverage, request: &Request, run: &Run, reply: Option<(bool, bool)>) {
    let kind = match request.call() {
        None => {
            coverage.no_calls += 1;
            return;
        }
        Some(Call::Go(_)) => 0,
        Some(Call::Answer(..)) => 1,
        Some(Call::Wait(_)) => 2,
    };
    if request.outcome.number != 0 {
        coverage.refused[kind][request.outcome.number as usize] += 1;
        coverage.just_not += u64::from(request.outcome.number == 28 && request.outcome.place as usize == LONGEST + 1);
        return;
    }
    coverage.accepted[kind] += 1;
    coverage.just_fits += u64::from(kind != 2 && run.size() == LONGEST);
    if let Some((earliest, latest)) = reply {
        coverage.earliest += u64::from(earliest);
        coverage.latest += u64::from(latest);
    }
}

fn count(coverage: &mut Coverage, ended: &Snapshot, calls: usize) {
    for event in &ended.events {
        coverage.events[event.kind as usize] += 1;
    }
    for counts in &ended.totals {
        coverage.called += u64::from(counts.called);
        coverage.answered += u64::from(counts.answered);
        coverage.withdrawn += u64::from(counts.withdrawn);
        coverage.lapsed += u64::from(counts.lapsed);
        coverage.standing += u64::from(counts.standing);
    }
    coverage.longest_life = coverage.longest_life.max(calls as u64);
    coverage.full_records += u64::from(ended.events.len() == RECORD);
    coverage.late_clocks += u64::from(ended.state.clock == CLOCK_END);
}

// Bytes that no engine writes by chance.
const UNTOUCHED: u8 = 0xa5;
const WORD: u32 = 0xa5a5_a5a5;
const ROW: Row = Row { clock: WORD, kind: WORD, number: WORD, value: WORD };
const COUNTS: Counts = Counts { called: WORD, answered: WORD, withdrawn: WORD, lapsed: WORD, standing: WORD };

// Plays the requests with the proved engine and holds all that it tells against what is expected.
pub fn play(file: &[u8], sheet: &[u8], requests: &[Request], expected: &Snapshot, room: &mut Room) -> Result<(), String> {
    room.form.fill(UNTOUCHED);
    room.events.fill(ROW);
    room.totals.fill(COUNTS);
    let mut calls: Vec<Request> = requests.iter().map(|request| Request { outcome: Verdict { number: WORD, place: WORD }, ..*request }).collect();
    let (judgement, state) = proved::play(file, sheet, &mut calls, room);
    if judgement != expected.judgement {
        return Err(format!("judgement: independent {:?}, proved {:?}", expected.judgement, judgement));
    }
    if let Some(at) = (0..calls.len()).find(|at| calls[*at] != requests[*at]) {
        return Err(format!("call {at}: independent {:?}, proved {:?}", requests[at], calls[at]));
    }
    if state != expected.state {
        return Err(format!("state: independent {:?}, proved {:?}", expected.state, state));
    }
    written("form", &expected.form, &room.form, UNTOUCHED)?;
    written("events", &expected.events, &room.events, ROW)?;
    written("totals", &expected.totals, &room.totals, COUNTS)
}

// As far as there is room, what is expected; behind it, what was there.
fn written<T: PartialEq + Copy + std::fmt::Debug>(what: &str, expected: &[T], room: &[T], untouched: T) -> Result<(), String> {
    for (at, found) in room.iter().enumerate() {
        let wanted = expected.get(at).copied().unwrap_or(untouched);
        if *found != wanted {
            return Err(format!("{what} at {at} of {}: independent {wanted:?}, proved {found:?}", expected.len()));
        }
    }
    Ok(())
}

pub fn whole(rooms: &mut Rooms) -> &mut Room {
    &mut rooms.whole
}
