// Cases with numbers that are known beforehand, run in both engines.

use crate::difference::Difference;
use crate::host::Controller;
use crate::judging::read_sheet;
use crate::lives::{play, snapshot, verdict, Rooms};
use crate::proved::{Judgement, Request, Verdict};
use crate::run::{Call, Run};
use crate::lives;

struct Case {
    name: &'static str,
    file: &'static [u8],
    judged: (u32, u32),
    // Calls, and what each meets.
    calls: Vec<(Call, (u32, u32))>,
    // Size, due, clock and events at the end.
    ended: (u32, u32, u32, u32),
    // The form, if it is short.
    form: Option<&'static [u8]>,
}

const OK: (u32, u32) = (0, 0);

fn cases() -> Vec<Case> {
    let go = |number| (Call::Go(number), OK);
    let answer = |ticket, value| (Call::Answer(ticket, value), OK);
    let wait = |ticks| (Call::Wait(ticks), OK);
    let mut doubling: Vec<(Call, (u32, u32))> = (0..227).map(|_| go(0)).collect();
    doubling.push((Call::Go(0), (28, 4109)));
    vec![
        Case { name: "a free variable", file: &[0, 1, 0, 1, 0, 3], judged: (6, 4), calls: vec![(Call::Go(0), (21, 0))], ended: (1, 0, 0, 0), form: Some(&[0]) },
        Case {
            name: "four calls of itself",
            file: &[1, 0, 0, 23, 3, 3, 3, 2, 0, 0, 0, 0, 2, 0, 0, 0, 0, 2, 0, 0, 0, 0, 2, 0, 0, 0, 0, 2, 0, 0, 0, 0],
            judged: OK,
            calls: doubling,
            ended: (4091, 682, 0, 227),
            form: None,
        },
        Case { name: "stop", file: &[0, 0], judged: OK, calls: vec![(Call::Go(0), (22, 0)), wait(7)], ended: (1, 0, 7, 0), form: Some(&[0]) },
        Case {
            name: "let",
            file: &[0, 1, 0, 0, 0, 5],
            judged: OK,
            calls: vec![go(0), (Call::Answer(1, 6), (24, 1)), answer(1, 5)],
            ended: (1, 0, 0, 2),
            form: Some(&[0]),
        },
        Case {
            name: "if of false",
            file: &[0, 1, 1, 0, 0, 0],
            judged: OK,
            calls: vec![go(0), (Call::Answer(1, 0), (23, 1))],
            ended: (1, 0, 0, 1),
            form: Some(&[0]),
        },
        Case {
            name: "rtimer",
            file: &[0, 1, 3, 0, 0, 3],
            judged: OK,
            calls: vec![go(0), (Call::Wait(4), (26, 1)), wait(2), (Call::Answer(1, 0), (24, 1)), wait(1), answer(1, 0)],
            ended: (1, 0, 3, 2),
            form: Some(&[0]),
        },
        Case {
            name: "each reply spawns a copy",
            file: &[0, 4, 7, 3, 1, 0, 0, 0, 1, 1, 0, 0, 0, 2, 1, 0, 1, 0, 7],
            judged: OK,
            calls: vec![go(0), go(0), answer(1, 1)],
            ended: (25, 1, 0, 3),
            form: None,
        },
        Case {
            name: "the first reply wins",
            file: &[0, 5, 0, 1, 0, 1, 0, 0, 3, 1, 0, 0, 0, 1, 1, 0, 0, 0, 2],
            judged: OK,
            calls: vec![go(0), go(0), answer(2, 2), (Call::Answer(1, 1), (23, 1))],
            ended: (5, 1, 0, 3),
            form: Some(&[1, 0, 0, 0, 2]),
        },
        Case {
            name: "the nearest binder counts",
            file: &[0, 5, 0, 5, 0, 1, 0, 1, 0, 0, 1, 3, 0, 0, 9, 1, 0, 0, 0, 4],
            judged: OK,
            calls: vec![go(1), answer(1, 4)],
            ended: (12, 1, 0, 2),
            form: Some(&[5, 0, 1, 0, 1, 0, 0, 1, 3, 0, 0, 9]),
        },
        Case { name: "an unknown site", file: &[0, 1, 4, 0, 0, 0], judged: (5, 2), calls: vec![], ended: (1, 0, 0, 0), form: Some(&[0]) },
    ]
}

// How many cases there are.
pub fn run(rooms: &mut Rooms) -> Result<usize, Difference> {
    let cases = cases();
    for (number, case) in cases.iter().enumerate() {
        one(case, rooms).map_err(|(calls, what)| Difference::of(0, "cases", number as u64, case.file, &[], &calls, format!("{}: {what}", case.name)))?;
    }
    Ok(cases.len())
}

fn one(case: &Case, rooms: &mut Rooms) -> Result<(), (Vec<Request>, String)> {
    let pair = |(number, place)| Verdict { number, place };
    let host = Controller { sheet: read_sheet(&[]).unwrap_or_default() };
    let (mut run, judged) = Run::begin(&host, case.file);
    let judgement = Judgement { sheet: Verdict::default(), file: verdict(judged.map_err(|fault| fault.told())) };
    let mut requests: Vec<Request> = Vec::new();
    for (call, expected) in &case.calls {
        let outcome = verdict(run.make(*call).map_err(|refusal| refusal.told()));
        requests.push(Request { outcome: pair(*expected), ..Request::of(*call) });
        if outcome != pair(*expected) {
            return Err((requests, format!("independent {outcome:?} and expected {expected:?}")));
        }
    }
    let found = snapshot(judgement, &run);
    let state = (found.state.size, found.state.due, found.state.clock, found.state.events);
    if judgement.file != pair(case.judged) || state != case.ended || case.form.is_some_and(|form| form != found.form) {
        return Err((requests, format!("independent {judgement:?} {:?} form {:?}", found.state, found.form)));
    }
    play(case.file, &[], &requests, &found, lives::whole(rooms)).map_err(|what| (requests, what))
}
