// How long check, begin, go, answer and wait take, in both engines, on a few forms; and how much of the stack the proved engine uses.
//
// The boundary makes a run and its calls in one go, so one call's cost is a difference: a list of calls with some more behind it, less the
// list without. The independent engine is measured in the same way.

use std::hint::black_box;

use crate::expression::{Expression, Parameter};
use crate::generate::sheet_bytes;
use crate::host::{Controller, Row, Sheet, Window, NO_END};
use crate::inputs::judge;
use crate::judging::read_sheet;
use crate::proved::{self, Request, Room};
use crate::run::{Call, Run};

pub struct Subject {
    pub name: &'static str,
    pub file: Vec<u8>,
    pub sheet: Vec<u8>,
    pub measures: Vec<Measure>,
    // The size of the standing form after begin, and at the most.
    pub sizes: (usize, usize),
}

// What is measured: the cost of `calls` behind `before`, or of the check alone.
pub struct Measure {
    pub name: &'static str,
    pub before: Vec<Call>,
    pub calls: Vec<Call>,
}

// The most calls of one kind that are measured.
const MOST: usize = 320;
const WAITS: usize = 16;

// The calls of each kind are found by the independent engine: go 0 while a call is due, then wait 1, or an answer to the leftmost ticket
// that admits one.
fn subject(name: &'static str, file: Vec<u8>, sheet: Vec<u8>) -> Subject {
    let host = Controller { sheet: read_sheet(&sheet).expect("a subject's sheet is sound") };
    let (mut run, judged) = Run::begin(&host, &file);
    judged.expect("a subject's file is sound");
    let begun = run.size();
    let mut goes = Vec::new();
    while goes.len() < MOST && run.go(0).is_ok() {
        goes.push(Call::Go(0));
    }
    let full = run.size();
    let mut waiting = run.clone();
    let waits: Vec<Call> = (0..WAITS).map(|_| Call::Wait(1)).take_while(|call| waiting.make(*call).is_ok()).collect();
    let mut before = goes.clone();
    let mut answers = Vec::new();
    if admitted(&host, &run).is_none() {
        let earliest = |call: &crate::expression::Pending| host.made(call.site, call.value).windows().iter().map(|window| window.earliest).min();
        let first = run.expression().pending_calls().iter().filter_map(earliest).min().unwrap_or(0);
        if run.wait(first).is_ok() {
            before.push(Call::Wait(first));
        }
    }
    while answers.len() < MOST {
        let Some(call) = admitted(&host, &run) else { break };
        if run.make(call).is_err() {
            break;
        }
        answers.push(call);
    }
    let measures = vec![
        Measure { name: "go", before: Vec::new(), calls: goes.clone() },
        Measure { name: "answer", before, calls: answers },
        Measure { name: "wait", before: goes, calls: waits },
    ];
    Subject { name, file, sheet, measures, sizes: (begun, full) }
}

fn admitted(host: &Controller, run: &Run) -> Option<Call> {
    let clock = run.clock();
    run.expression().pending_calls().into_iter().find_map(|call| {
        let handle = host.made(call.site, call.value);
        let window = handle.windows().iter().find(|window| window.admits(call.clock, u64::from(clock), window.lowest))?;
        Some(Call::Answer(call.ticket, window.lowest))
    })
}

// A contact that may reply anything at any time, or stay silent.
fn contact() -> Vec<u8> {
    let window = Window { earliest: 0, latest: NO_END, lowest: 0, highest: 65_535 };
    sheet_bytes(&Sheet { rows: vec![Row { site: 0, first: 0, last: 65_535, silent: true, windows: vec![window] }] })
}

fn file(goal: &Expression) -> Vec<u8> {
    let mut bytes = vec![0];
    goal.write(&mut bytes);
    bytes
}

fn balanced(leaf: &Expression, count: usize) -> Expression {
    match count {
        0 | 1 => leaf.clone(),
        _ => Expression::Parallel(Box::new(balanced(leaf, count / 2)), Box::new(balanced(leaf, count - count / 2))),
    }
}

pub fn subjects() -> Vec<Subject> {
    let timer = Expression::Site(3, Parameter::Value(1000));
    let contact_call = Expression::Site(4, Parameter::Value(0));
    // 680 calls wait for a variable, nested to the right, with a timer in the innermost place; the contact's reply binds the variable.
    let waiting = Expression::Site(0, Parameter::Variable(0));
    let mut right = timer.clone();
    for _ in 0..678 {
        right = Expression::Parallel(Box::new(waiting.clone()), Box::new(right));
    }
    let right = Expression::Pruning(0, Box::new(right), Box::new(contact_call.clone()));
    // Sequentials with a timer in the innermost left place.
    let mut left = timer;
    for _ in 0..1361 {
        left = Expression::Sequential(0, Box::new(left), Box::new(Expression::Stop));
    }
    let wide = balanced(&contact_call, 315);
    vec![
        subject("door", include_bytes!("../../crates/door/data/close.par").to_vec(), include_bytes!("../../crates/door/data/door.sheet").to_vec()),
        subject("right", file(&right), contact()),
        subject("left", file(&left), contact()),
        subject("wide", file(&wide), contact()),
    ]
}

#[derive(Clone, Copy, PartialEq, Eq)]
pub enum Engine {
    Independent,
    Proved,
}

fn check(engine: Engine, subject: &Subject) {
    match engine {
        Engine::Independent => {
            black_box(judge(black_box(&subject.file), black_box(&subject.sheet)));
        }
        Engine::Proved => {
            black_box(proved::check(black_box(&subject.file), black_box(&subject.sheet)));
        }
    }
}

// Begins a run and makes the calls. Nothing of the run is written but its state.
fn playing(engine: Engine, subject: &Subject, requests: &mut [Request], room: &mut Room) {
    match engine {
        Engine::Independent => {
            let host = Controller { sheet: read_sheet(black_box(&subject.sheet)).unwrap_or_default() };
            let (mut run, judged) = Run::begin(&host, black_box(&subject.file));
            assert!(judged.is_ok());
            for request in requests.iter_mut() {
                let call = request.call().expect("only calls are measured");
                request.outcome.number = u32::from(run.make(call).is_err());
            }
            black_box((run.clock(), run.size(), run.due_count(), run.record().len()));
        }
        Engine::Proved => {
            black_box(proved::play(black_box(&subject.file), black_box(&subject.sheet), requests, room));
        }
    }
}

fn requests(calls: &[Call]) -> Vec<Request> {
    calls.iter().copied().map(Request::of).collect()
}

fn both(measure: &Measure) -> (Vec<Request>, Vec<Request>) {
    let mut more = measure.before.clone();
    more.extend_from_slice(&measure.calls);
    (requests(&measure.before), requests(&more))
}

#[repr(C)]
struct Timespec {
    seconds: i64,
    nanoseconds: i64,
}

unsafe extern "C" {
    fn clock_gettime(clock: i32, time: *mut Timespec) -> i32;
}

// The processor time of this thread, in nanoseconds: other programs on the machine don't count.
fn processor_time() -> u64 {
    const OF_THIS_THREAD: i32 = 3;
    let mut time = Timespec { seconds: 0, nanoseconds: 0 };
    // The time is written to this function's own struct.
    unsafe { clock_gettime(OF_THIS_THREAD, &mut time) };
    time.seconds as u64 * 1_000_000_000 + time.nanoseconds as u64
}

// A work, with how often it is done in one try and the least time of it so far.
struct Timed<F> {
    work: F,
    times: u64,
    least: f64,
}

impl<F: FnMut()> Timed<F> {
    fn new(mut work: F) -> Timed<F> {
        let begun = processor_time();
        work();
        let once = (processor_time() - begun).max(50);
        Timed { work, times: (500_000 / once).clamp(1, 10_000), least: f64::INFINITY }
    }

    fn attempt(&mut self) {
        let begun = processor_time();
        for _ in 0..self.times {
            (self.work)();
        }
        self.least = self.least.min((processor_time() - begun) as f64 / self.times as f64);
    }
}

// The least times of two works that take turns, of at least 5 tries and about a second.
fn least(one: impl FnMut(), other: impl FnMut()) -> (f64, f64) {
    let (mut one, mut other) = (Timed::new(one), Timed::new(other));
    let begun = processor_time();
    let mut tries = 0;
    while tries < 5 || (tries < 400 && processor_time() - begun < 1_000_000_000) {
        one.attempt();
        other.attempt();
        tries += 1;
    }
    (one.least, other.least)
}

fn nanoseconds(engine: Engine, subject: &Subject) -> Vec<f64> {
    let mut room = Room::new(0, 0, 0);
    let (checked, begun) = least(|| check(engine, subject), || playing(engine, subject, &mut [], &mut room));
    let mut all = vec![checked, begun];
    for measure in &subject.measures {
        let (mut before, mut more) = both(measure);
        let (mut some, mut other) = (Room::new(0, 0, 0), Room::new(0, 0, 0));
        let (less, whole) = least(|| playing(engine, subject, &mut before, &mut some), || playing(engine, subject, &mut more, &mut other));
        assert!(more.iter().all(|request| request.outcome.number == 0), "a measured call was refused");
        all.push((whole - less) / measure.calls.len().max(1) as f64);
    }
    all
}

pub fn table() {
    println!("| form | bytes | call | calls measured | independent, ns | proved, ns | proved / independent |");
    println!("|---|---|---|---|---|---|---|");
    for mut subject in subjects().into_iter().chain(deepest()) {
        // What is left of some forms after begin is too small to be measured behind it.
        let large = subject.file.len() < 200 || subject.sizes.0 > 1000;
        subject.measures.retain(|measure| large && !measure.calls.is_empty());
        let independent = nanoseconds(Engine::Independent, &subject);
        let proved = nanoseconds(Engine::Proved, &subject);
        let names = ["check", "begin"].into_iter().chain(subject.measures.iter().map(|measure| measure.name));
        let counts = [1, 1].into_iter().chain(subject.measures.iter().map(|measure| measure.calls.len()));
        for (((name, count), a), b) in names.zip(counts).zip(independent).zip(proved) {
            println!("| {} | {} to {} | {name} | {count} | {a:.0} | {b:.0} | {:.1} |", subject.name, subject.sizes.0, subject.sizes.1, b / a);
        }
    }
}

// One play of one list, for a count of its instructions: `once ENGINE FORM CALL less|whole`.
pub fn once(words: &[String]) -> Result<(), String> {
    let [engine, form, call, which] = words else {
        return Err("once ENGINE FORM CALL less|whole".into());
    };
    let engine = if engine == "proved" { Engine::Proved } else { Engine::Independent };
    let subjects = subjects();
    let subject = subjects.iter().find(|subject| subject.name == *form).ok_or("no such form")?;
    let mut room = Room::new(0, 0, 0);
    let whole = which == "whole";
    match call.as_str() {
        // Less: nothing is done at all.
        "check" if whole => check(engine, subject),
        "begin" if whole => playing(engine, subject, &mut [], &mut room),
        "check" | "begin" => {}
        _ => {
            let measure = subject.measures.iter().find(|measure| measure.name == call).ok_or("no such call")?;
            let (mut before, mut more) = both(measure);
            playing(engine, subject, if whole { &mut more } else { &mut before }, &mut room);
        }
    }
    Ok(())
}

// How many calls each measure makes: lines of form, call and count.
pub fn counts() {
    for subject in subjects() {
        println!("{} check 1", subject.name);
        println!("{} begin 1", subject.name);
        for measure in subject.measures {
            println!("{} {} {}", subject.name, measure.name, measure.calls.len());
        }
    }
}

// --- the stack

const PAINT: u8 = 0xc7;
const PAINTED: usize = 64 << 20;

// Paints the stack below, does the work, and looks how far down the paint is gone. What was reserved and never written isn't seen.
#[inline(never)]
fn stack_used(work: impl FnOnce()) -> usize {
    let here = 0u8;
    let top = &raw const here as usize - 512;
    let bottom = top - PAINTED;
    for address in bottom..top {
        // The thread's stack is twice as large as what is painted, and nothing lives below this frame.
        unsafe { (address as *mut u8).write_volatile(PAINT) };
    }
    work();
    let kept = (bottom..top).take_while(|address| unsafe { (*address as *const u8).read_volatile() } == PAINT).count();
    PAINTED - kept
}

pub fn stacks() {
    println!("| form | check | begin | begin and all calls |");
    println!("|---|---|---|---|");
    for subject in subjects().iter().chain(&deepest()) {
        let mut room = Room::new(4096, 512, 32);
        let checked = stack_used(|| check(Engine::Proved, subject));
        let begun = stack_used(|| playing(Engine::Proved, subject, &mut [], &mut room));
        let mut most = 0;
        for measure in &subject.measures {
            let (_, mut more) = both(measure);
            // A call that may outgrow comes last.
            more.push(Request::of(Call::Go(0)));
            most = most.max(stack_used(|| playing(Engine::Proved, subject, &mut more, &mut room)));
        }
        println!("| {} | {checked} | {begun} | {most} |", subject.name);
    }
    let (depth, used) = growing();
    println!("| a transition's result of {depth} levels | | | {used} |");
}

// A form that grows to its full size by one definition, 98 prunings nested to the right and then both definitions, and then unfolds the
// other, stops beside each other as deep as the file has room for. How many levels the result has before it is simplified, and the stack.
fn growing() -> (usize, usize) {
    let both = Expression::Parallel(Box::new(Expression::Definition(0, Parameter::Value(0))), Box::new(Expression::Definition(1, Parameter::Value(0))));
    let mut grows = both;
    for _ in 0..98 {
        grows = Expression::Pruning(0, Box::new(Expression::Stop), Box::new(grows));
    }
    let mut deep = Expression::Site(0, Parameter::Value(0));
    let room = 4096 - (1 + 3 + grows.size() + 3 + 5);
    let levels = (room - 5) / 2;
    for _ in 0..levels {
        deep = Expression::Parallel(Box::new(Expression::Stop), Box::new(deep));
    }
    let mut bytes = vec![2];
    for body in [&grows, &deep] {
        bytes.push(0);
        bytes.extend_from_slice(&(body.size() as u16).to_be_bytes());
        body.write(&mut bytes);
    }
    Expression::Definition(0, Parameter::Value(0)).write(&mut bytes);
    let host = Controller::default();
    let (mut run, judged) = Run::begin(&host, &bytes);
    judged.expect("a file within its length");
    let mut calls = Vec::new();
    while run.go(0).is_ok() {
        calls.push(Call::Go(0));
    }
    let depth = 99 * calls.len() + levels;
    // The leftmost of the other definition's calls stands innermost.
    calls.push(Call::Go(1));
    run.go(1).expect("what it becomes is simplified");
    let subject = Subject { name: "growing", file: bytes, sheet: Vec::new(), measures: Vec::new(), sizes: (5, run.size()) };
    let mut requests = requests(&calls);
    let mut room = Room::new(4096, 512, 32);
    let used = stack_used(|| playing(Engine::Proved, &subject, &mut requests, &mut room));
    assert!(requests.iter().all(|request| request.outcome.number == 0));
    (depth, used)
}

// Forms that are as deep as a file allows, beside those of the table.
fn deepest() -> Vec<Subject> {
    let timer = Expression::Site(3, Parameter::Value(1000));
    let nested = |levels: usize, inner: &Expression, outer: &dyn Fn(Expression) -> Expression| {
        let mut all = inner.clone();
        for _ in 0..levels {
            all = outer(all);
        }
        file(&all)
    };
    let stop = || Box::new(Expression::Stop);
    vec![
        subject("stop", file(&Expression::Stop), Vec::new()),
        subject("parallels to the left, of stops", nested(2045, &timer, &|f| Expression::Parallel(Box::new(f), stop())), contact()),
        subject("parallels to the right, of stops", nested(2045, &timer, &|f| Expression::Parallel(stop(), Box::new(f))), contact()),
        subject("prunings to the right", nested(1361, &timer, &|f| Expression::Pruning(0, stop(), Box::new(f))), contact()),
        subject("prunings to the left", nested(1361, &timer, &|f| Expression::Pruning(0, Box::new(f), stop())), contact()),
        subject("sequentials to the right", nested(1361, &timer, &|f| Expression::Sequential(0, stop(), Box::new(f))), contact()),
    ]
}
