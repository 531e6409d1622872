// Times the libraries and the plain implementation on the same machines, and sees that they write the same rows.
use crate::inputs::{chain, machine, Numbers, Outputs};
use crate::plain::{Machine, Verdict};
use crate::{library, plain};
use std::hint::black_box;
use std::process::ExitCode;

const RUNS: usize = 5;

#[repr(C)]
struct Moment {
    seconds: i64,
    nanoseconds: i64,
}

extern "C" {
    fn clock_gettime(clock: i32, moment: *mut Moment) -> i32;
}

// The processor time of this process, in milliseconds: other work on the same machine disturbs it less than the time of day.
fn processor_time() -> f64 {
    const PROCESS_TIME: i32 = 2;
    let mut moment = Moment {
        seconds: 0,
        nanoseconds: 0,
    };
    let failed = unsafe { clock_gettime(PROCESS_TIME, &mut moment) };
    assert_eq!(failed, 0, "the processor time can't be read");
    moment.seconds as f64 * 1e3 + moment.nanoseconds as f64 / 1e6
}

// The shortest of some runs, in milliseconds.
fn timed<T>(mut run: impl FnMut() -> T) -> f64 {
    let mut best = f64::INFINITY;
    for _ in 0..RUNS {
        let start = processor_time();
        black_box(run());
        best = best.min(processor_time() - start);
    }
    best
}

// Of some machines with these outputs that are minimal, the one with the most separating words.
fn most_separating(seed: u64, states: usize, keys: usize, outputs: Outputs, tries: usize) -> Option<Machine> {
    let mut numbers = Numbers::from(seed);
    (0..tries)
        .map(|_| machine(&mut numbers, states, keys, outputs))
        .filter(|made| made.redundant().is_none())
        .max_by_key(|made| made.separating().len())
}

fn machines(states: usize, keys: usize) -> Vec<(&'static str, Machine)> {
    let three = most_separating(5, states, keys, Outputs::Three, 20);
    let few = most_separating(6, states, keys, Outputs::Few, 300);
    let long = chain(&mut Numbers::from(7), states, keys);
    let named = [
        ("three outputs", three),
        ("few outputs differ", few),
        ("chain", Some(long)),
    ];
    named
        .into_iter()
        .filter_map(|(name, made)| Some((name, made?)))
        .collect()
}

// Milliseconds for the tests of a machine: writing them, by the library and in two plain ways, and judging what was shown on them.
struct Times {
    tests: usize,
    write: f64,
    set: f64,
    thrifty: f64,
    judge: f64,
    running: f64,
    whole: f64,
}

fn measure(made: &Machine, extra: u64) -> Result<Times, String> {
    let row = made.row();
    let tests = made.tests(extra as usize);
    let shown: Vec<u64> = tests.iter().flat_map(|test| made.show(test)).collect();
    let room = plain::room_for(&tests);
    let (mut written, mut expected, mut direct) = (vec![0; room], vec![0; room], vec![0; room]);
    let write = timed(|| library::write_tests(&row, extra, &mut written));
    let set = timed(|| plain::write_tests(&row, extra, &mut expected));
    let thrifty = timed(|| plain::write_tests_thriftily(&row, extra, &mut direct));
    if written != expected || written != direct || written[0] != tests.len() as u64 {
        return Err(format!("another row is written: row {row:?}, extra {extra}"));
    }
    if library::judge(&row, extra, &shown) != Ok(Verdict::Passed) {
        return Err(format!("another verdict: row {row:?}, extra {extra}"));
    }
    let judge = timed(|| library::judge(&row, extra, &shown));
    let running = timed(|| plain::judge_tests(made, &tests, &shown));
    let whole = timed(|| plain::judge(&row, extra, &shown));
    Ok(Times {
        tests: tests.len(),
        write,
        set,
        thrifty,
        judge,
        running,
        whole,
    })
}

fn report(name: &str, made: &Machine) -> Result<(), String> {
    let words = made.separating();
    let longest = words.iter().map(Vec::len).max().unwrap_or(0);
    let times = (0..=3)
        .map(|extra| measure(made, extra))
        .collect::<Result<Vec<_>, _>>()?;
    let size = format!("{} states, {} keys, {name}", made.states, made.keys);
    println!("\n{size}: {} separating words of at most {longest} keys\n", words.len());
    println!("| e | tests | times as many | write_tests | times as long | set | ratio | thrifty set | ratio |");
    println!("|--:|--:|--:|--:|--:|--:|--:|--:|--:|");
    for (extra, t) in times.iter().enumerate() {
        let before = &times[extra.saturating_sub(1)];
        let (many, long) = (t.tests as f64 / before.tests as f64, t.write / before.write);
        let (set, thrifty) = (t.write / t.set, t.write / t.thrifty);
        print!("| {extra} | {} | {many:.1} | {:.3} | {long:.1} ", t.tests, t.write);
        println!("| {:.3} | {set:.2} | {:.3} | {thrifty:.2} |", t.set, t.thrifty);
    }
    println!("\n| e | judge | running alone | ratio | tests made by a set | ratio |");
    println!("|--:|--:|--:|--:|--:|--:|");
    for (extra, t) in times.iter().enumerate() {
        let (running, whole) = (t.judge / t.running, t.judge / t.whole);
        println!(
            "| {extra} | {:.3} | {:.3} | {running:.2} | {:.3} | {whole:.2} |",
            t.judge, t.running, t.whole
        );
    }
    Ok(())
}

fn report_all() -> Result<(), String> {
    println!("Milliseconds of processor time, the shortest of {RUNS} runs; a ratio is ours to plain.");
    for (states, keys) in [(4, 2), (8, 4), (12, 6), (16, 4), (16, 8)] {
        for (name, made) in machines(states, keys) {
            report(name, &made)?;
        }
    }
    Ok(())
}

pub fn run() -> ExitCode {
    match report_all() {
        Ok(()) => ExitCode::SUCCESS,
        Err(difference) => {
            println!("difference: {difference}");
            ExitCode::FAILURE
        }
    }
}
