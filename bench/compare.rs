// Gives the same inputs to the libraries and to the plain implementation: answers, refusals and lent rows must be the same.
use crate::inputs::{any_machine, any_minimal, any_room, any_row, Numbers};
use crate::plain::{Machine, Refusal, Word};
use crate::{library, plain};
use std::collections::BTreeMap;
use std::fmt::Debug;
use std::process::ExitCode;

// How many inputs each call is given.
const MINIMIZED: usize = 60_000;
const SURVIVORS: usize = 40_000;
const SUITES: usize = 60_000;
const JUDGED: usize = 60_000;

// Tests beyond this many are made for one input in 2,000 only, since they take long.
const USUAL: usize = 4_000;

// How many inputs had which answer: 0 if it was not refused.
type Tally = BTreeMap<u64, usize>;

type Answer = Result<u64, Refusal>;

// The lent row stands within a longer one, so that writing beside it shows.
const MARGIN: usize = 4;

fn pattern(room: usize) -> Vec<u64> {
    (0..(room + 2 * MARGIN) as u64)
        .map(|i| i.wrapping_mul(0x9e37_79b9_7f4a_7c15) | 1 << 63)
        .collect()
}

// Two calls are given the same row and the same lent memory.
fn same(
    row: &[u64],
    room: usize,
    input: &dyn Debug,
    ours: impl Fn(&[u64], &mut [u64]) -> Answer,
    theirs: impl Fn(&[u64], &mut [u64]) -> Answer,
) -> Result<u64, String> {
    let (given, mut written, mut expected) = (row.to_vec(), pattern(room), pattern(room));
    let answer = ours(&given, &mut written[MARGIN..MARGIN + room]);
    let right = theirs(row, &mut expected[MARGIN..MARGIN + room]);
    if answer != right {
        return Err(format!(
            "answer {answer:?} for {right:?}: row {row:?}, {input:?}, room {room}"
        ));
    }
    if written != expected || given != row {
        return Err(format!(
            "another row is left behind: row {row:?}, {input:?}, room {room}"
        ));
    }
    Ok(right.map_or_else(|why| why.number, |_| 0))
}

// The room that a call needs, as its refusal says when it is lent none.
fn need(answer: Answer) -> usize {
    match answer {
        Err(Refusal { number: 5 | 8, place }) => place as usize,
        _ => 10,
    }
}

fn minimize(numbers: &mut Numbers) -> Result<u64, String> {
    let made = any_machine(numbers);
    let row = any_row(numbers, &made);
    let room = any_room(numbers, need(plain::minimize(&row, &mut [])));
    same(&row, room, &"minimize", library::minimize, plain::minimize)
}

fn survivor(numbers: &mut Numbers) -> Result<u64, String> {
    let made = any_machine(numbers);
    let row = any_row(numbers, &made);
    let most = (4096 / made.states) as u64;
    let small = numbers.next() % 20;
    let longest = numbers.one_of(&[
        0,
        1,
        small,
        small,
        small,
        most - 1,
        most,
        most + 1,
        1 << 32,
        (1 << 32) / 3,
        (1 << 60) + 1,
        u64::MAX,
    ]);
    let room = any_room(numbers, need(plain::survivor(&row, longest, &mut [])));
    same(
        &row,
        room,
        &("survivor", longest),
        |row, out| library::survivor(row, longest, out),
        |row, out| plain::survivor(row, longest, out),
    )
}

// At most how many tests there are.
fn bound(made: &Machine, extra: usize) -> usize {
    let words: usize = (0..=extra as u32).map(|keys| made.keys.pow(keys)).sum();
    made.states * (1 + made.keys) * words * made.separating().len()
}

// A row, mostly of a minimal machine, and a number of extra states, mostly such that there are not too many tests.
fn tested(numbers: &mut Numbers) -> (Vec<u64>, u64) {
    let made = if numbers.one_in(8) {
        any_machine(numbers)
    } else {
        any_minimal(numbers)
    };
    let row = any_row(numbers, &made);
    if numbers.one_in(12) {
        return (row, numbers.one_of(&[4, 5, 1 << 32, u64::MAX]));
    }
    let mut extra = numbers.below(4);
    let large = numbers.one_in(2_000);
    while extra > 0 && !large && plain::testable(&row, 0).is_ok_and(|m| bound(&m, extra) > USUAL) {
        extra -= 1;
    }
    (row, extra as u64)
}

fn write_tests(numbers: &mut Numbers) -> Result<u64, String> {
    let (row, extra) = tested(numbers);
    let room = any_room(numbers, need(plain::write_tests(&row, extra, &mut [])));
    same(
        &row,
        room,
        &("write_tests", extra),
        |row, out| library::write_tests(row, extra, out),
        |row, out| plain::write_tests(row, extra, out),
    )
}

// What a board may show on some tests: what the machine shows, with some numbers changed, cut short, or with something behind.
fn board(numbers: &mut Numbers, made: &Machine, tests: &[Word]) -> Vec<u64> {
    let mut shown: Vec<u64> = tests.iter().flat_map(|test| made.show(test)).collect();
    if numbers.one_in(2) && !shown.is_empty() {
        for _ in 0..1 + numbers.below(3) {
            let place = numbers.below(shown.len());
            shown[place] = numbers.one_of(&[0, 1, shown[place] + 1, 0xffff_ffff, 1 << 32, u64::MAX]);
        }
    }
    match numbers.below(8) {
        0 => shown.truncate(numbers.below(shown.len() + 1)),
        1 => shown.truncate(shown.len().saturating_sub(1 + numbers.below(4))),
        2 => shown.extend(
            (0..1 + numbers.below(3))
                .map(|_| numbers.next() % 3)
                .collect::<Vec<_>>(),
        ),
        _ => {}
    }
    shown
}

fn judge(numbers: &mut Numbers) -> Result<u64, String> {
    let (row, extra) = tested(numbers);
    let shown = match plain::testable(&row, extra) {
        Ok(made) => board(numbers, &made, &made.tests(extra as usize)),
        Err(_) => vec![0; numbers.below(5)],
    };
    let (answer, right) = (library::judge(&row, extra, &shown), plain::judge(&row, extra, &shown));
    if answer != right {
        return Err(format!(
            "judge {answer:?} for {right:?}: row {row:?}, extra {extra}, shown {shown:?}"
        ));
    }
    Ok(match right {
        Ok(plain::Verdict::Passed) => 0,
        Ok(plain::Verdict::Failed { .. }) => 100,
        Err(why) => why.number,
    })
}

fn describe(kind: u64) -> String {
    match kind {
        0 => "answered".to_string(),
        100 => "failed".to_string(),
        number => format!("refused {number}"),
    }
}

fn compare(
    name: &str,
    seed: u64,
    many: usize,
    call: impl Fn(&mut Numbers) -> Result<u64, String>,
) -> Result<usize, String> {
    let mut numbers = Numbers::from(seed);
    let mut tally = Tally::new();
    for _ in 0..many {
        *tally.entry(call(&mut numbers)?).or_default() += 1;
    }
    let counts: Vec<String> = tally
        .iter()
        .map(|(&kind, count)| format!("{} {count}", describe(kind)))
        .collect();
    println!("{name}: {many} inputs, no difference ({})", counts.join(", "));
    Ok(many)
}

fn compare_all() -> Result<usize, String> {
    Ok(compare("minimize", 1, MINIMIZED, minimize)?
        + compare("survivor", 2, SURVIVORS, survivor)?
        + compare("write_tests", 3, SUITES, write_tests)?
        + compare("judge", 4, JUDGED, judge)?)
}

pub fn run() -> ExitCode {
    match compare_all() {
        Ok(many) => {
            println!("{many} inputs compared, no difference");
            ExitCode::SUCCESS
        }
        Err(difference) => {
            println!("difference: {difference}");
            ExitCode::FAILURE
        }
    }
}
