// The proved libraries, as the static library has them: a slice crosses as a pointer and a length.
use crate::plain::{Refusal, Verdict};

#[repr(C)]
struct Outcome {
    refusal: u64,
    value: u64,
}

#[repr(C)]
struct Judged {
    refusal: u64,
    place: u64,
    failed: u64,
    test: u64,
    key: u64,
    shown: u64,
    expected: u64,
}

extern "C" {
    fn jackspear_minimize(row: *const u64, length: usize, out: *mut u64, room: usize) -> Outcome;
    fn jackspear_write_tests(row: *const u64, length: usize, extra: u64, out: *mut u64, room: usize) -> Outcome;
    fn jackspear_survivor(row: *const u64, length: usize, longest: u64, out: *mut u64, room: usize) -> Outcome;
    fn jackspear_judge(row: *const u64, length: usize, extra: u64, shown: *const u64, many: usize) -> Judged;
}

fn answer(told: Outcome) -> Result<u64, Refusal> {
    match told.refusal {
        0 => Ok(told.value),
        number => Err(Refusal {
            number,
            place: told.value,
        }),
    }
}

pub fn minimize(row: &[u64], out: &mut [u64]) -> Result<u64, Refusal> {
    answer(unsafe { jackspear_minimize(row.as_ptr(), row.len(), out.as_mut_ptr(), out.len()) })
}

pub fn write_tests(row: &[u64], extra: u64, out: &mut [u64]) -> Result<u64, Refusal> {
    answer(unsafe { jackspear_write_tests(row.as_ptr(), row.len(), extra, out.as_mut_ptr(), out.len()) })
}

pub fn survivor(row: &[u64], longest: u64, out: &mut [u64]) -> Result<u64, Refusal> {
    answer(unsafe { jackspear_survivor(row.as_ptr(), row.len(), longest, out.as_mut_ptr(), out.len()) })
}

pub fn judge(row: &[u64], extra: u64, shown: &[u64]) -> Result<Verdict, Refusal> {
    let told = unsafe { jackspear_judge(row.as_ptr(), row.len(), extra, shown.as_ptr(), shown.len()) };
    let Judged {
        refusal,
        place,
        failed,
        test,
        key,
        shown,
        expected,
    } = told;
    match (refusal, failed) {
        (0, 0) => Ok(Verdict::Passed),
        (0, _) => Ok(Verdict::Failed {
            test,
            key,
            shown,
            expected,
        }),
        (number, _) => Err(Refusal { number, place }),
    }
}
