// Compares the proved libraries with a plain implementation of the same rules: what they answer, and how long they take.
mod compare;
mod inputs;
mod library;
mod plain;
mod speed;

use std::process::ExitCode;

fn main() -> ExitCode {
    match std::env::args().nth(1).as_deref() {
        Some("compare") => compare::run(),
        Some("speed") => speed::run(),
        _ => ExitCode::from(2),
    }
}
