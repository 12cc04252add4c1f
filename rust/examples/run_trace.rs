//! Runs the trace in the file named on the command line, or in standard input, and
//! prints its report.
//!
//!     cargo run --release --example run_trace -- ../examples/p9.trace

use std::{
    env,
    error::Error,
    fs,
    io::{self, Read},
};

use ghindulza::{PROCESSES, read_setup, run};

fn main() -> Result<(), Box<dyn Error>> {
    let trace = match env::args_os().nth(1) {
        Some(path) => fs::read(path)?,
        None => {
            let mut input = Vec::new();
            io::stdin().read_to_end(&mut input)?;
            input
        }
    };
    print!("{}", outcome(&trace)?);
    Ok(())
}

fn outcome(trace: &[u8]) -> Result<String, Box<dyn Error>> {
    let mut report = [0; 4 * PROCESSES];
    let steps = match run(trace, &mut report) {
        Ok(steps) => steps,
        Err(refused) => return Ok(format!("{refused}\n")),
    };
    let setup = read_setup(trace)?;
    let mut text =
        format!("{:?}, {} processes, {steps} steps accepted\n", setup.kind, setup.processes());
    for (process, row) in (1..=setup.processes()).zip(report.chunks_exact(4)) {
        let place = PLACES[row[0] as usize];
        text += &format!(
            "process {process}: {place}, second figure {}, {} moves, {} late\n",
            row[1], row[2], row[3]
        );
    }
    Ok(text)
}

const PLACES: [&str; 10] = [
    "rest",
    "look",
    "put",
    "about to wait",
    "check",
    "critical",
    "flag",
    "scan",
    "decided",
    "crashed",
];
