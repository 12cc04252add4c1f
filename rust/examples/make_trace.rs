//! Turns a readable trace into trace bytes:
//!
//!     cargo run --release --example make_trace -- ../examples/p5.txt ../examples/p5.trace
//!
//! Several steps may stand on one line:
//!
//! ```text
//! # a comment
//! setup kind=2 size=2 delta=2 starts=1,2
//! 1@0 1@1          # moves of process 1 at ticks 0 and 1
//! crash 2@5
//! bytes 4F 54 01   # bytes as they are
//! > a line of the expected output, skipped here
//! ```

use std::{env, error::Error, fs};

use ghindulza::{Event, Kind, STEP_LENGTH, write_setup, write_step};

type Failure = Box<dyn Error>;

fn main() -> Result<(), Failure> {
    let mut arguments = env::args_os().skip(1);
    let (Some(source), Some(target)) = (arguments.next(), arguments.next()) else {
        return Err("name a text file and the trace file to write".into());
    };
    fs::write(target, trace(&fs::read_to_string(source)?)?)?;
    Ok(())
}

/// The bytes of a readable trace.
pub fn trace(text: &str) -> Result<Vec<u8>, Failure> {
    let mut bytes = Vec::new();
    for (index, line) in text.lines().enumerate() {
        add_line(&mut bytes, line).map_err(|failure| format!("line {}: {failure}", index + 1))?;
    }
    Ok(bytes)
}

fn add_line(bytes: &mut Vec<u8>, line: &str) -> Result<(), Failure> {
    let line = line.split('#').next().unwrap_or_default().trim();
    let (first, others) = line.split_once(' ').unwrap_or((line, ""));
    match first {
        "" | ">" => Ok(()),
        "setup" => add_setup(bytes, others),
        "crash" => add_step(bytes, others, Event::Crash),
        "bytes" => {
            for byte in others.split_whitespace() {
                bytes.push(u8::from_str_radix(byte, 16)?);
            }
            Ok(())
        }
        _ => line.split_whitespace().try_for_each(|step| add_step(bytes, step, Event::Move)),
    }
}

fn add_setup(bytes: &mut Vec<u8>, fields: &str) -> Result<(), Failure> {
    let (mut kind, mut size, mut delta, mut starts) = (None, None, None, None);
    for field in fields.split_whitespace() {
        match field.split_once('=') {
            Some(("kind", "1")) => kind = Some(Kind::Lock),
            Some(("kind", "2")) => kind = Some(Kind::Plain),
            Some(("kind", "3")) => kind = Some(Kind::Fast),
            Some(("size", number)) => size = Some(number.parse()?),
            Some(("delta", number)) => delta = Some(number.parse()?),
            Some(("starts", list)) => {
                starts = Some(list.split(',').map(str::parse).collect::<Result<Vec<u8>, _>>()?);
            }
            _ => return Err(format!("{field} is no field of a setup").into()),
        }
    }
    let starts = starts.ok_or("no starts")?;
    let mut record = vec![0; 8 + starts.len()];
    let (kind, size, delta) =
        (kind.ok_or("no kind")?, size.ok_or("no size")?, delta.ok_or("no delta")?);
    write_setup(&mut record, kind, size, delta, &starts)?;
    bytes.extend(record);
    Ok(())
}

fn add_step(bytes: &mut Vec<u8>, step: &str, event: Event) -> Result<(), Failure> {
    let (process, tick) =
        step.trim().split_once('@').ok_or_else(|| format!("{step} is no step such as 1@0"))?;
    let mut record = [0; STEP_LENGTH];
    write_step(&mut record, process.parse()?, event, tick.parse()?)?;
    bytes.extend(record);
    Ok(())
}
