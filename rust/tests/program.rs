//! What the program `bench` prints, against the plain implementation.
//!
//! `GHINDULZA_BENCH_BIN` names the built program; without it these tests only say
//! that they were left out.

mod common;

use std::{
    env,
    ffi::OsString,
    fs::{self, File},
    io::Write,
    path::PathBuf,
    process::{self, Command, Stdio},
    thread,
    time::Duration,
};

use common::{Random, hex, scaled, walk::Walk};
use independent::{INPUT_LIMIT, TOP_TICK};

struct Program(OsString);

/// The program, or a note that it was not named.
fn program() -> Option<Program> {
    let named = env::var_os("GHINDULZA_BENCH_BIN");
    if named.is_none() {
        println!("left out: GHINDULZA_BENCH_BIN does not name the program");
    }
    named.map(Program)
}

impl Program {
    /// Feeds the input through a pipe, in pieces of at most `piece` bytes.
    fn feed(&self, input: &[u8], piece: usize, pause: Duration) -> Vec<u8> {
        let mut child = Command::new(&self.0)
            .stdin(Stdio::piped())
            .stdout(Stdio::piped())
            .spawn()
            .unwrap_or_else(|error| panic!("{}: {error}", self.0.display()));
        let mut pipe = child.stdin.take().unwrap();
        let input = input.to_vec();
        let feeder = thread::spawn(move || {
            for part in input.chunks(piece) {
                // The program may end before it has read an input that is too long.
                if pipe.write_all(part).and_then(|()| pipe.flush()).is_err() {
                    break;
                }
                thread::sleep(pause);
            }
        });
        let output = child.wait_with_output().unwrap();
        feeder.join().unwrap();
        output.stdout
    }

    fn check(&self, input: &[u8]) -> String {
        let found = self.feed(input, 1 << 20, Duration::ZERO);
        settle(input, &found, "a pipe")
    }
}

fn settle(input: &[u8], found: &[u8], by: &str) -> String {
    let wanted = independent::print(input);
    assert!(
        found == wanted.as_bytes(),
        "the program differs, fed by {by}\ninput {}\nprogram: {:?}\nplain:   {wanted:?}",
        hex(input),
        String::from_utf8_lossy(found)
    );
    wanted
}

fn sample() -> Vec<u8> {
    let mut input = vec![0x4F, 0x53, 2, 2, 2, 0, 2, 0, 1, 2];
    for tick in [0, 1, 1, 2, 5] {
        input.extend([0x4F, 0x54, 1, 0, tick, 0, 0, 0]);
    }
    input
}

#[test]
fn the_sample_empty_input_and_a_setup() {
    let Some(program) = program() else { return };
    let printed = program.check(&sample());
    assert_eq!(printed, "kind 2 processes 2 records 5\n1 8 1 5 0\n2 1 0 0 0\n");
    assert_eq!(program.check(&[]), "refused 1 at record 0\n");
    assert_eq!(
        program.check(&sample()[..10]),
        "kind 2 processes 2 records 0\n1 1 0 0 0\n2 1 0 0 0\n"
    );
    for length in 0..sample().len() {
        program.check(&sample()[..length]);
    }
}

/// Input that comes a few bytes at a time is one input.
#[test]
fn a_slow_pipe() {
    let Some(program) = program() else { return };
    for piece in [1, 3, 8, 25] {
        let found = program.feed(&sample(), piece, Duration::from_millis(2));
        settle(&sample(), &found, "a slow pipe");
    }
    let long = trace_of_length(INPUT_LIMIT);
    let found = program.feed(&long, 1000, Duration::from_micros(200));
    settle(&long, &found, "a slow pipe");
}

/// An accepted lock trace of exactly `length` bytes: with Δ = 0, each move comes one
/// tick after the one before.
fn trace_of_length(length: usize) -> Vec<u8> {
    let n = length % 8;
    let n = if n == 0 { 8 } else { n };
    let mut input = vec![0x4F, 0x53, 1, n as u8, 1, 0, 0, 0];
    input.extend(vec![0; n]);
    let mut tick = 0_u32;
    while input.len() < length {
        let card = [0x4F, 0x54, 1 + (tick % n as u32) as u8, 0];
        input.extend(card);
        input.extend(tick.to_le_bytes());
        tick += 1;
    }
    input
}

#[test]
fn the_limit_of_the_input() {
    let Some(program) = program() else { return };
    for length in [INPUT_LIMIT - 8, INPUT_LIMIT - 1, INPUT_LIMIT] {
        let printed = program.check(&trace_of_length(length));
        assert!(printed.starts_with("kind 1 processes "), "{printed}");
    }
    for length in
        [INPUT_LIMIT + 1, INPUT_LIMIT + 8, 2 * INPUT_LIMIT, 2 * INPUT_LIMIT + 1, 1_000_000]
    {
        let mut input = trace_of_length(length);
        assert_eq!(program.check(&input), "input over 65536\n");
        input[0] = 0;
        assert_eq!(program.check(&input), "input over 65536\n");
    }
    let mut input = trace_of_length(INPUT_LIMIT);
    input[INPUT_LIMIT - 1] = 0xFF;
    assert!(program.check(&input).starts_with("refused 13 at record "));
    program.check(&input[..INPUT_LIMIT - 3]);
}

#[test]
fn files() {
    let Some(program) = program() else { return };
    let path: PathBuf = env::temp_dir().join(format!("ghindulza-{}.trace", process::id()));
    for input in [
        sample(),
        Vec::new(),
        sample()[..20].to_vec(),
        trace_of_length(INPUT_LIMIT),
        trace_of_length(INPUT_LIMIT + 1),
    ] {
        fs::write(&path, &input).unwrap();
        let output = Command::new(&program.0).stdin(File::open(&path).unwrap()).output().unwrap();
        settle(&input, &output.stdout, "a file");
    }
    fs::remove_file(&path).unwrap();
}

#[test]
fn random_traces() {
    let Some(program) = program() else { return };
    let mut random = Random::new(0x9806_0001);
    let mut walk = Walk::new();
    for round in 0..scaled(400) {
        walk.begin(&mut random);
        if random.once_in(8) {
            walk.jump(&mut random, TOP_TICK - 100_000);
        }
        let length = random.below(if round % 20 == 0 { 5_000 } else { 80 });
        walk.go_on(&mut random, length);
        match random.below(4) {
            0 => {
                let number = random.between(9, 16);
                walk.spoil(&mut random, number);
            }
            1 => walk.gamble(&mut random),
            _ => {}
        }
        if random.once_in(10) {
            let position = random.below(walk.bytes.len() as u64) as usize;
            walk.bytes[position] = random.byte();
        }
        program.check(&walk.bytes);
    }
}
