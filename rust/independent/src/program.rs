//! What the program `bench` prints.

use std::fmt::Write;

use crate::{PROCESSES, read_setup, run};

/// Bytes of input that the program takes.
pub const INPUT_LIMIT: usize = 65_536;

/// The whole standard output of the program for a standard input.
pub fn print(input: &[u8]) -> String {
    if input.len() > INPUT_LIMIT {
        return "input over 65536\n".to_owned();
    }
    let mut report = [0; 4 * PROCESSES];
    let (number, record) = run(input, &mut report);
    match read_setup(input) {
        Ok(setup) if number == 0 => {
            let (kind, n) = (setup.kind as u8, setup.n as usize);
            let mut text = format!("kind {kind} processes {n} records {record}\n");
            for (index, row) in report.as_chunks::<4>().0.iter().take(n).enumerate() {
                let [place, second, moves, late] = row;
                writeln!(text, "{} {place} {second} {moves} {late}", index + 1)
                    .expect("a String takes any text");
            }
            text
        }
        _ => format!("refused {number} at record {record}\n"),
    }
}

#[cfg(test)]
mod tests {
    use super::*;

    #[test]
    fn the_sample() {
        let mut input = vec![0x4F, 0x53, 2, 2, 2, 0, 2, 0, 1, 2];
        for tick in [0, 1, 1, 2, 5] {
            input.extend([0x4F, 0x54, 1, 0, tick, 0, 0, 0]);
        }
        assert_eq!(print(&input), "kind 2 processes 2 records 5\n1 8 1 5 0\n2 1 0 0 0\n");
    }

    #[test]
    fn refused_and_long_input() {
        assert_eq!(print(&[]), "refused 1 at record 0\n");
        let mut input = vec![0x4F, 0x53, 2, 1, 1, 0, 0, 0, 1];
        assert_eq!(print(&input), "kind 2 processes 1 records 0\n1 1 0 0 0\n");
        input.resize(INPUT_LIMIT, 0);
        assert_eq!(print(&input), "refused 10 at record 1\n");
        input.push(0);
        assert_eq!(print(&input), "input over 65536\n");
    }
}
