//! The sample traces in `examples/`: each is what its text says, and gives what its
//! text expects.

#[allow(dead_code)] // its `main`
#[path = "../examples/make_trace.rs"]
mod make_trace;

use std::{fs, path::Path, process::Command};

#[test]
fn samples_are_what_their_texts_say() {
    let directory = Path::new(env!("CARGO_MANIFEST_DIR")).join("../examples");
    let mut samples = 0;
    for entry in fs::read_dir(&directory).unwrap() {
        let path = entry.unwrap().path();
        if path.extension().is_none_or(|extension| extension != "txt") {
            continue;
        }
        samples += 1;
        let name = path.display();
        let text = fs::read_to_string(&path).unwrap();
        let trace = fs::read(path.with_extension("trace")).unwrap();
        assert_eq!(make_trace::trace(&text).unwrap(), trace, "{name} and its trace differ");

        let expected: String = text
            .lines()
            .filter_map(|line| line.strip_prefix("> "))
            .flat_map(|line| [line, "\n"])
            .collect();
        assert!(!expected.is_empty(), "{name} expects nothing");
        assert_eq!(independent::print(&trace), expected, "{name}, plain implementation");

        let (mut found, mut wanted) = ([7; 128], [7; 128]);
        let outcome = match ghindulza::run(&trace, &mut found) {
            Ok(steps) => (0, steps),
            Err(refused) => (refused.refusal.number(), refused.record),
        };
        assert_eq!(outcome, independent::run(&trace, &mut wanted), "{name}, library");
        assert_eq!(found, wanted, "{name}, library");

        if let Some(program) = std::env::var_os("GHINDULZA_BENCH_BIN") {
            let input = fs::File::open(path.with_extension("trace")).unwrap();
            let output = Command::new(program).stdin(input).output().unwrap();
            assert_eq!(String::from_utf8_lossy(&output.stdout), expected, "{name}, program");
        }
    }
    assert!(samples >= 8, "only {samples} samples found");
}
