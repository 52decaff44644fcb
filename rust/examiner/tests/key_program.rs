//! `nizkabel key` against the proved program `key`, whole pages of random boards and bytes.

use compare::boards::{self, Loops};
use compare::random::Random;
use examiner::text::starts_as_text;
use std::io::Write;
use std::path::Path;
use std::process::{Command, Stdio};

/// What a program prints when it reads these bytes.
fn printed(program: &Path, arguments: &[&str], input: &[u8]) -> Vec<u8> {
    let mut command = Command::new(program);
    command.args(arguments).stdin(Stdio::piped()).stdout(Stdio::piped()).stderr(Stdio::null());
    let mut running = command.spawn().expect("it starts");
    running.stdin.take().expect("its input").write_all(input).expect("it reads");
    running.wait_with_output().expect("it ends").stdout
}

#[test]
fn the_same_pages() {
    let key = Path::new(concat!(env!("CARGO_MANIFEST_DIR"), "/../../target/bin/key"));
    assert!(key.is_file(), "the program key isn't built: run `./build key`");
    let nizkabel = Path::new(env!("CARGO_BIN_EXE_nizkabel"));
    let mut random = Random::new(20);
    let mut pages = [0; 4];
    for round in 0..600 {
        let (points, zones) = if round % 8 == 0 { (2 + random.below(30), 2 + random.below(60)) } else { (2 + random.below(4), 2 + random.below(5)) };
        let sparse = 1 + random.below(3);
        let board = boards::accepted(&mut random, points, zones, sparse, Loops::OnceIn(4));
        let mut bytes = boards::written(&mut random, &board);
        if round % 3 == 0 {
            bytes = boards::damaged(&mut random, bytes);
        }
        if round % 50 == 0 {
            bytes.resize(480 + random.below(20), 0);
        }
        // A board that starts as a text is read as one.
        if starts_as_text(&bytes) {
            continue;
        }
        let (expected, got) = (printed(key, &[], &bytes), printed(nizkabel, &["key", "-"], &bytes));
        assert_eq!(String::from_utf8_lossy(&got), String::from_utf8_lossy(&expected), "{bytes:?}");
        let kind = ["board", "refused", "too long"].iter().position(|start| expected.starts_with(start.as_bytes()));
        pages[kind.expect("a page")] += 1;
        pages[3] += expected.windows(10).any(|part| part == b"verdict 20") as usize;
    }
    assert!(pages.iter().all(|&n| n >= 3), "too few pages of some kind: {pages:?}");
}
