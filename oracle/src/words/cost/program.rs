//! E against the repository's program, `./tns bits`.
//! Assumes that the program reads 20-byte records and writes one line for each,
//! `frame N: B bits`. The variable TNS names another program to run instead.

use crate::compare::Differing;
use crate::document::Side;
use crate::draw::{any_side, every_place, every_side, Random, SEED};
use crate::original::Build;
use std::io::{BufRead, BufReader, BufWriter, Write};
use std::path::Path;
use std::process::{Command, Stdio};

const RANDOM: u64 = 1_000_000;
const ANY_COUNT: u64 = 100_000;

/// The records in their fixed order; asked for twice, to write and to compare.
fn records(mut with: impl FnMut(&Side)) {
    every_side(4, &mut with);
    every_place(|side, _| with(&side));
    let mut random = Random(SEED);
    for _ in 0..RANDOM {
        with(&any_side(&mut random, 2));
    }
    for _ in 0..ANY_COUNT {
        let filters = random.below(3);
        with(&any_side(&mut random, filters));
    }
}

pub fn run(root: &Path, build: &Build) -> bool {
    let named = std::env::var("TNS").ok();
    let shown = named.clone().unwrap_or_else(|| "./tns".to_string());
    let program = match named {
        Some(path) => path.into(),
        None => root.join("tns"),
    };
    if !program.is_file() {
        println!(
            "cost: NOT COMPARED with the program: {shown} is missing at the repository's root"
        );
        return false;
    }
    let started = Command::new(&program)
        .arg("bits")
        .current_dir(root)
        .stdin(Stdio::piped())
        .stdout(Stdio::piped())
        .spawn();
    let mut child = match started {
        Ok(child) => child,
        Err(error) => {
            println!("cost: NOT COMPARED with the program: {shown} does not start: {error}");
            return false;
        }
    };
    let input = child.stdin.take().expect("piped");
    let writer = std::thread::spawn(move || {
        let mut out = BufWriter::with_capacity(1 << 16, input);
        let mut failed = false;
        records(|side| failed |= !failed && out.write_all(&side.record()).is_err());
        !failed && out.flush().is_ok()
    });
    let mut lines = BufReader::with_capacity(1 << 16, child.stdout.take().expect("piped"));
    let (mut compared, mut differ, mut missing) = (0u64, Differing::default(), 0u64);
    let mut line = String::new();
    records(|side| {
        line.clear();
        if missing > 0 || lines.read_line(&mut line).unwrap_or(0) == 0 {
            missing += 1;
            return;
        }
        let wanted = format!("frame {compared}: {} bits\n", build.bits(side));
        compared += 1;
        differ.take(line != wanted, || {
            let record = side.record();
            format!("cost: record {record:?}: E says {wanted:?}, the program {line:?}")
        });
    });
    let beyond = lines.lines().map_while(Result::ok).count();
    let written = writer.join().unwrap_or(false);
    let ended = child.wait().map(|s| s.success()).unwrap_or(false);
    println!(
        "cost: {} against {shown} bits (every one-filter pattern of orders 0..4, every index at every place of every order, {RANDOM} random two-filter, {ANY_COUNT} random 0..2-filter records): {compared} compared, {} differ, {missing} lines missing, {beyond} too many, all read {written}, ended well {ended}",
        build.name, differ.0
    );
    differ.0 + missing == 0 && beyond == 0 && written && ended
}
