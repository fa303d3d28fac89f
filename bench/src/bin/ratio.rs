//! Times two programs for the same inputs, in turn, and prints the ratios of their shortest times.
//!
//! `ratio SPEED GRIDJOB [TURNS]`: SPEED and GRIDJOB are compared with this package's `speed` and
//! `second`, which stand beside this program. What both print must be the same.

use std::fs::File;
use std::io::{self, Write};
use std::path::{Path, PathBuf};
use std::process::{Command, Stdio};
use std::time::{Duration, Instant};

use second::script::script;

/// How many lines the script has at least.
const SCRIPT_LINES: usize = 100_000;

/// A measurement: its name, and the two lines of input whose difference in time is measured.
const CALLS: [(&str, u32); 5] =
    [("judge", 5_000), ("list", 500), ("phase", 5_000), ("parity", 5_000), ("amplitude", 100)];

fn main() -> io::Result<()> {
    let mut arguments = std::env::args().skip(1);
    let usage = || io::Error::other("ratio SPEED GRIDJOB [TURNS]");
    let speed = PathBuf::from(arguments.next().ok_or_else(usage)?);
    let gridjob = PathBuf::from(arguments.next().ok_or_else(usage)?);
    let turns = arguments.next().and_then(|turns| turns.parse().ok()).unwrap_or(5);
    let here = std::env::current_exe()?.with_file_name("");

    println!("{:<12} {:>12} {:>12} {:>8}", "what", "Rattle", "plain Rust", "ratio");
    for (name, rounds) in CALLS {
        let once = save(name, format!("{name} 0\n").as_bytes())?;
        let often = save(&format!("{name}-often"), format!("{name} {rounds}\n").as_bytes())?;
        let pair = [speed.as_path(), &here.join("speed")];
        let [alone, plain_alone] = shortest(pair, &once, turns)?;
        let [all, plain_all] = shortest(pair, &often, turns)?;
        let each = |all: Duration, alone: Duration| all.saturating_sub(alone) / rounds;
        print(name, each(all, alone), each(plain_all, plain_alone));
    }
    let input = save("script", &long_script())?;
    let [own, plain] = shortest([&gridjob, &here.join("second")], &input, turns)?;
    print("script", own, plain);
    Ok(())
}

fn print(name: &str, time: Duration, plain: Duration) {
    let ratio = time.as_secs_f64() / plain.as_secs_f64();
    println!("{name:<12} {time:>12.2?} {plain:>12.2?} {ratio:>8.2}");
}

/// Random scripts one after another, without those that are mostly one over-long line.
fn long_script() -> Vec<u8> {
    let mut whole = Vec::new();
    let mut lines = 0;
    for seed in 0.. {
        let mut text = script(seed);
        if text.len() > 400_000 || text.is_empty() {
            continue;
        }
        if text.last() != Some(&b'\n') {
            text.push(b'\n');
        }
        lines += text.iter().filter(|&&byte| byte == b'\n').count();
        whole.extend(text);
        if lines >= SCRIPT_LINES {
            break;
        }
    }
    whole
}

/// Saves an input.
fn save(name: &str, text: &[u8]) -> io::Result<PathBuf> {
    let path = std::env::temp_dir().join(format!("ratio-{}-{name}", std::process::id()));
    File::create(&path)?.write_all(text)?;
    Ok(path)
}

/// The shortest time of each program for an input, the two run in turn.
fn shortest(programs: [&Path; 2], input: &Path, turns: u32) -> io::Result<[Duration; 2]> {
    let mut least = [Duration::MAX; 2];
    for _ in 0..turns {
        let (first, first_time) = run(programs[0], input)?;
        let (second, second_time) = run(programs[1], input)?;
        if first != second {
            return Err(io::Error::other(format!("{input:?}: the programs print unlike texts")));
        }
        least = [least[0].min(first_time), least[1].min(second_time)];
    }
    Ok(least)
}

/// What a program prints for an input, and how long it takes.
fn run(program: &Path, input: &Path) -> io::Result<(Vec<u8>, Duration)> {
    let started = Instant::now();
    let output =
        Command::new(program).stdin(File::open(input)?).stderr(Stdio::inherit()).output()?;
    let time = started.elapsed();
    if output.status.success() {
        Ok((output.stdout, time))
    } else {
        Err(io::Error::other(format!("{} failed", program.display())))
    }
}
