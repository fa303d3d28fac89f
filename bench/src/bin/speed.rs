//! The measurements of the Rattle program `speed`, of this library: the same input, the same answers.

use std::io::{self, BufRead};

use second::gate::Timing;
use second::job::Job;
use second::listing::Operation;
use second::refusal::Refusal;
use second::register::{AmplitudeRegister, ParityRegister, PhaseRegister, Register};
use second::route::Rule;

/// How many gates each program has.
const GATES: u32 = 256;

/// Room for the longest listing.
const PLACES: usize = 20_224;

/// The letter and the labels of the gate with a number, of so many labels.
type Program = fn(u32, u32) -> (u8, u32, u32);

/// A CNOT between the first two labels, to and fro.
fn to_and_fro(number: u32, _labels: u32) -> (u8, u32, u32) {
    if number % 2 == 0 {
        (b'C', 0, 1)
    } else {
        (b'C', 1, 0)
    }
}

/// Three CNOTs, then a gate on one label.
fn mixed(number: u32, labels: u32) -> (u8, u32, u32) {
    let label = number % labels;
    if number % 4 == 3 {
        (b"XHYZSTTT"[number as usize / 4 % 8], label, 0)
    } else {
        (b'C', label, (label + 1 + number % (labels - 1)) % labels)
    }
}

/// A job on a machine of this size whose labels stand so many cells apart, each gate well after
/// the one before.
fn job_of(
    [columns, rows]: [u32; 2],
    labels: u32,
    apart: u32,
    program: Program,
) -> Result<Job, Refusal> {
    let mut job = Job::open(columns, rows, labels, Rule::OneBend)?;
    for number in 0..GATES {
        let (letter, first, second) = program(number, labels);
        job.add_letter(letter, first, second)?;
    }
    job.close()?;
    for label in 0..labels {
        job.place(label, label * apart)?;
    }
    for number in 0..GATES {
        let routed = program(number, labels).0 == b'C';
        let choice = if routed { number / 2 % 2 } else { 0 };
        job.time(number, Timing { start: 100 * number, choice })?;
    }
    Ok(job)
}

fn judging(rounds: u32) -> Result<u64, Refusal> {
    let job = job_of([8, 8], 32, 2, mixed)?;
    let mut sum = 0u64;
    for _ in 0..rounds {
        sum = sum.wrapping_add(std::hint::black_box(&job).judge()?);
    }
    Ok(sum)
}

fn listing(rounds: u32) -> Result<u64, Refusal> {
    let job = job_of([8, 8], 2, 63, to_and_fro)?;
    let mut sum = 0u64;
    for round in 0..rounds {
        let operations = std::hint::black_box(&job).list(PLACES)?;
        let start = operations[round as usize % PLACES].start;
        sum = sum.wrapping_add(operations.len() as u64 + u64::from(start));
    }
    Ok(sum)
}

/// Applies a listing's operations.
fn rehearse(register: &mut impl Register, operations: &[Operation]) -> Result<(), Refusal> {
    register.apply_all(operations.iter().map(Operation::action))
}

fn on_phase(rounds: u32) -> Result<u64, Refusal> {
    let operations = job_of([8, 8], 2, 63, to_and_fro)?.list(PLACES)?;
    let mut register = PhaseRegister::blank(64).expect("no more wires than there may be");
    let mut sum = 0u64;
    for _ in 0..rounds {
        register.apply((second::gate::Kind::X, 0, 0))?;
        rehearse(&mut register, &operations)?;
        sum = sum.wrapping_mul(3).wrapping_add(register.bits() >> 63);
    }
    Ok(sum)
}

fn on_parity(rounds: u32) -> Result<u64, Refusal> {
    let operations = job_of([8, 4], 2, 31, to_and_fro)?.list(PLACES)?;
    let mut register = ParityRegister::blank(32).expect("no more wires than there may be");
    let mut sum = 0u64;
    for _ in 0..rounds {
        rehearse(&mut register, &operations)?;
        sum = sum.wrapping_mul(3).wrapping_add(register.words()[31]);
    }
    Ok(sum)
}

fn on_amplitude(rounds: u32) -> Result<u64, Refusal> {
    let operations = job_of([5, 2], 10, 1, mixed)?.list(PLACES)?;
    let mut sum = 0u64;
    for round in 0..rounds {
        let mut register = AmplitudeRegister::blank(10).expect("no more wires than there may be");
        rehearse(&mut register, &operations)?;
        let [a, b, ..] = register.amplitudes()[round as usize % 1024];
        let parts = a.unsigned_abs().wrapping_add(b.unsigned_abs().wrapping_mul(5));
        sum = sum.wrapping_mul(3).wrapping_add(parts);
    }
    Ok(sum)
}

/// The answer to a line: a measurement and how often its call is repeated.
fn answer(line: &str) -> Option<String> {
    let (name, rounds) = line.split_once(' ')?;
    let rounds = rounds.parse().ok()?;
    let measure = match name {
        "judge" => judging,
        "list" => listing,
        "phase" => on_phase,
        "parity" => on_parity,
        "amplitude" => on_amplitude,
        _ => return None,
    };
    let sum = measure(rounds).ok()?;
    Some(format!("{name} {rounds} {sum}"))
}

fn main() -> io::Result<()> {
    for line in io::stdin().lock().lines() {
        println!("{}", answer(&line?).ok_or_else(|| io::Error::other("no such measurement"))?);
    }
    Ok(())
}
