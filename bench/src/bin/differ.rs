//! Compares another job program with this library on random scripts.
//!
//! `differ PROGRAM [COUNT] [SEED]` gives COUNT scripts (1,000) to PROGRAM, the first of them that
//! of SEED (1), each later one that of the next number, and compares every byte of the replies.
//! The first difference is reported, its script saved to a file, whole and shortened.
//! `differ --write SEED` prints the script of one seed.

use std::collections::BTreeMap;
use std::io::{self, Read, Write};
use std::process::{Command, ExitCode, Stdio};
use std::sync::mpsc;
use std::time::Duration;

use second::random::Random;
use second::script::script;
use second::session::Session;

/// How often a script that shows a difference may be tried in a shorter form.
const SHORTENINGS: u32 = 2_000;

/// How long the program may take for one script before it is stopped.
const PATIENCE: Duration = Duration::from_secs(60);

fn main() -> ExitCode {
    let words: Vec<String> = std::env::args().skip(1).collect();
    let words: Vec<&str> = words.iter().map(String::as_str).collect();
    let done = match words[..] {
        ["--write", seed] => number(seed).and_then(write_script),
        [program] if !program.starts_with('-') => compare_all(program, 1_000, 1),
        [program, count] => number(count).and_then(|count| compare_all(program, count, 1)),
        [program, count, seed] => number(count)
            .and_then(|count| Ok((count, number(seed)?)))
            .and_then(|(count, seed)| compare_all(program, count, seed)),
        _ => Err(io::Error::other("differ PROGRAM [COUNT] [SEED], or differ --write SEED")),
    };
    match done {
        Ok(true) => ExitCode::SUCCESS,
        Ok(false) => ExitCode::FAILURE,
        Err(error) => {
            eprintln!("differ: {error}");
            ExitCode::from(2)
        }
    }
}

fn number(word: &str) -> io::Result<u64> {
    word.parse().map_err(|_| io::Error::other(format!("{word} is no number")))
}

fn write_script(seed: u64) -> io::Result<bool> {
    io::stdout().write_all(&script(seed))?;
    Ok(true)
}

/// Compares the program with the library on so many scripts; whether there was no difference.
fn compare_all(program: &str, count: u64, seed: u64) -> io::Result<bool> {
    let mut lines = 0;
    let mut tally = BTreeMap::new();
    for seed in seed..seed + count {
        let script = script(seed);
        let (own, answered) = own_replies(&script, seed)?;
        let (other, success) = other_replies(program, &script)?;
        if own != other || !success {
            report(program, seed, &script, &own, &other, success)?;
            return Ok(false);
        }
        lines += answered;
        count_replies(&mut tally, &own);
    }
    let counts: Vec<String> = tally.iter().map(|(kind, n)| format!("{kind} {n}")).collect();
    println!("replies: {}", counts.join(", "));
    println!("{count} scripts, {lines} lines, no difference");
    Ok(true)
}

/// What the library answers to a script that it is given in random pieces, and to how many lines.
fn own_replies(script: &[u8], seed: u64) -> io::Result<(Vec<u8>, u64)> {
    let mut random = Random::new(!seed);
    let greatest = random.pick(&[3, 100, 5_000, u32::MAX - 1]);
    let mut replies = Vec::new();
    let mut session = Session::new();
    let mut left = script;
    while !left.is_empty() {
        let length = left.len().min(random.between(1, greatest) as usize);
        session.feed(&left[..length], &mut replies)?;
        left = &left[length..];
    }
    session.finish(&mut replies)?;
    Ok((replies, session.lines()))
}

/// What the program answers to a script, and whether it ends well.
fn other_replies(program: &str, script: &[u8]) -> io::Result<(Vec<u8>, bool)> {
    let mut child = Command::new(program).stdin(Stdio::piped()).stdout(Stdio::piped()).spawn()?;
    let (input, output) = (child.stdin.take(), child.stdout.take());
    let (ended, end) = mpsc::channel();
    let replies = std::thread::scope(|scope| {
        // A program that ends early closes its input; its replies then show the difference.
        scope.spawn(move || input.map(|mut input| input.write_all(script)));
        let reader = scope.spawn(move || {
            let mut replies = Vec::new();
            let read = output.map_or(Ok(0), |mut output| output.read_to_end(&mut replies));
            // Nobody waits for the end any more where the program took too long.
            let _ = ended.send(());
            read.map(|_| replies)
        });
        if end.recv_timeout(PATIENCE).is_err() {
            child.kill()?;
        }
        reader.join().map_err(|_| io::Error::other("the replies were not read"))?
    })?;
    Ok((replies, child.wait()?.success()))
}

/// Counts the replies to lines by their first word, a refusal by its number.
fn count_replies(tally: &mut BTreeMap<String, u64>, replies: &[u8]) {
    for reply in replies.split(|&byte| byte == b'\n') {
        let text = String::from_utf8_lossy(reply);
        let mut words = text.split(' ');
        let kind = match words.next() {
            Some("ok") => "ok",
            Some("no") => words.next().unwrap_or("no"),
            _ => continue,
        };
        *tally.entry(format!("{kind:>2}")).or_default() += 1;
    }
}

/// Says where the replies differ first and saves the script.
fn report(
    program: &str,
    seed: u64,
    script: &[u8],
    own: &[u8],
    other: &[u8],
    success: bool,
) -> io::Result<()> {
    println!("script {seed} ({} bytes): a difference", script.len());
    if !success {
        println!("{program} did not end well");
    }
    explain(script, own, other);
    let file = format!("difference-{seed}.txt");
    std::fs::write(&file, script)?;
    println!("the script is saved as {file}");

    let short = shorten(script, |shorter| {
        let (own, _) = own_replies(shorter, seed)?;
        let (other, success) = other_replies(program, shorter)?;
        Ok(own != other || !success)
    })?;
    let file = format!("difference-{seed}-short.txt");
    std::fs::write(&file, &short)?;
    println!("a shorter one ({} bytes) is saved as {file}:", short.len());
    let (own, _) = own_replies(&short, seed)?;
    let (other, _) = other_replies(program, &short)?;
    explain(&short, &own, &other);
    Ok(())
}

/// Prints the first reply line that differs, and the line of the script that it answers.
fn explain(script: &[u8], own: &[u8], other: &[u8]) {
    let own: Vec<&[u8]> = own.split(|&byte| byte == b'\n').collect();
    let other: Vec<&[u8]> = other.split(|&byte| byte == b'\n').collect();
    let same = own.iter().zip(&other).take_while(|(a, b)| a == b).count();
    let answers = |lines: &[&[u8]]| {
        lines.iter().filter(|l| l.starts_with(b"ok ") || l.starts_with(b"no ")).count()
    };
    let is_answer = |lines: &[&[u8]]| answers(lines.get(same..same + 1).unwrap_or(&[])) == 1;
    let within = !is_answer(&own) && !is_answer(&other);
    let line = answers(&own[..same]) + usize::from(!within);
    let text = script.split(|&byte| byte == b'\n').nth(line.saturating_sub(1)).unwrap_or(b"");
    println!("  line {line} of the script: \"{}\"", shown(text));
    println!("  the first reply line that differs is {}, counted from 1", same + 1);
    for (who, lines) in [("this library", &own), ("the program", &other)] {
        match lines.get(same) {
            Some(line) => println!("  {who}: \"{}\"", shown(line)),
            None => println!("  {who}: nothing"),
        }
    }
}

/// The first bytes of a line, made readable.
fn shown(line: &[u8]) -> String {
    let start = &line[..line.len().min(120)];
    format!("{}{}", start.escape_ascii(), if start.len() < line.len() { ".." } else { "" })
}

/// A shorter script that still differs, found by leaving out ever fewer lines.
fn shorten(script: &[u8], differs: impl Fn(&[u8]) -> io::Result<bool>) -> io::Result<Vec<u8>> {
    let mut lines: Vec<&[u8]> = script.split_inclusive(|&byte| byte == b'\n').collect();
    let mut tries = 0;
    let mut size = lines.len().div_ceil(2);
    while size > 0 {
        let mut start = 0;
        let mut shortened = false;
        while start < lines.len() && tries < SHORTENINGS {
            let end = lines.len().min(start + size);
            let rest = [&lines[..start], &lines[end..]].concat();
            tries += 1;
            if differs(&rest.concat())? {
                lines = rest;
                shortened = true;
            } else {
                start = end;
            }
        }
        if size > 1 || !shortened || tries >= SHORTENINGS {
            size /= 2;
        }
    }
    Ok(lines.concat())
}
