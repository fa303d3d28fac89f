//! Runs a small job's text: one CNOT over two links, judged and listed.

use zirbonnu::{measure, run, Failure};

const TEXT: &[u8] = b"o 3 1 2
C 0 1
e
k 0 1 1 100 2 0
k 1 1 1 100 3 0
p 0 0
p 1 2
t 0 5 0
j
l
";

/// Five places are too few: the call says how many it takes, and leaves them.
fn run_in_five() {
    let mut places = [b'#'; 5];
    let answer = run(TEXT, &mut places);
    println!("5 places: {answer:?}, places {}", held(&places));
    assert!(matches!(answer, Err(Failure::TooSmall(_))));
    assert_eq!(places, [b'#'; 5]);
}

/// As many places as are needed, and 10 more, which are left.
fn run_in_enough() -> Result<(), Failure> {
    let needed = measure(TEXT)?;
    let mut places = vec![b'#'; needed + 10];
    let count = run(TEXT, &mut places)?;
    println!(
        "{} places: {count} written, the last 10 {}",
        needed + 10,
        held(&places[needed..])
    );
    print!("{}", String::from_utf8_lossy(&places[..count]));
    assert_eq!(count, needed);
    assert_eq!(places[needed..], [b'#'; 10]);
    Ok(())
}

/// Whether the places are as they were.
fn held(places: &[u8]) -> &'static str {
    if places.iter().all(|byte| *byte == b'#') {
        "left"
    } else {
        "changed"
    }
}

fn main() -> Result<(), Failure> {
    run_in_five();
    run_in_enough()
}
