//! Contenders on the same input, the product first. All must agree, or the run
//! fails; a ratio fails it only where one is demanded and missed again and again.

use std::env;
use std::sync::Mutex;
use std::time::Duration;

/// How often contests are run until they reach what is demanded: other work on the
/// machine can spoil a figure.
const TRIES: usize = 3;

/// Demands that the contests run since `measured` began have missed.
static MISSED: Mutex<Vec<String>> = Mutex::new(Vec::new());

/// Runs contests, again where they missed a demand, and gives what they missed at last.
pub fn measured(contests: fn()) -> Vec<String> {
    let mut missed = Vec::new();
    for _ in 0..TRIES {
        contests();
        missed = std::mem::take(&mut *MISSED.lock().expect("no contest failed"));
        if missed.is_empty() {
            break;
        }
    }
    missed
}

/// Whether an emulator runs all this, as `tools/x86-64` tells. Its times say nothing.
pub fn emulated() -> bool {
    env::var_os("EMULATED").is_some()
}

/// The best time of each contender. They take turns, so that other work on the
/// machine disturbs all alike. Under an emulator one round shows that they agree.
pub fn best_times<const N: usize, C: Copy, A: PartialEq>(
    rounds: usize,
    names: [&str; N],
    contenders: [C; N],
    run: impl Fn(C) -> (Duration, A),
) -> [Duration; N] {
    let (_, expected) = run(contenders[0]);
    let mut best = [Duration::MAX; N];
    for _ in 0..if emulated() { 1 } else { rounds } {
        for (place, contender) in contenders.into_iter().enumerate() {
            let (time, answers) = run(contender);
            assert!(answers == expected, "{} and {} disagree", names[0], names[place]);
            best[place] = best[place].min(time);
        }
    }
    best
}

/// Prints how many `things` per second each got through, and the ratios.
pub fn show<const N: usize>(
    what: &str,
    names: [&str; N],
    best: [Duration; N],
    count: usize,
    things: &str,
) {
    let rates = best.map(|time| count as f64 / time.as_secs_f64());
    for (name, rate) in names.iter().zip(rates) {
        println!("{what}: {name} {:.1} million {things} per second", rate / 1e6);
    }
    show_ratios(what, names, best);
}

/// Prints the first's speed over that of each other.
pub fn show_ratios<const N: usize>(what: &str, names: [&str; N], best: [Duration; N]) {
    let ratios: Vec<String> = names
        .iter()
        .zip(best)
        .skip(1)
        .map(|(name, time)| format!("{}/{name} = {:.2}", names[0], ratio(best[0], time)))
        .collect();
    println!("{what}: {}", ratios.join(", "));
}

/// The speed of what took the first time over that of what took the other.
fn ratio(time: Duration, other: Duration) -> f64 {
    other.as_secs_f64() / time.as_secs_f64()
}

/// Whether the compiler of the present kit is known to miss this demand, as `.ci/run`
/// tells. Then the ratio is told, and fails nothing.
fn known_to_be_missed(what: &str) -> bool {
    env::var("KNOWN_TO_BE_MISSED").is_ok_and(|known| known.split("; ").any(|one| one == what))
}

/// Notes a demand as missed unless the first has more than this part of the other's
/// speed. Nothing is demanded of an emulator.
pub fn demand(what: &str, names: [&str; 2], best: [Duration; 2], least: f64) {
    let ratio = ratio(best[0], best[1]);
    let [name, other] = names;
    if emulated() {
        println!("{what}: an emulator; {name}/{other} was NOT demanded to be above {least:.2}");
    } else if ratio > least {
        println!("{what}: {name}/{other} is above {least:.2}, as demanded");
    } else if known_to_be_missed(what) {
        println!(
            "{what}: {name}/{other} = {ratio:.3}, NOT above {least:.2}, as is known of the kit"
        );
    } else {
        let missed = format!("{what}: {name}/{other} = {ratio:.3}, NOT above {least:.2}");
        println!("{missed}");
        MISSED.lock().expect("no contest failed").push(missed);
    }
}
