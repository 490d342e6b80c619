//! `random SEED COUNT`: so many random streams of each profile through the C functions against the judge, by two threads.

use boundary::compare::{by_verdict, check};
use rufsm::generate::{stream, Profile};
use rufsm::judge;
use std::process::ExitCode;
use std::sync::atomic::{AtomicU64, Ordering};
use std::time::Instant;

fn one(seed: u64, index: u64, profile: Profile) -> bool {
    let bytes = stream(seed, index, profile);
    let expected = by_verdict(&bytes, &judge::verdict(&bytes));
    if let Err(difference) = check(&bytes, &expected) {
        eprintln!("stream {seed}-{index} {profile:?}: {difference}");
        std::process::exit(1);
    }
    expected.number == 0
}

fn main() -> ExitCode {
    let words: Vec<u64> = std::env::args().skip(1).filter_map(|word| word.parse().ok()).collect();
    let [seed, count] = words[..] else {
        eprintln!("usage: random SEED COUNT");
        return ExitCode::FAILURE;
    };
    if !judge::is_there("random") {
        return ExitCode::FAILURE;
    }
    let (begin, accepted) = (Instant::now(), AtomicU64::new(0));
    std::thread::scope(|scope| {
        for first in 0..2 {
            let accepted = &accepted;
            scope.spawn(move || {
                for index in (first..count).step_by(2) {
                    for profile in [Profile::Ordinary, Profile::Middle, Profile::Small] {
                        accepted.fetch_add(u64::from(one(seed, index, profile)), Ordering::Relaxed);
                    }
                }
            });
        }
    });
    let accepted = accepted.into_inner();
    println!("streams={} accepted={accepted} different=0 seconds={:.0}", 3 * count, begin.elapsed().as_secs_f64());
    ExitCode::SUCCESS
}
