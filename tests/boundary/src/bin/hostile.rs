//! `hostile SEED COUNT`: so many hostile events; a refusal that leaves something changed ends it.

use boundary::hostile::Attack;
use std::process::ExitCode;
use std::time::Instant;

fn main() -> ExitCode {
    let words: Vec<u64> = std::env::args().skip(1).filter_map(|word| word.parse().ok()).collect();
    let [seed, count] = words[..] else {
        eprintln!("usage: hostile SEED COUNT");
        return ExitCode::FAILURE;
    };
    let begin = Instant::now();
    let mut attack = Attack::new(seed);
    attack.run(count);
    println!("{:?}\nseconds={:.0}", attack.counts, begin.elapsed().as_secs_f64());
    ExitCode::SUCCESS
}
