//! `order ROUNDS`: questions 1 and 2 through the boundary (a reading that gets 16) beside the same by hand in Rust, on full tables, an eighth of them, and
//! the empty chart. Both take turns; medians are printed.

use boundary::lent::Lent;
use boundary::plain;
use std::hint::black_box;
use std::process::ExitCode;
use std::time::Instant;

/// Microseconds of one call, of many at a time where one is short.
fn micros(times: u32, mut work: impl FnMut()) -> f64 {
    let begin = Instant::now();
    (0..times).for_each(|_| work());
    begin.elapsed().as_secs_f64() * 1e6 / f64::from(times)
}

fn median(mut times: Vec<f64>) -> f64 {
    times.sort_by(f64::total_cmp);
    times[times.len() / 2]
}

fn main() -> ExitCode {
    let Some(Ok(rounds)) = std::env::args().nth(1).map(|word| word.parse::<usize>()) else {
        eprintln!("usage: order ROUNDS");
        return ExitCode::FAILURE;
    };
    for (name, lent, times) in [
        ("full tables", plain::tables(1), 1),
        ("an eighth", plain::tables(8), 10),
        ("the empty chart", Lent::zeros(), 1_000),
    ] {
        assert_eq!(lent.first_no(), 0, "{name}");
        assert!(plain::in_order(&lent), "{name}");
        let (mut ours, mut hand) = (Vec::new(), Vec::new());
        for _ in 0..rounds.max(1) {
            ours.push(micros(times, || _ = black_box(black_box(&lent).first_no())));
            hand.push(micros(times, || _ = black_box(plain::in_order(black_box(&lent)))));
        }
        let (ours, hand) = (median(ours), median(hand));
        println!("{name}: proved {ours:.2} us, by hand {hand:.2} us, {:.2} times as long", ours / hand);
    }
    ExitCode::SUCCESS
}
