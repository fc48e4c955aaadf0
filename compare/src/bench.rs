//! Times both sides in turn, in the same run.

use crate::library;
use crate::room::{Answer, Subject};
use std::hint::black_box;
use std::time::{Duration, Instant};

const ROUNDS: usize = 41;
/// Each round calls a side for about this long.
const ROUND: Duration = Duration::from_millis(2);

/// A side for measuring: calls it so often, and says what the calls took.
pub type Timed<'a> = &'a mut dyn FnMut(u32) -> Duration;

/// A side that needs nothing but its calls.
pub fn timed(mut call: impl FnMut()) -> impl FnMut(u32) -> Duration {
    move |calls| {
        let start = Instant::now();
        (0..calls).for_each(|_| call());
        start.elapsed()
    }
}

/// As many calls as a round takes.
fn calls_a_round(side: Timed) -> u32 {
    let mut calls = 1;
    while side(calls) < ROUND && calls < 1 << 24 {
        calls *= 2;
    }
    calls
}

/// Nanoseconds a call of each side.
#[derive(Clone, Copy)]
pub struct Times {
    rust: f64,
    ours: Option<f64>,
}

/// Measures both sides and takes the best round of each: what else the machine does can only add to
/// a time.
fn times(rust: Timed, mut ours: Option<Timed>) -> Times {
    let rust_calls = calls_a_round(rust);
    let our_calls = ours.as_mut().map_or(0, |ours| calls_a_round(ours));
    let mut best = Times { rust: f64::INFINITY, ours: ours.as_ref().map(|_| f64::INFINITY) };
    let a_call = |took: Duration, calls: u32| took.as_nanos() as f64 / f64::from(calls);
    for _ in 0..ROUNDS {
        best.rust = best.rust.min(a_call(rust(rust_calls), rust_calls));
        if let (Some(ours), Some(best)) = (&mut ours, &mut best.ours) {
            *best = best.min(a_call(ours(our_calls), our_calls));
        }
    }
    best
}

/// Prints the best time of both sides and the Rust's time over ours. Ours is lent more than any
/// input of this length could fill, and its listing is compared first.
pub fn pair(label: &str, subject: &Subject, input: &[u8], rust: Timed) -> Times {
    let Some(entry) = subject.ours else {
        let times = times(rust, None);
        println!("{label:<36} rust {:>10.1} ns", times.rust);
        return times;
    };

    let mut listing = Vec::new();
    let due = (subject.rust)(input, &mut listing);
    let mut room = vec![0; 9 * input.len() + 64];
    let expected = due.in_room(listing.len(), room.len());
    assert_eq!(Answer::unpack(library::call(entry, input, &mut room)), expected, "{label}");
    assert_eq!(room[..listing.len()], listing, "{label}");

    let mut ours = timed(|| {
        black_box(library::call(entry, black_box(input), black_box(&mut room)));
    });
    let times = times(rust, Some(&mut ours));
    let (rust, ours) = (times.rust, times.ours.unwrap());
    let ratio = rust / ours;
    println!("{label:<36} rust {rust:>10.1} ns   ours {ours:>10.1} ns   rust/ours {ratio:>5.2}");
    times
}

/// Prints by what a larger input's times exceed a smaller one's.
pub fn growth(label: &str, small: Times, large: Times) {
    print!("{label:<36} rust {:>10.2} x ", large.rust / small.rust);
    match (small.ours, large.ours) {
        (Some(small), Some(large)) => println!("   ours {:>10.2} x", large / small),
        _ => println!(),
    }
}
