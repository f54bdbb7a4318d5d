//! Sides of a comparison take turns, round by round, so that all see the same weather; the best round of
//! each counts. What each side gives is compared, so that all are seen to have done the same.

use std::fmt::Debug;
use std::hint::black_box;
use std::time::Instant;

/// Rounds of an entry that is called on its own.
pub const ROUNDS: usize = 200;

/// Room for what an entry writes, and for a table.
const LENT: usize = 512;

/// Nanoseconds of one call by each side; a run of a side makes `calls` of them.
pub fn best<T: Debug + PartialEq, const N: usize>(
    what: &str,
    rounds: usize,
    calls: usize,
    sides: [&dyn Fn() -> T; N],
) -> [f64; N] {
    let mut best = [f64::INFINITY; N];
    let expected = sides[0]();
    for _ in 0..rounds {
        for (side, (best, run)) in best.iter_mut().zip(sides).enumerate() {
            let start = Instant::now();
            let given = run();
            let elapsed = start.elapsed().as_nanos() as f64 / calls as f64;
            assert_eq!(given, expected, "{what}: side {side} went another way");
            *best = best.min(elapsed);
        }
    }
    best
}

/// An entry as one side has it: an input, and bytes that it is lent beside it.
pub type Entry<I> = fn(&I, &mut [u8]) -> u32;

/// The time of each side over the same inputs, and how many of them were answered with 0. All sides are
/// called through a pointer, so that none is mixed with the loop.
pub fn entry<I, const N: usize>(
    what: &str,
    inputs: &[I],
    sides: [Entry<I>; N],
) -> (usize, [f64; N]) {
    let mut taken = 0;
    for input in inputs {
        let left = sides.map(|side| {
            let mut lent = [0xA5; LENT];
            (side(input, &mut lent), lent)
        });
        assert!(left.iter().all(|one| *one == left[0]), "{what}: not all sides leave the same");
        taken += usize::from(left[0].0 >> 24 == 0);
    }
    let run = |side: Entry<I>| {
        move || {
            let mut lent = [0; LENT];
            inputs.iter().fold(0u64, |words, input| {
                let word = side(input, black_box(&mut lent));
                words.wrapping_mul(31).wrapping_add(u64::from(word))
            })
        }
    };
    let runs = sides.map(run);
    let sides = runs.each_ref().map(|run| run as &dyn Fn() -> u64);
    (taken, best(what, ROUNDS, inputs.len(), sides))
}

/// The head of a table of entries: the library, and each other side with the library's ratio to it.
pub fn head(what: &str, others: &[&str]) {
    println!("{what}: ns per call, best of {ROUNDS} alternating rounds, and the library's ratio:");
    print!("  {:<50}{:>7}{:>7}{:>9}", "", "calls", "taken", "library");
    others.iter().for_each(|other| print!("{other:>9}{:>7}", "ratio"));
    println!();
}

/// A line of it.
pub fn line<const N: usize>(name: &str, calls: usize, taken: usize, best: [f64; N]) {
    print!("  {name:<50}{calls:>7}{taken:>7}{:>9.1}", best[0]);
    best[1..].iter().for_each(|other| print!("{other:>9.1}{:>7.2}", best[0] / other));
    println!();
}
