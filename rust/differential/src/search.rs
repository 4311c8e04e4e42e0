//! What the Rust doesn't say, found by asking it again: how far it gets.

use std::ops::Range;

/// The last number of the range for which it holds. It holds for the first, up to some number, and not at the range's
/// end; neither is asked. If the guess is right, two questions are enough.
pub fn last(range: Range<u32>, guess: u32, mut holds: impl FnMut(u32) -> bool) -> u32 {
    let Range { start: mut yes, end: mut no } = range;
    let mut guesses = [guess, guess.wrapping_add(1)].into_iter();
    while no - yes > 1 {
        let inside = guesses.find(|guess| (yes + 1..no).contains(guess));
        let middle = inside.unwrap_or(yes + (no - yes) / 2);
        if holds(middle) {
            yes = middle;
        } else {
            no = middle;
        }
    }
    yes
}
