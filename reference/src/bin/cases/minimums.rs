//! Lists of minimums for peels, own covers and crowd covers.

use crate::random::Random;
use reference::frames::Part;
use reference::Head;

/// A minimum for each of so many rides, that a function gives: none has one, some have, all have, or all have the same.
pub fn minimums_of(random: &mut Random, rides: usize, mut minimum: impl FnMut(&mut Random) -> u16) -> Vec<u16> {
    let own = random.pick(&[0, 1, 2, 3, 3, 6]);
    if random.one_in(8) {
        return vec![minimum(random); rides];
    }
    (0..rides).map(|_| if random.below(6) < own { minimum(random) } else { 0 }).collect()
}

/// A minimum that so many operators may meet, or not, at times near beta.
fn some_minimum(random: &mut Random, operators: u16, beta: u16) -> u16 {
    match random.below(8) {
        0 => beta.saturating_sub(1).max(1),
        1 => beta.saturating_add(1),
        2 => random.pick(&[operators.saturating_add(1), 256, 65_535, 65_535]),
        _ => 1 + random.below(operators.clamp(1, 4) as usize) as u16,
    }
}

/// A list of minimums, at times too short. Past the rides stands any word; where there are too many rides, nothing else.
pub fn some_minimums(random: &mut Random, head: Head, beta: u16, is_short: bool) -> Part<u16> {
    let rides = (head.rides as usize).min(65);
    let own = if rides > 60 { 0 } else { rides };
    let words = minimums_of(random, own, |random| some_minimum(random, head.operators, beta));
    let len = if is_short { random.short(rides) } else { random.length(rides) };
    Part::given(len, &words, random.word())
}

/// The same from a generator of its own, one in twelve too short.
pub fn other_minimums(random: &Random, head: Head, beta: u16) -> Part<u16> {
    let mut others = random.others();
    let is_short = others.one_in(12);
    some_minimums(&mut others, head, beta, is_short)
}

/// A list of these minimums, and past the rides any word.
pub fn these_minimums(random: &Random, minimums: &[u16]) -> Part<u16> {
    random.others().given(minimums)
}

/// No ride has a minimum.
pub fn no_minimums(random: &Random, head: Head) -> Part<u16> {
    these_minimums(random, &vec![0; head.rides as usize])
}

/// Each ride has none, or beta: a minimum that changes nothing.
pub fn idle_minimums(random: &Random, head: Head, beta: u16) -> Part<u16> {
    let mut others = random.others();
    let minimums: Vec<u16> = (0..head.rides).map(|_| others.pick(&[0, beta])).collect();
    these_minimums(random, &minimums)
}

/// The number that a peel or cover of 3 rides gives with so many places of minimums, where it gives this one with enough.
pub fn number_with(places: usize, number: u16) -> u16 {
    if places < 3 && ![1, 2].contains(&number) {
        3
    } else {
        number
    }
}

/// Minimums for a board of 200 by 60 with 2,000 pairs.
pub fn large_minimums(random: &mut Random) -> Vec<u16> {
    minimums_of(random, 60, |random| random.pick(&[1, 20, 24, 28, 33, 65_535]))
}
