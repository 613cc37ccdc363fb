//! The program `cover`: its inputs, and what they give.

use crate::damage::few_faults;
use crate::draft::{some_limits, Draft};
use crate::large::large_tables;
use crate::random::Random;
use crate::tally::{Tally, ZEROS};
use reference::cover;
use reference::frames::replay_cover;
use reference::samples::{Pair, BUILT, LIMITS_FROM_0, PAIRS};
use reference::Head;

fn cover_input(head: Head, pairs: &[Pair], (alpha, beta): (u16, u16)) -> Vec<u8> {
    let operators = pairs.iter().map(|pair| pair.0);
    let rides = pairs.iter().map(|pair| pair.1);
    let sizes = [head.operators, head.rides, head.pairs];
    let words = sizes.into_iter().chain(operators).chain(rides).chain([alpha, beta]);
    words.flat_map(u16::to_le_bytes).collect()
}

fn cover_case(random: &mut Random) -> Vec<u8> {
    let mut draft = Draft::small_or_one_sided(random);
    let limits = some_limits(random, draft.head);
    let mut length_off: isize = 0;
    for _ in 0..few_faults(random) {
        match random.below(6) {
            0 => draft.oversize(random),
            1 => draft.too_many_pairs(random),
            2..=3 => draft.disorder(random),
            _ => length_off = random.pick(&[-1, 1, -2, 2, -4, 4, 3, -3, 100, -1000]),
        }
    }
    let pairs: Vec<Pair> = draft.words.operators.into_iter().zip(draft.words.rides).collect();
    let mut input = cover_input(draft.head, &pairs, limits);
    let length = input.len().saturating_add_signed(length_off);
    input.resize(length, 1);
    input
}

fn cover_inputs(random: &mut Random) -> Vec<Vec<u8>> {
    let whole = cover_input(BUILT, &PAIRS, (2, 2));
    let mut inputs = vec![whole.clone()];
    for limits in [(1, 3), (1, 4), (3, 1), (4, 1), (1, 5), (65_535, 65_535), (65_535, 0), (0, 65_535), (1, 1)] {
        inputs.push(cover_input(BUILT, &PAIRS, limits));
    }
    for sample in LIMITS_FROM_0 {
        let input = cover_input(sample.head(), sample.pairs, (sample.alpha, sample.beta));
        assert_eq!(cover(&input), sample.text.as_bytes());
        inputs.push(input);
    }
    inputs.extend((0..whole.len()).map(|length| whole[..length].to_vec()));
    for (operators, rides) in [(200, 60), (201, 60), (200, 61), (201, 61)] {
        inputs.push(cover_input(Head { operators, rides, pairs: 1 }, &[(199, 59)], (1, 1)));
    }
    inputs.extend((0..1_500).map(|_| cover_case(random)));
    for (operators, rides, pairs) in large_tables(random) {
        let head = Head { operators, rides, pairs: pairs.len() as u16 };
        let alpha = (pairs.len() / operators as usize).max(1) as u16;
        let beta = (pairs.len() / rides as usize).max(1) as u16;
        let alpha = if random.one_in(4) { 0 } else { alpha.saturating_sub(3).max(1) };
        let beta = if random.one_in(4) { 0 } else { beta.saturating_sub(8).max(1) };
        inputs.push(cover_input(head, &pairs, (alpha, beta)));
    }
    let full = random.table_of(200, 60, 12_000);
    let head = Head { operators: 200, rides: 60, pairs: 12_000 };
    let mut long = cover_input(head, &full, (60, 200));
    long.resize(65_535, 0);
    inputs.push(long);
    inputs
}

/// The number that an output of `cover` tells, and the limits and sizes of an input that isn't refused.
fn tally_cover(tally: &mut Tally, input: &[u8], output: &[u8]) {
    let text = std::str::from_utf8(output).expect("the output is text");
    if let Some(number) = text.strip_prefix("refused ") {
        return tally.gave("cover", number.trim_end().parse().expect("a number"));
    }
    tally.gave("cover", 0);
    let word = |at: usize| u16::from_le_bytes([input[at], input[at + 1]]);
    let head = Head { operators: word(0), rides: word(2), pairs: word(4) };
    tally.limits("cover", head, (word(input.len() - 4), word(input.len() - 2)), &[]);
}

/// A stream of inputs of `cover`, the outputs, and what they tell.
pub fn covers(random: &mut Random) -> (Vec<u8>, Vec<u8>, Tally) {
    let mut stream = Vec::new();
    for input in cover_inputs(random) {
        stream.extend(u16::try_from(input.len()).expect("an input of at most 65535 bytes").to_le_bytes());
        stream.extend(input);
    }
    let mut tally = Tally::default();
    let text = replay_cover(&stream, |input| {
        let output = cover(input);
        tally_cover(&mut tally, input, &output);
        output
    });
    tally.covers("cover", &[0, 1, 2, 4, 5, 13], 30);
    tally.covers_kinds("cover", &ZEROS[..6], 15);
    (stream, text, tally)
}
