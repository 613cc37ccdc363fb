//! Builds, queries and peels of one board: the samples of documents 01 and 02, and large boards.

use crate::damage::shorten_to;
use crate::draft::{presence_of, sample_draft, with_presence, Draft};
use crate::large::{large_limit, large_tables};
use crate::minimums::{minimums_of, no_minimums, these_minimums};
use crate::peel::{all_ones, kept_peel, kept_peel_from_ones, marks_of};
use crate::query::kept_query;
use crate::random::Random;
use crate::stream::Stream;
use reference::frames::{Call, Part};
use reference::presence::{BUILT_OVER, EVERYBODY, PEELS, QUERIES, SHORT_PRESENCE};
use reference::samples::{BUILT, BY_NO_INDEX, LIMITS_FROM_0, NO_INDEX, PEELS_FROM_0, SHORT_FROM_0, START};
use reference::{Head, Parts, PRESENT};

/// Document 01's board.
pub fn sample_calls(random: &mut Random, stream: &mut Stream) {
    let draft = sample_draft(random);
    stream.call(draft.build(1));
    for limits in [(1, 3), (1, 4), (2, 2), (4, 1), (65_535, 1), (1, 65_535), (65_535, 0), (0, 65_535)] {
        let query = kept_query(random, draft.head, limits);
        stream.call(query);
    }
    for steps in [65_535, 0, 1, 2, 3, 4] {
        let peel = kept_peel_from_ones(random, draft.head, (2, 2), steps);
        stream.call(peel);
    }
    let (minimums, settled) = (no_minimums(random, draft.head), Part::kept(draft.head.nodes()));
    let peel = kept_peel(random, draft.head, (2, 2), 0, minimums, settled);
    stream.call(peel);
    for (operators, rides) in [(200, 60), (201, 60), (200, 61), (201, 61)] {
        let mut draft = Draft::new(random, operators, rides, &[(0, 0), (3, 4), (199, 59)]);
        draft.lengthen();
        stream.call(draft.build(1));
    }
}

/// Document 02's limits from 0, with what was worked out by hand.
pub fn samples_from_0(random: &mut Random, stream: &mut Stream) {
    for sample in LIMITS_FROM_0 {
        let limits = (sample.alpha, sample.beta);
        let draft = Draft::new(random, sample.operators, sample.rides, sample.pairs);
        stream.call(draft.build(1));
        let query = kept_query(random, draft.head, limits);
        stream.covers(query, sample.operators, sample.marks);
        let peel = kept_peel_from_ones(random, draft.head, limits, 65_535);
        stream.gives(peel, &[0, 1, sample.steps()], sample.marks);
    }
    let head = Head { operators: 2, rides: 2, pairs: 0 };
    for &(alpha, beta, expected) in BY_NO_INDEX {
        let (index, marks) = (random.given(&NO_INDEX), random.filled(4));
        let query = Call::Query { head, alpha, beta, index, presence: Part::filled(4, PRESENT), marks };
        stream.covers(query, head.operators, &expected);
    }
    for &(operators, rides, index, marks, (alpha, beta)) in SHORT_FROM_0 {
        let head = Head { operators, rides, pairs: 0 };
        let (presence, index) = (Part::filled(head.nodes(), PRESENT), Part::filled(index, 1));
        let query = Call::Query { head, alpha, beta, index, presence, marks: Part::filled(marks, 9) };
        stream.gives(query, &[3, 0, 0], &vec![9; marks]);
    }
    let draft = with_presence(random, &EVERYBODY);
    for &(marks, limits, steps, numbers, left) in PEELS_FROM_0 {
        let minimums = no_minimums(random, draft.head);
        stream.gives(draft.peel(limits, steps, minimums, random.given(&marks)), &numbers, &left);
    }
}

/// Document 02's operators who have gone home and rides out of service, with what was worked out by hand: builds,
/// queries and peels.
pub fn sample_presence(random: &mut Random, stream: &mut Stream) {
    for words in BUILT_OVER {
        stream.call(with_presence(random, &words).build(START));
        assert_eq!(stream.memory.parts.presence[..7], EVERYBODY);
    }
    for &(words, index, (alpha, beta), marks) in QUERIES {
        let mut draft = with_presence(random, &words);
        draft.words.index = index.to_vec();
        let Parts { index, presence, .. } = draft.parts();
        let query = Call::Query { head: BUILT, alpha, beta, index, presence, marks: random.filled(7) };
        stream.covers(query, BUILT.operators, &marks);
    }
    for &(words, marks, limits, steps, numbers, left) in PEELS {
        let (minimums, marks) = (no_minimums(random, BUILT), random.given(&marks));
        stream.gives(with_presence(random, &words).peel(limits, steps, minimums, marks), &numbers, &left);
    }
    for &(head, places, number) in SHORT_PRESENCE {
        short_presence(random, stream, head, places, number);
    }
}

/// A build, a peel and a query that are lent so many words of presence, with the number that was worked out by hand.
fn short_presence(random: &mut Random, stream: &mut Stream, head: Head, places: usize, number: u16) {
    let some = |random: &mut Random| Draft { head, lengths: random.lengths(head), ..with_presence(random, &EVERYBODY) };
    for part in 0..3 {
        let mut draft = some(random);
        shorten_to(&mut draft.lengths, part, places);
        assert_eq!(stream.call(draft.build(START)).0.numbers, [number]);
    }
    let mut draft = some(random);
    draft.lengths.presence = places;
    let (minimums, marks) = (no_minimums(random, head), all_ones(random, head));
    assert_eq!(stream.call(draft.peel((1, 1), 65_535, minimums, marks.clone())).0.numbers[0], number);
    let Parts { index, presence, .. } = draft.parts();
    // A query reads no pairs.
    let number = if number == 4 { 0 } else { number };
    let query = Call::Query { head, alpha: 1, beta: 1, index, presence, marks };
    assert_eq!(stream.call(query).0.numbers[0], number);
}

/// Queries and peels of large boards. Everybody is on and in and no ride has a minimum for three turns, then others are
/// off or out and other rides have minimums three times; the words stay from call to call.
pub fn large_calls(random: &mut Random, stream: &mut Stream) {
    for (operators, rides, pairs) in large_tables(random) {
        let draft = Draft::new(random, operators, rides, &pairs);
        stream.call(draft.build(random.pick(&[1, 4_294_967_295])));
        let means = [pairs.len() / operators as usize, pairs.len() / rides as usize].map(|mean| mean as u16);
        for turn in 0..12 {
            large_turn(random, stream, draft.head, means, turn);
        }
    }
}

/// A query and a peel for limits near the means of the degrees of operators and of rides.
fn large_turn(random: &mut Random, stream: &mut Stream, head: Head, [mean_alpha, mean_beta]: [u16; 2], turn: usize) {
    let alpha = large_limit(random, head.rides, [1, mean_alpha, mean_alpha.saturating_sub(2)]);
    let beta = large_limit(random, head.operators, [1, mean_beta, mean_beta.saturating_sub(5)]);
    let mut query = kept_query(random, head, (alpha, beta));
    if let (3 | 6 | 9, Call::Query { presence, .. }) = (turn, &mut query) {
        *presence = Part::changed(presence.len, 0, &presence_of(random, head.nodes()));
    }
    stream.call(query);
    let words = marks_of(random, head.nodes());
    let marks = Part::given(random.length(head.nodes()), &words, 5);
    let marks = if random.one_in(2) { marks } else { all_ones(random, head) };
    let steps = random.pick(&[65_535, 260, 259, 30, 3, 0]);
    let (mut others, rides) = (random.others(), head.rides as usize);
    let minimum = |others: &mut Random| others.pick(&[1, mean_beta / 2, mean_beta, mean_beta + 5, 65_535]);
    let minimums = match turn {
        0 => no_minimums(random, head),
        3 | 6 | 9 => these_minimums(random, &minimums_of(&mut others, rides, minimum)),
        _ => Part::kept(others.length(rides)),
    };
    let peel = kept_peel(random, head, (alpha, beta), steps, minimums, marks);
    stream.call(peel);
}

/// Pair arrays of the largest size that are wrong at one place only, and parts that are short by one place.
pub fn large_refusals(random: &mut Random, stream: &mut Stream) {
    let pairs = random.table_of(200, 60, 900);
    for damage in 0..12 {
        let mut draft = Draft::new(random, 200, 60, &pairs);
        match damage {
            0 => draft.words.operators[899] = 200,
            1 => draft.words.rides[450] = 60,
            2 => draft.lengths.operators = 11_999,
            3 => draft.lengths.rides = 11_999,
            4 => draft.lengths.stamps = 11_999,
            5 => draft.lengths.revisions = 11_999,
            6 => draft.lengths.index = 15_599,
            7 => draft.head.pairs = 12_001,
            8 => draft.lengths.presence_stamps = 259,
            9 => draft.lengths.presence_revisions = 259,
            10 => draft.lengths.presence = 259,
            _ => {
                draft.words.operators[899] = draft.words.operators[898];
                draft.words.rides[899] = draft.words.rides[898];
            }
        }
        stream.call(draft.build(1));
        let (minimums, marks) = (no_minimums(random, draft.head), all_ones(random, draft.head));
        stream.call(draft.peel((1, 1), 65_535, minimums, marks));
    }
}
