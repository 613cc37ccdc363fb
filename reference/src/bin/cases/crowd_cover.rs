//! Crowd covers, and the look-ups of the samples.

use crate::crowd::{some_bands, some_crowd, some_crowd_for, some_guests};
use crate::damage::{Damage, Loan};
use crate::draft::{of_lent, of_sample, some_limits, with_all, with_presence, Draft};
use crate::large::{large_draft, large_limit, turn_parts};
use crate::minimums::{
    idle_minimums, large_minimums, no_minimums, number_with, other_minimums, some_minimums, these_minimums,
};
use crate::own_cover::with_first_pairs;
use crate::peel::all_ones;
use crate::random::Random;
use crate::stream::Stream;
use reference::crowd::{crowd_limits, Bands};
use reference::crowd_samples::{
    followed, Asked, BESIDE, CROWD_COVERS, FIVE, LENT, LOOK_UPS, REFUSED, UNREAD, WITH_MINIMUMS,
};
use reference::frames::{Call, Part};
use reference::minimums::{COVERS, SHORT};
use reference::presence::EVERYBODY;
use reference::samples::{BUILT, LIMITS_FROM_0};
use reference::Parts;

pub fn crowd_cover_case(random: &mut Random) -> Call {
    let draft = Draft::small_or_one_sided(random);
    let head = draft.head;
    let mut loan = Loan::new(random, draft, Random::filled);
    let crowd = some_crowd(random, |random| some_limits(random, head));
    let damages = [
        Damage::Size,
        Damage::Size,
        Damage::ShortPairs,
        Damage::ShortPresence,
        Damage::ShortMarks,
        Damage::TooManyPairs,
        Damage::Disorder,
    ];
    loan.damage(random, &damages);
    let Loan { draft, marks, .. } = loan;
    let minimums = other_minimums(random, draft.head, crowd_limits(&crowd.0, crowd.1).beta);
    draft.crowd_cover(crowd, minimums, marks)
}

/// Document 02's limits by crowd, with what was worked out by hand.
pub fn sample_crowds(random: &mut Random, stream: &mut Stream) {
    let draft = with_presence(random, &EVERYBODY);
    for (table, asked) in LOOK_UPS {
        sample_band(random, stream, &draft, *table, asked, |random, beta| idle_minimums(random, BUILT, beta));
    }
    for sample in LIMITS_FROM_0 {
        let crowd = some_crowd_for(random, (sample.alpha, sample.beta));
        let draft = with_all(random, sample.head(), sample.pairs);
        let minimums = idle_minimums(random, draft.head, sample.beta);
        let marks = random.filled(draft.head.nodes());
        stream.covers(draft.crowd_cover(crowd, minimums, marks), sample.operators, sample.marks);
    }
    for &(words, guests, marks) in CROWD_COVERS {
        let draft = with_presence(random, &words);
        let minimums = idle_minimums(random, BUILT, crowd_limits(&FIVE, guests).beta);
        stream.covers(draft.crowd_cover((FIVE, guests), minimums, random.filled(7)), BUILT.operators, &marks);
    }
    for &(table, guests, number) in REFUSED {
        stream.gives(Call::CrowdLimits { guests, bands: table }, &[number, 0, 0], &[]);
        let bands = followed(table, random.pick(&UNREAD));
        let minimums = some_minimums(&mut random.others(), BUILT, 2, false);
        let marks = random.filled(7);
        let cover = draft.crowd_cover((bands, guests), minimums, marks.clone());
        stream.gives(cover, &[number, 0, 0], &[marks.fill.unwrap(); 7]);
    }
    sample_refusals(random, stream, 3);
}

/// Look-ups and crowd covers in a table, with what was worked out by hand. A function gives the minimums for a band's beta.
fn sample_band(
    random: &mut Random,
    stream: &mut Stream,
    draft: &Draft,
    table: Bands,
    asked: &[Asked],
    minimums: impl Fn(&Random, u16) -> Part<u16>,
) {
    for &(guests, (alpha, beta), marks) in asked {
        let bands = followed(table, random.pick(&UNREAD));
        stream.gives(Call::CrowdLimits { guests, bands }, &[0, alpha, beta], &[]);
        let minimums = minimums(random, beta);
        stream.covers(draft.crowd_cover((bands, guests), minimums, random.filled(7)), BUILT.operators, &marks);
    }
}

/// Crowd covers that are refused for the board and for the table, and lent so many places of minimums.
fn sample_refusals(random: &mut Random, stream: &mut Stream, places: usize) {
    for lent in LENT {
        let number = number_with(places, lent.number);
        for (bands, guests, beside) in BESIDE {
            let draft = of_lent(random, lent);
            let (minimums, marks) = (Part::filled(places, 0), Part::filled(lent.places[3], 7));
            let (outcome, _) = stream.call(draft.crowd_cover((bands, guests), minimums, marks));
            // Where nothing is refused the cover is (1, 3).
            let numbers = match (number, beside) {
                (0, 0) => [0, 3, 1],
                (0, code) | (code, _) => [code, 0, 0],
            };
            assert_eq!(outcome.numbers, numbers);
        }
    }
}

/// Document 02's crowd covers with own minimums, with what was worked out by hand.
pub fn sample_crowd_minimums(random: &mut Random, stream: &mut Stream) {
    let draft = with_presence(random, &EVERYBODY);
    for (table, minimums, asked) in WITH_MINIMUMS {
        sample_band(random, stream, &draft, *table, asked, |random, _| these_minimums(random, minimums));
    }
    for sample in COVERS {
        let crowd = some_crowd_for(random, sample.limits);
        let draft = of_sample(random, sample);
        let minimums = these_minimums(random, sample.minimums);
        let marks = random.filled(draft.head.nodes());
        stream.covers(draft.crowd_cover(crowd, minimums, marks), sample.operators, sample.marks);
    }
    for &(head, places, number) in SHORT {
        let draft = with_first_pairs(random, head);
        let (minimums, marks) = (Part::filled(places, random.word()), all_ones(random, head));
        let (bands, guests, beside) = random.pick(&BESIDE);
        let number = if number == 0 { beside } else { number };
        assert_eq!(stream.call(draft.crowd_cover((bands, guests), minimums, marks)).0.numbers[0], number);
    }
    sample_refusals(random, stream, 2);
}

/// Crowd covers of a board that stays, but for who is on and in.
pub fn large_crowds(random: &mut Random, stream: &mut Stream) {
    let draft = large_draft(random);
    let head = draft.head;
    for turn in 0..16 {
        let limits = |random: &mut Random| (large_limit(random, 60, [1, 8, 10]), large_limit(random, 200, [1, 28, 33]));
        let bands = some_bands(random, limits);
        let guests = some_guests(random, &bands);
        let Parts { operators, rides, presence, .. } = turn_parts(random, &draft, turn, &[4, 8, 12]);
        // No ride has a minimum for four turns, then some have others three times.
        let mut others = random.others();
        let minimums = match turn {
            0 => no_minimums(random, head),
            4 | 8 | 12 => these_minimums(random, &large_minimums(&mut others)),
            _ => Part::kept(others.length(60)),
        };
        let marks = random.filled(head.nodes());
        stream.call(Call::CrowdCover { head, guests, bands, operators, rides, presence, minimums, marks });
    }
}
