//! What is done to a board before it is lent, so that a call is refused.

use crate::draft::{presence_of, Draft};
use crate::random::Random;
use reference::frames::Part;
use reference::{Lengths, Vectors};

/// How many damages there are that 1 to 5 speak of.
pub const DAMAGES: usize = 8;

impl Draft {
    /// A size above its bound. The parts may be lent as long as that size would need.
    pub fn oversize(&mut self, random: &mut Random) {
        match random.below(4) {
            0 => self.head.operators = 201 + random.pick(&[0, 0, 54, 55, 1000, 65334]),
            1 => self.head.rides = 61 + random.pick(&[0, 0, 194, 195, 1000, 65474]),
            2 => {
                self.head.operators = 201;
                self.head.rides = random.pick(&[1, 2, 60, 61]);
                self.lengthen();
            }
            _ => {
                self.head.operators = random.pick(&[1, 2, 200, 201]);
                self.head.rides = 61;
                self.lengthen();
            }
        }
    }

    /// Each part gets just the length that the sizes need.
    pub fn lengthen(&mut self) {
        self.lengths = self.head.lengths();
    }

    /// A part of the pair arrays that is too short.
    fn shorten_pairs(&mut self, random: &mut Random) {
        if random.one_in(2) {
            self.lengths.operators = random.short(self.head.places());
        } else {
            self.lengths.rides = random.short(self.head.places());
        }
    }

    /// A part of presence that is too short.
    fn shorten_presence(&mut self, random: &mut Random) {
        let length = random.short(self.head.nodes());
        shorten_to(&mut self.lengths, random.below(3), length);
    }

    pub fn too_many_pairs(&mut self, random: &mut Random) {
        let places = self.head.places().min(65_534) as u16;
        self.head.pairs = random.pick(&[places + 1, places + 1, places.saturating_add(2), 65_535]);
    }

    /// A pair out of range, a pair twice, two pairs or two rides in the wrong order, or more pairs counted than given.
    pub fn disorder(&mut self, random: &mut Random) {
        let Vectors { operators, rides, .. } = &mut self.words;
        let count = operators.len();
        if count == 0 || random.one_in(8) {
            self.head.pairs = self.head.pairs.saturating_add(1);
            return;
        }
        let place = random.below(count);
        let next = (place + 1).min(count - 1);
        match random.below(6) {
            0 => operators[place] = random.pick(&[self.head.operators, self.head.operators, 65_535]),
            1 => rides[place] = random.pick(&[self.head.rides, self.head.rides, 65_535]),
            2 => {
                operators[next] = operators[place];
                rides[next] = rides[place];
            }
            3 => rides.swap(place, next),
            4 => {
                operators.swap(place, next);
                rides.swap(place, next);
            }
            _ => operators[count - 1] = 0,
        }
    }

    /// Does one of the damages that 1 to 5 speak of, by its number below `DAMAGES`.
    pub fn damage(&mut self, random: &mut Random, which: usize) {
        match which {
            0 => self.oversize(random),
            1 => self.shorten_pairs(random),
            2 => self.lengths.stamps = random.short(self.head.places()),
            3 => self.lengths.revisions = random.short(self.head.places()),
            4 => self.lengths.index = random.short(self.head.words()),
            5 => self.shorten_presence(random),
            6 => self.too_many_pairs(random),
            _ => self.disorder(random),
        }
    }
}

/// How many faults a damaged case gets: none, one, or more at once.
pub fn faults(random: &mut Random) -> usize {
    random.pick(&[0, 0, 0, 1, 1, 1, 1, 1, 2, 2, 2, 3])
}

/// How many faults a case with limits gets: half of them get none.
pub fn few_faults(random: &mut Random) -> usize {
    if random.one_in(3) {
        0
    } else {
        faults(random)
    }
}

/// Gives a length to one of the three parts of presence.
pub fn shorten_to(lengths: &mut Lengths, part: usize, places: usize) {
    match part {
        0 => lengths.presence_stamps = places,
        1 => lengths.presence_revisions = places,
        _ => lengths.presence = places,
    }
}

/// What a query, a peel or a cover is lent: a board with words of presence, marks, and whether its list of minimums is to
/// be too short.
pub struct Loan {
    pub draft: Draft,
    pub marks: Part<u16>,
    pub is_short: bool,
}

/// What is done to a loan.
#[derive(Clone, Copy)]
pub enum Damage {
    Size,
    ShortPairs,
    ShortIndex,
    ShortPresence,
    ShortMarks,
    ShortMinimums,
    TooManyPairs,
    Disorder,
    OddMark,
}

impl Loan {
    /// A board with any words of presence, and with the marks that a function gives for so many nodes.
    pub fn new(random: &mut Random, mut draft: Draft, marks: impl Fn(&mut Random, usize) -> Part<u16>) -> Self {
        let nodes = draft.head.nodes();
        draft.words.presence = presence_of(random, nodes);
        Loan { draft, marks: marks(random, nodes), is_short: false }
    }

    /// Does none, one or more of these damages. One that is listed twice is done twice as often.
    pub fn damage(&mut self, random: &mut Random, among: &[Damage]) {
        for _ in 0..few_faults(random) {
            let damage = random.pick(among);
            self.suffer(random, damage);
        }
    }

    fn suffer(&mut self, random: &mut Random, damage: Damage) {
        let Loan { draft, marks, is_short } = self;
        // Those that there were before any damage.
        let nodes = draft.words.presence.len();
        match damage {
            Damage::Size => {
                draft.oversize(random);
                marks.len = draft.head.nodes().min(265);
            }
            Damage::ShortPairs => draft.shorten_pairs(random),
            Damage::ShortIndex => draft.lengths.index = random.short(draft.head.words()).min(20),
            Damage::ShortPresence => draft.lengths.presence = random.short(nodes),
            Damage::ShortMarks => marks.len = random.short(nodes),
            Damage::ShortMinimums => *is_short = true,
            Damage::TooManyPairs => draft.too_many_pairs(random),
            Damage::Disorder => draft.disorder(random),
            Damage::OddMark if nodes > 0 => marks.words[random.below(nodes)] = random.pick(&[2, 3, 256, 65_535]),
            Damage::OddMark => {}
        }
    }
}
