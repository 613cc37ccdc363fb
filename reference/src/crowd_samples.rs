//! Document 02's limits by crowd, worked out by hand on document 01's board of `samples::PAIRS`.

use crate::crowd::{Band, Bands, BANDS_MOST};
use crate::minimums::Three;
use crate::presence::{Words, EVERYBODY, NEITHER, NOBODY, NO_OPERATOR_2, NO_RIDE_1, ODD};
use crate::samples::{head, Pair, BUILT, PAIRS};
use crate::Head;

/// A band's first and last guest count, and its limits.
type Given = (u16, u16, u16, u16);

const fn band((first, last, alpha, beta): Given) -> Band {
    Band { first, last, alpha, beta }
}

/// A table of these bands.
const fn table(given: &[Given]) -> Bands {
    counted(given.len() as u16, given)
}

/// A table whose first bands are given, the others all 0, with this count.
const fn counted(count: u16, given: &[Given]) -> Bands {
    let mut bands = [band((0, 0, 0, 0)); BANDS_MOST];
    let mut place = 0;
    while place < given.len() {
        bands[place] = band(given[place]);
        place += 1;
    }
    Bands { count, bands }
}

/// Bands to stand past the count, where none is read: one would be refused, one has every guest count, and two would
/// fill a gap at 0, and at 20,000.
pub const UNREAD: [Band; 4] =
    [band((65_535, 0, 9, 9)), band((0, 20_000, 9, 9)), band((0, 0, 9, 9)), band((20_000, 20_000, 9, 9))];

/// The same table with this band in every place past the count.
pub fn followed(mut table: Bands, unread: Band) -> Bands {
    table.bands.iter_mut().skip(table.count as usize).for_each(|band| *band = unread);
    table
}

// Look-ups and covers

const COVER_1_3: Words = [1, 1, 1, 0, 0, 1, 0];
const COVER_2_2: Words = [1, 1, 0, 0, 1, 1, 0];
const COVER_0_3: Words = [1, 1, 1, 1, 0, 1, 0];
const COVER_2_0: Words = [1, 1, 1, 0, 1, 1, 1];
const OPERATORS_ALONE: Words = [1, 1, 1, 1, 0, 0, 0];
const RIDES_ALONE: Words = [0, 0, 0, 0, 1, 1, 1];

/// A guest count, the limits of its band, and who is in the cover for it where everybody is on and in.
pub type Asked = (u16, (u16, u16), Words);

/// Limits of five kinds, the bands in no order.
pub const FIVE: Bands =
    table(&[(5_000, 8_999, 1, 3), (9_000, 14_999, 2, 2), (1_000, 4_999, 0, 2), (0, 999, 0, 0), (15_000, 20_000, 1, 4)]);

/// As many bands as there may be, of which five have one guest count: 0, 1, 256, 19,999 and 20,000.
const EIGHT: Bands = table(&[
    (10_000, 19_998, 65_535, 0),
    (20_000, 20_000, 1, 3),
    (1, 1, 0, 3),
    (257, 9_999, 0, 65_535),
    (0, 0, 2, 2),
    (2, 255, 2, 0),
    (19_999, 19_999, 1, 2),
    (256, 256, 1, 4),
]);

pub const LOOK_UPS: &[(Bands, &[Asked])] = &[
    // The first and the last guest count of each band, and some between.
    (
        FIVE,
        &[
            (0, (0, 0), EVERYBODY),
            (1, (0, 0), EVERYBODY),
            (999, (0, 0), EVERYBODY),
            (1_000, (0, 2), EVERYBODY),
            (4_999, (0, 2), EVERYBODY),
            (5_000, (1, 3), COVER_1_3),
            (8_999, (1, 3), COVER_1_3),
            (9_000, (2, 2), COVER_2_2),
            (12_345, (2, 2), COVER_2_2),
            (14_999, (2, 2), COVER_2_2),
            (15_000, (1, 4), NOBODY),
            (19_999, (1, 4), NOBODY),
            (20_000, (1, 4), NOBODY),
        ],
    ),
    (
        EIGHT,
        &[
            (0, (2, 2), COVER_2_2),
            (1, (0, 3), COVER_0_3),
            (2, (2, 0), COVER_2_0),
            (255, (2, 0), COVER_2_0),
            (256, (1, 4), NOBODY),
            (257, (0, 65_535), OPERATORS_ALONE),
            (9_999, (0, 65_535), OPERATORS_ALONE),
            (10_000, (65_535, 0), RIDES_ALONE),
            (19_998, (65_535, 0), RIDES_ALONE),
            (19_999, (1, 2), EVERYBODY),
            (20_000, (1, 3), COVER_1_3),
        ],
    ),
    // One band has them all.
    (
        table(&[(0, 20_000, 2, 2)]),
        &[
            (0, (2, 2), COVER_2_2),
            (255, (2, 2), COVER_2_2),
            (256, (2, 2), COVER_2_2),
            (10_000, (2, 2), COVER_2_2),
            (20_000, (2, 2), COVER_2_2),
        ],
    ),
    // All but one guest count in one band, in either order.
    (table(&[(0, 0, 0, 0), (1, 20_000, 1, 3)]), &[(0, (0, 0), EVERYBODY), (1, (1, 3), COVER_1_3)]),
    (table(&[(20_000, 20_000, 2, 2), (0, 19_999, 0, 3)]), &[(19_999, (0, 3), COVER_0_3), (20_000, (2, 2), COVER_2_2)]),
    // Two bands of the same limits.
    (
        table(&[(0, 99, 1, 3), (100, 20_000, 1, 3)]),
        &[(99, (1, 3), COVER_1_3), (100, (1, 3), COVER_1_3), (20_000, (1, 3), COVER_1_3)],
    ),
];

/// Words of presence, a guest count, and who is in the cover that `FIVE` has for it.
pub type CrowdCover = (Words, u16, Words);

pub const CROWD_COVERS: &[CrowdCover] = &[
    // Both limits 0: all who are on or in.
    (NO_OPERATOR_2, 0, NO_OPERATOR_2),
    (NO_RIDE_1, 0, NO_RIDE_1),
    (NEITHER, 999, NEITHER),
    (NOBODY, 0, NOBODY),
    (ODD, 500, [0, 1, 0, 0, 0, 1, 0]),
    // (0, 2): without operator 2 ride 2 has operator 3 alone.
    (NO_OPERATOR_2, 1_000, [1, 1, 0, 1, 1, 1, 0]),
    (NO_RIDE_1, 1_000, NO_RIDE_1),
    (ODD, 4_999, [0, 1, 0, 0, 0, 0, 0]),
    // (1, 3): without operator 2 no ride has three operators.
    (NO_OPERATOR_2, 5_000, NOBODY),
    (NO_RIDE_1, 8_999, NOBODY),
    // (2, 2): operators 0 and 1 have rides 0 and 1; without ride 1 no operator has two rides.
    (NO_OPERATOR_2, 9_000, COVER_2_2),
    (NO_RIDE_1, 14_999, NOBODY),
    ([0, 1, 1, 1, 1, 1, 1], 9_000, NOBODY),
    ([1, 1, 1, 257, 1, 1, 7], 9_000, COVER_2_2),
];

/// A table, the rides' own minimums, and what is asked.
pub type WithMinimums = (Bands, Three, &'static [Asked]);

/// The limits of document 02's samples of own minimums.
const TWO: Bands = table(&[(10_000, 20_000, 1, 2), (0, 9_999, 1, 3)]);

/// `minimums::COVERS` are crowd covers too, for a band of their limits. Here the same minimums are tried in several bands.
pub const WITH_MINIMUMS: &[WithMinimums] = &[
    // Document 02's: no ride, ride 0 and ride 1 have one.
    (TWO, [0; 3], &[(9_999, (1, 3), COVER_1_3), (10_000, (1, 2), EVERYBODY)]),
    (TWO, [2, 0, 0], &[(9_999, (1, 3), [1, 1, 1, 0, 1, 1, 0]), (10_000, (1, 2), EVERYBODY)]),
    (TWO, [0, 4, 0], &[(9_999, (1, 3), NOBODY), (10_000, (1, 2), [1, 1, 1, 1, 1, 0, 1])]),
    // Ride 0 stays by its 1 in every band. For the others the band's beta holds.
    (
        FIVE,
        [1, 0, 0],
        &[
            (999, (0, 0), EVERYBODY),
            (1_000, (0, 2), EVERYBODY),
            (5_000, (1, 3), [1, 1, 1, 0, 1, 1, 0]),
            (9_000, (2, 2), COVER_2_2),
            (20_000, (1, 4), [1, 1, 0, 0, 1, 0, 0]),
        ],
    ),
    // Ride 1 goes in every band. For the operators the band's alpha holds.
    (
        FIVE,
        [0, 4, 1],
        &[
            (999, (0, 0), [1, 1, 1, 1, 1, 0, 1]),
            (1_000, (0, 2), [1, 1, 1, 1, 1, 0, 1]),
            (5_000, (1, 3), [0, 0, 1, 1, 0, 0, 1]),
            (9_000, (2, 2), NOBODY),
            (20_000, (1, 4), [0, 0, 1, 1, 0, 0, 1]),
        ],
    ),
    // Every ride has one: no band's beta is used.
    (
        FIVE,
        [2; 3],
        &[
            (999, (0, 0), EVERYBODY),
            (1_000, (0, 2), EVERYBODY),
            (5_000, (1, 3), EVERYBODY),
            (9_000, (2, 2), COVER_2_2),
            (20_000, (1, 4), EVERYBODY),
        ],
    ),
];

// Refusals

/// A table, the guest count asked for, and the number.
pub type Refused = (Bands, u16, u16);

const WHOLE: Given = (0, 20_000, 1, 3);
/// A band whose first guest count exceeds its last.
const MALFORMED: Given = (5, 4, 2, 2);

pub const REFUSED: &[Refused] = &[
    // Band counts outside 1 to 8, also where their low byte isn't.
    (counted(0, &[WHOLE]), 0, 16),
    (counted(9, &[WHOLE]), 0, 16),
    (counted(256, &[WHOLE]), 0, 16),
    (counted(257, &[WHOLE]), 0, 16),
    (counted(65_535, &[WHOLE]), 20_000, 16),
    (Bands { count: 9, ..EIGHT }, 1, 16),
    (Bands { count: 264, ..EIGHT }, 1, 16),
    // A first guest count that exceeds the last, in each place, whatever the other bands are.
    (table(&[MALFORMED]), 5, 16),
    (table(&[MALFORMED, WHOLE]), 0, 16),
    (table(&[WHOLE, MALFORMED]), 0, 16),
    (table(&[(0, 4, 1, 1), (1, 0, 2, 2), (5, 20_000, 1, 1)]), 0, 16),
    (table(&[(20_000, 0, 1, 3)]), 7, 16),
    (table(&[(256, 255, 1, 3), WHOLE]), 7, 16),
    // A guest count above 20,000 in a band: its last, its first or both.
    (table(&[(0, 20_001, 1, 3)]), 0, 16),
    (table(&[(0, 65_535, 1, 3)]), 0, 16),
    (table(&[(0, 20_000, 1, 3), (20_001, 20_001, 2, 2)]), 0, 16),
    (table(&[(65_535, 65_535, 2, 2), (0, 20_000, 1, 3)]), 0, 16),
    (table(&[(0, 9_999, 1, 3), (10_000, 20_001, 2, 2)]), 0, 16),
    (table(&[(20_001, 20_000, 1, 3)]), 0, 16),
    // The one asked for is above 20,000.
    (table(&[WHOLE]), 20_001, 16),
    (table(&[WHOLE]), 65_535, 16),
    (FIVE, 20_001, 16),
    (EIGHT, 32_768, 16),
    // Two bands that touch at one guest count, in either order, wherever it is.
    (table(&[(0, 100, 1, 3), (100, 20_000, 2, 2)]), 0, 17),
    (table(&[(100, 20_000, 2, 2), (0, 100, 1, 3)]), 0, 17),
    (table(&[(0, 100, 1, 3), (100, 20_000, 2, 2)]), 100, 17),
    (table(&[(0, 0, 1, 3), WHOLE]), 20_000, 17),
    (table(&[WHOLE, (20_000, 20_000, 1, 3)]), 0, 17),
    (table(&[(0, 9_999, 1, 3), (9_999, 9_999, 2, 2), (10_000, 20_000, 0, 0)]), 5, 17),
    // The same band twice, equal limits too; a band within another.
    (table(&[WHOLE, WHOLE]), 0, 17),
    (table(&[(0, 20_000, 1, 3), (300, 400, 2, 2)]), 5_000, 17),
    (table(&[(300, 400, 2, 2), (0, 20_000, 1, 3)]), 5_000, 17),
    // The first and the last of three, and the last two of eight.
    (table(&[(0, 99, 1, 3), (101, 20_000, 2, 2), (99, 100, 0, 0)]), 7, 17),
    (
        table(&[
            (0, 0, 1, 1),
            (1, 1, 1, 1),
            (2, 2, 1, 1),
            (3, 3, 1, 1),
            (4, 4, 1, 1),
            (5, 5, 1, 1),
            (6, 7, 1, 1),
            (7, 20_000, 1, 1),
        ]),
        0,
        17,
    ),
    // An overlap and a gap, whether the bands have 20,001 guest counts together or not: 17 comes before 18.
    (table(&[(0, 10_000, 1, 3), (10_000, 19_999, 2, 2)]), 0, 17),
    (table(&[(0, 100, 1, 3), (50, 200, 2, 2)]), 0, 17),
    (table(&[(5, 5, 1, 3), (5, 5, 1, 3)]), 5, 17),
    // A gap at 0, at 20,000 and between, whether the guest count asked for falls in a band or not.
    (table(&[(1, 20_000, 1, 3)]), 1, 18),
    (table(&[(1, 20_000, 1, 3)]), 0, 18),
    (table(&[(0, 19_999, 1, 3)]), 0, 18),
    (table(&[(0, 19_999, 1, 3)]), 20_000, 18),
    (table(&[(0, 99, 1, 3), (101, 20_000, 2, 2)]), 0, 18),
    (table(&[(101, 20_000, 2, 2), (0, 99, 1, 3)]), 100, 18),
    (table(&[(7, 7, 1, 3)]), 7, 18),
    (table(&[(0, 0, 0, 0)]), 0, 18),
    (table(&[(0, 999, 0, 0), (15_000, 20_000, 1, 4), (1_000, 4_999, 0, 2), (5_000, 8_999, 1, 3)]), 9_000, 18),
    // The band that would fill the gap stands past the count.
    (counted(2, &[(0, 99, 1, 3), (101, 20_000, 2, 2), (100, 100, 1, 3)]), 100, 18),
    (Bands { count: 7, ..EIGHT }, 0, 18),
    // 16 comes before 17 and 18.
    (table(&[WHOLE, WHOLE]), 20_001, 16),
    (table(&[WHOLE, WHOLE, MALFORMED]), 0, 16),
    (table(&[(0, 20_001, 1, 3), WHOLE]), 0, 16),
    (table(&[(1, 20_000, 1, 3)]), 20_001, 16),
    (table(&[(1, 20_000, 1, 3), MALFORMED]), 0, 16),
    (table(&[(0, 100, 1, 3), (50, 200, 2, 2)]), 20_001, 16),
    (table(&[(0, 100, 1, 3), (50, 200, 2, 2), (300, 299, 0, 0)]), 0, 16),
];

/// A table for each of 0 and 16 to 18, with a guest count: the number is given where none of 1 to 5 applies.
pub const BESIDE: [Refused; 4] =
    [(FIVE, 5_000, 0), (FIVE, 20_001, 16), (table(&[WHOLE, WHOLE]), 0, 17), (table(&[(1, 20_000, 1, 3)]), 5_000, 18)];

/// What a cover is lent of a board: head, pairs, and so many places of operators, rides, presence and marks; and the
/// number of 1 to 5 that applies, or 0.
pub struct Lent {
    pub head: Head,
    pub pairs: &'static [Pair],
    pub places: [usize; 4],
    pub number: u16,
}

const fn lent(head: Head, places: [usize; 4], number: u16) -> Lent {
    Lent { head, pairs: &PAIRS, places, number }
}

const fn disordered(pairs: &'static [Pair]) -> Lent {
    Lent { head: head(4, 3, pairs.len() as u16), pairs, places: [12, 12, 7, 7], number: 5 }
}

pub const LENT: &[Lent] = &[
    // 4 operators and 3 rides need 12 places of each pair array, and 7 of presence and of the marks.
    lent(BUILT, [12, 12, 7, 7], 0),
    lent(BUILT, [11, 12, 7, 7], 3),
    lent(BUILT, [12, 11, 7, 7], 3),
    lent(BUILT, [12, 12, 6, 7], 3),
    lent(BUILT, [12, 12, 7, 6], 3),
    lent(BUILT, [0, 0, 0, 0], 3),
    // 1 and 2 come before 3, and 4 and 5 after it.
    lent(head(201, 3, 7), [12, 12, 7, 7], 1),
    lent(head(201, 61, 7), [12, 12, 7, 7], 1),
    lent(head(4, 61, 7), [12, 12, 7, 7], 2),
    lent(head(4, 3, 13), [12, 12, 7, 7], 4),
    lent(head(4, 3, 13), [12, 12, 7, 6], 3),
    Lent { places: [12, 12, 6, 7], number: 3, ..disordered(&[(0, 1), (0, 0)]) },
    disordered(&[(0, 1), (0, 0)]),
    disordered(&[(1, 1), (1, 1)]),
    disordered(&[(0, 0), (4, 0)]),
    disordered(&[(0, 0), (0, 3)]),
];
