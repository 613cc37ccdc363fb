//! Limits by crowd: look-ups in tables of bands, which tables are refused, and whom the cover for a guest count marks.

mod boards;
mod lent;
mod orders;

use board::*;
use boards::{built, every_choice, largest, HEAD, LENGTHS};
use lent::Lent;
use orders::orders;

const fn band(first: u16, last: u16, alpha: u16, beta: u16) -> Band {
    Band { first, last, alpha, beta }
}

/// A table of so many bands, the last guest counts first.
fn split(count: u16) -> Vec<Band> {
    let last = |i| if i + 1 == count { GUESTS_MOST } else { i * 2_500 + 2_499 };
    (0..count).rev().map(|i| band(i * 2_500, last(i), i, 7 - i)).collect()
}

/// Tables of one band, of two, three and eight, with limits of 0 and bands of one guest count.
fn tables() -> Vec<Vec<Band>> {
    let one_guest_each = [
        band(0, 0, 7, 1),
        band(1, 1, 6, 2),
        band(2, 2, 5, 3),
        band(3, 9_999, 4, 4),
        band(10_000, 10_000, 3, 5),
        band(10_001, 19_998, 0, 0),
        band(19_999, 19_999, 0, 7),
        band(20_000, 20_000, 1, 0),
    ];
    vec![
        vec![band(0, 20_000, 3, 2)],
        vec![band(0, 20_000, 0, 0)],
        vec![band(0, 8_000, 1, 2), band(8_001, 20_000, 2, 3)],
        vec![band(0, 0, 0, 1), band(1, 19_999, u16::MAX, u16::MAX), band(20_000, 20_000, 1, 0)],
        one_guest_each.to_vec(),
        split(8),
    ]
}

/// The limits of the first and the last guest count of each band and of one between, with the bands in every order.
#[test]
fn bands_in_any_order() {
    for table in tables() {
        for order in orders(&table) {
            let bands = Bands::new(&order);
            for Band { first, last, alpha, beta } in table.iter().copied() {
                for guests in [first, first + (last - first) / 2, last] {
                    assert_eq!(crowd_limits(bands, guests), Ok(Limits { alpha, beta }), "{guests} in {order:?}");
                }
            }
        }
    }
}

#[test]
fn every_guest_count() {
    for table in tables() {
        for guests in 0..=u16::MAX {
            let of_band = table.iter().find(|band| (band.first..=band.last).contains(&guests));
            let expected = of_band.map(|band| Limits { alpha: band.alpha, beta: band.beta });
            let answer = crowd_limits(Bands::new(&table), guests);
            assert_eq!(answer, expected.ok_or(Refusal::BandsMalformed), "{guests} in {table:?}");
        }
    }
}

/// What is lent to a crowd cover: document 01's board, in parts longer than it needs.
#[derive(Clone, Debug, PartialEq, Eq)]
struct Loan {
    head: Head,
    operators: Vec<u16>,
    rides: Vec<u16>,
    presence: Vec<u16>,
    bands: Bands,
    guests: u16,
    minimums: Vec<u16>,
    marks: Vec<u16>,
}

impl Loan {
    fn new(bands: Bands, guests: u16) -> Loan {
        let mut lent = Lent::new(LENGTHS.map(|length| length + 2));
        built(&mut lent);
        let Lent { operators, rides, presence, .. } = lent;
        let (minimums, marks) = (vec![0, 0, 0, 9, 9], vec![7; 9]);
        Loan { head: HEAD, operators, rides, presence, bands, guests, minimums, marks }
    }

    fn cover(&mut self) -> exported::Counts {
        unsafe {
            exported::board_crowd_cover(
                self.head,
                self.operators.as_ptr(),
                self.operators.len(),
                self.rides.as_ptr(),
                self.rides.len(),
                self.presence.as_ptr(),
                self.presence.len(),
                self.bands,
                self.guests,
                self.minimums.as_ptr(),
                self.minimums.len(),
                self.marks.as_mut_ptr(),
                self.marks.len(),
            )
        }
    }

    /// The crowd cover is refused with this, every count is 0, and every lent word is as it was. Where the look-up isn't
    /// refused, the own cover for its limits is, with the same number.
    fn check_refused(&mut self, refusal: Refusal) {
        let before = self.clone();
        assert_eq!(self.cover(), exported::Counts { code: refusal.number(), operators: 0, rides: 0 }, "{before:?}");
        assert_eq!(*self, before);
        let Loan { head, operators, rides, presence, bands, guests, minimums, marks } = self;
        let clearances = Clearances { operators, rides, presence };
        let answer = crowd_cover(*head, clearances, *bands, *guests, minimums, marks);
        assert_eq!(answer, Err(refusal), "{before:?}");
        if let Ok(Limits { alpha, beta }) = crowd_limits(*bands, *guests) {
            let answer = own_cover(*head, clearances, minimums, alpha, beta, marks);
            assert_eq!(answer, Err(refusal), "{before:?}");
        }
        assert_eq!(*self, before);
    }
}

/// Look-up and crowd cover are refused with this, and every number beside it is 0.
fn check_refused(bands: Bands, guests: u16, refusal: Refusal) {
    let answer = unsafe { exported::board_crowd_limits(bands, guests) };
    let expected = exported::CrowdLimits { code: refusal.number(), alpha: 0, beta: 0 };
    assert_eq!(answer, expected, "{guests} in {bands:?}");
    assert_eq!(crowd_limits(bands, guests), Err(refusal), "{guests} in {bands:?}");
    Loan::new(bands, guests).check_refused(refusal);
}

/// A table with one band changed.
fn with_band(table: &[Band], place: usize, band: Band) -> Bands {
    let mut bands = Bands::new(table);
    bands.bands[place] = band;
    bands
}

/// 16: each band of each table in turn with its first count above its last, or with counts above 20,000; guest counts above
/// 20,000; and counts of bands outside 1 to 8.
#[test]
fn malformed() {
    for table in tables() {
        for (place, &Band { first, last, alpha, beta }) in table.iter().enumerate() {
            for (first, last) in [(last + 1, last), (first, 20_001), (first, u16::MAX), (20_001, 20_001), (20_000, 0)] {
                let bands = with_band(&table, place, band(first, last, alpha, beta));
                for guests in [0, 10_000, 20_000] {
                    check_refused(bands, guests, Refusal::BandsMalformed);
                }
            }
        }
        for guests in [20_001, 32_768, 65_535] {
            check_refused(Bands::new(&table), guests, Refusal::BandsMalformed);
        }
        for count in [0, 9, 10, 256, 256 + table.len() as u16, 32_768, u16::MAX] {
            check_refused(Bands { count, ..Bands::new(&table) }, 10_000, Refusal::BandsMalformed);
        }
    }
}

/// 17: a band that shares one guest count with a neighbour, and no gap; and of each two bands one moved into the other,
/// which leaves a gap too. The guest count that is asked for doesn't matter.
#[test]
fn overlaps() {
    for table in tables() {
        for (place, one) in table.iter().enumerate() {
            let mut overlapping = Vec::new();
            if one.first > 0 {
                overlapping.push(with_band(&table, place, Band { first: one.first - 1, ..*one }));
            }
            if one.last < GUESTS_MOST {
                overlapping.push(with_band(&table, place, Band { last: one.last + 1, ..*one }));
            }
            for other in table.iter().filter(|other| *other != one) {
                overlapping.push(with_band(&table, place, Band { first: other.last, last: other.last, ..*one }));
                overlapping.push(with_band(&table, place, Band { first: other.first, last: other.first, ..*one }));
            }
            assert_eq!(overlapping.is_empty(), table.len() == 1);
            for bands in overlapping {
                for guests in [0, one.first, one.last, 10_000, 20_000] {
                    check_refused(bands, guests, Refusal::BandsOverlap);
                }
            }
        }
    }
}

/// 18: one guest count in no band, at the start or the end of a band, or where a band of one guest count is missing. The
/// guest count that is asked for doesn't matter.
#[test]
fn gaps() {
    for table in tables() {
        for (place, one) in table.iter().enumerate() {
            let with_gap = if one.first < one.last {
                let later = with_band(&table, place, Band { first: one.first + 1, ..*one });
                vec![later, with_band(&table, place, Band { last: one.last - 1, ..*one })]
            } else {
                vec![Bands::new(&[&table[..place], &table[place + 1..]].concat())]
            };
            for bands in with_gap {
                for guests in [0, one.first, one.last, 10_000, 20_000] {
                    check_refused(bands, guests, Refusal::BandsGap);
                }
            }
        }
    }
}

/// Every way of 16 comes before 17 and 18, and 17 before 18.
#[test]
fn the_first_number_of_a_look_up() {
    type Fault = fn(&mut Bands);
    let (none, overlap, gap): (Fault, Fault, Fault) =
        (|_| (), |bands| bands.bands[1].first -= 1, |bands| bands.bands[2].last -= 1);
    let malformed: [fn(&mut Bands, &mut u16); 5] = [
        |_, guests| *guests = 20_001,
        |bands, _| bands.count = 0,
        |bands, _| bands.count = 9,
        |bands, _| bands.bands[0].first = bands.bands[0].last + 1,
        |bands, _| bands.bands[1].last = 20_001,
    ];
    for (faults, refusal) in [
        ([none, gap], Refusal::BandsGap),
        ([overlap, none], Refusal::BandsOverlap),
        ([overlap, gap], Refusal::BandsOverlap),
    ] {
        let mut bands = Bands::new(&[band(0, 8_000, 1, 1), band(8_001, 15_000, 2, 2), band(15_001, 20_000, 3, 3)]);
        assert!(crowd_limits(bands, 9_000).is_ok());
        faults.iter().for_each(|fault| fault(&mut bands));
        check_refused(bands, 9_000, refusal);
        for fault in malformed {
            let (mut bands, mut guests) = (bands, 9_000);
            fault(&mut bands, &mut guests);
            check_refused(bands, guests, Refusal::BandsMalformed);
        }
    }
}

type Damage = fn(&mut Loan);

/// The damages of 1 to 5 and 16 to 18, in the order in which they are checked.
const DAMAGES: [(Refusal, Damage); 9] = [
    (Refusal::OperatorsOver, |loan| loan.head.operators = 201),
    (Refusal::RidesOver, |loan| loan.head.rides = 61),
    (Refusal::PartShort, |loan| loan.marks.truncate(6)),
    (Refusal::PartShort, |loan| loan.minimums.truncate(2)),
    (Refusal::PairsOver, |loan| loan.head.pairs = 13),
    (Refusal::PairMisplaced, |loan| loan.rides[2] = 3),
    (Refusal::BandsMalformed, |loan| loan.guests = 20_001),
    (Refusal::BandsOverlap, |loan| loan.bands.bands[1].last = 8_000),
    (Refusal::BandsGap, |loan| loan.bands.bands[0].last = 19_999),
];

/// Of two damages the one that is checked first gives its number, and every lent word is as it was.
#[test]
fn the_first_number_of_a_crowd_cover() {
    let whole = Loan::new(Bands::new(&[band(8_000, 20_000, 2, 2), band(0, 7_999, 1, 3)]), 8_000);
    assert_eq!(whole.clone().cover(), exported::Counts { code: 0, operators: 2, rides: 2 });
    for (first, (refusal, damage)) in DAMAGES.into_iter().enumerate() {
        for (_, other) in &DAMAGES[first..] {
            let mut loan = whole.clone();
            other(&mut loan);
            damage(&mut loan);
            loan.check_refused(refusal);
        }
    }
}

/// Each part one place too short is 3, whatever the table is; as long as needed it suffices.
#[test]
fn a_part_too_short() {
    let table = Bands::new(&split(8));
    for bands in [table, Bands::default(), with_band(&split(8), 0, band(0, 20_000, 1, 1))] {
        let shorten: [Damage; 5] = [
            |loan| loan.operators.truncate(11),
            |loan| loan.rides.truncate(11),
            |loan| loan.presence.truncate(6),
            |loan| loan.minimums.truncate(2),
            |loan| loan.marks.truncate(6),
        ];
        for damage in shorten {
            let mut loan = Loan::new(bands, 0);
            damage(&mut loan);
            loan.check_refused(Refusal::PartShort);
        }
    }
    let mut loan = Loan::new(table, 0);
    loan.operators.truncate(12);
    loan.rides.truncate(12);
    loan.presence.truncate(7);
    loan.minimums.truncate(3);
    loan.marks.truncate(7);
    assert_eq!((loan.cover().code, loan.marks), (0, vec![1, 1, 1, 1, 0, 0, 0]));
}

/// A table of a slice of any length: no band, and more than 8, are refused, also where the first bands are a table, and
/// where the last 16 bits of the length are the count of these.
#[test]
fn slices_of_any_length() {
    let mut lent = Lent::new(LENGTHS);
    let board = built(&mut lent);
    for count in 1..=8u16 {
        let table = split(count);
        assert_eq!(crowd_limits(Bands::new(&table), 0), Ok(Limits { alpha: 0, beta: 7 }));
        assert!(board.cover_for(Bands::new(&table), 0, &[0; 3]).is_ok());
        for length in [0, 9, 256 + count as usize, 65_535, 65_536, 65_536 + count as usize, 131_072 + count as usize] {
            let mut list = table.clone();
            list.resize(length, Band::default());
            check_refused(Bands::new(&list), 0, Refusal::BandsMalformed);
            assert_eq!(board.cover_for(Bands::new(&list), 0, &[0; 3]), Err(Refusal::BandsMalformed), "{length} bands");
        }
    }
    static IN_A_STATIC: Bands = Bands::new(&[band(0, 20_000, 1, 3)]);
    assert_eq!(crowd_limits(IN_A_STATIC, 20_000), Ok(Limits { alpha: 1, beta: 3 }));
}

/// What stands past the count doesn't matter: bands that would overlap, or be malformed.
#[test]
fn bands_past_the_count() {
    for count in 1..8 {
        let table = split(count);
        for beyond in [band(0, 0, 0, 0), band(0, 20_000, 9, 9), band(5, 4, 1, 1), band(u16::MAX, u16::MAX, 1, 1)] {
            let mut bands = Bands::new(&table);
            bands.bands[count as usize..].fill(beyond);
            for guests in table.iter().flat_map(|band| [band.first, band.last]) {
                assert_eq!(crowd_limits(bands, guests), crowd_limits(Bands::new(&table), guests), "{bands:?}");
                let (mut one, mut other) = (Loan::new(bands, guests), Loan::new(Bands::new(&table), guests));
                assert_eq!((one.cover(), one.marks), (other.cover(), other.marks), "{bands:?}");
            }
            check_refused(bands, 20_001, Refusal::BandsMalformed);
            bands.bands[0].last -= 1;
            check_refused(bands, 0, Refusal::BandsGap);
        }
    }
}

/// Covers of document 01's board by hand, document 02's two with minimums among them. A minimum is smaller than the band's
/// beta, larger and equal, and stands where that is 0.
#[test]
fn covers_of_the_sample() {
    let bands = Bands::new(&[
        band(0, 999, 0, 0),
        band(1_000, 1_999, 2, 0),
        band(2_000, 2_999, 0, 3),
        band(3_000, 3_999, 1, 2),
        band(4_000, 4_999, 1, 3),
        band(5_000, 5_999, 2, 2),
        band(6_000, 6_999, 4, 0),
        band(7_000, 20_000, 1, 4),
    ]);
    for (guests, minimums, marks) in [
        (999, [0, 0, 0], [1, 1, 1, 1, 1, 1, 1]),
        (999, [3, 3, 2], [1, 1, 1, 1, 0, 1, 1]),
        (1_000, [0, 0, 0], [1, 1, 1, 0, 1, 1, 1]),
        (1_000, [0, 3, 0], [1, 1, 1, 0, 1, 1, 1]),
        (1_000, [0, 4, 0], [0, 0, 0, 0, 1, 0, 1]),
        (2_000, [0, 0, 0], [1, 1, 1, 1, 0, 1, 0]),
        (2_000, [0, 4, 1], [1, 1, 1, 1, 0, 0, 1]),
        (3_999, [0, 0, 0], [1, 1, 1, 1, 1, 1, 1]),
        (3_999, [0, 4, 0], [1, 1, 1, 1, 1, 0, 1]),
        (3_999, [2, 3, 2], [1, 1, 1, 1, 1, 1, 1]),
        (4_000, [0, 0, 0], [1, 1, 1, 0, 0, 1, 0]),
        (4_000, [2, 0, 0], [1, 1, 1, 0, 1, 1, 0]),
        (4_000, [3, 3, 3], [1, 1, 1, 0, 0, 1, 0]),
        (4_999, [0, 4, 2], [0, 0, 1, 1, 0, 0, 1]),
        (5_000, [0, 0, 0], [1, 1, 0, 0, 1, 1, 0]),
        (5_000, [0, 0, 1], [1, 1, 1, 0, 1, 1, 1]),
        (6_000, [0, 0, 0], [0, 0, 0, 0, 1, 1, 1]),
        (20_000, [0, 0, 0], [0, 0, 0, 0, 0, 0, 0]),
        (20_000, [0, 0, 2], [0, 0, 1, 1, 0, 0, 1]),
    ] {
        let mut loan = Loan::new(bands, guests);
        loan.minimums[..3].copy_from_slice(&minimums);
        let expected = exported::Counts { code: 0, operators: marks[..4].iter().sum(), rides: marks[4..].iter().sum() };
        assert_eq!(loan.cover(), expected, "{guests} guests, minimums {minimums:?}");
        assert_eq!((&loan.marks[..7], &loan.marks[7..]), (&marks[..], &[7, 7][..]), "{guests}, {minimums:?}");
    }
}

/// Lists of minimums for a band with this beta: each minimum 0 or beta in the first three, then smaller, larger and equal
/// ones and none beside one another.
fn lists(rides: u16, beta: u16) -> Vec<Vec<u16>> {
    let list = |minimum: &dyn Fn(u16) -> u16| (0..rides).map(minimum).collect();
    let mut lists = vec![list(&|_| 0), list(&|_| beta), list(&|ride| ride % 2 * beta)];
    let mixed = [0, 1, beta.saturating_sub(2), beta, beta + 1, beta + 9];
    lists.extend((0..6).map(|first| list(&|ride| mixed[(first + ride) as usize % 6])));
    lists
}

/// For each band the crowd cover is the own cover for its limits with the same minimums; where each is 0 or the band's beta,
/// it is what a query for the limits gives. The marks that come in aren't read, and those past the nodes stay.
fn check_covers(board: &Board, table: &[Band]) {
    let (Head { operators, rides, .. }, bands) = (board.head(), Bands::new(table));
    let places = mark_places(operators, rides);
    for Band { first, last, alpha, beta } in table.iter().copied() {
        for (guests, minimums) in
            [first, last].into_iter().flat_map(|guests| lists(rides, beta).into_iter().map(move |list| (guests, list)))
        {
            let case = format!("({alpha},{beta}), minimums {minimums:?}");
            let mut own = vec![9; places];
            let counts = board.own_cover(&minimums, alpha, beta, &mut own).unwrap();
            for came in [0, 1, 7, u16::MAX] {
                let mut marks = vec![came; places + 2];
                let answer = board.crowd_cover(bands, guests, &minimums, &mut marks);
                assert_eq!(answer, Ok(counts), "{case}, marks of {came}");
                assert_eq!((&marks[..places], &marks[places..]), (&own[..], &[came; 2][..]), "{case}");
            }
            let cover = board.cover_for(bands, guests, &minimums);
            assert_eq!(cover, board.cover_with(&minimums, alpha, beta), "{case}");
            if minimums.iter().all(|minimum| [0, beta].contains(minimum)) {
                assert_eq!(cover, board.cover(alpha, beta), "{case}");
            }
        }
    }
}

/// A table for each alpha, with a band for each beta from 0 to 5.
fn tables_of_limits(alphas: impl Iterator<Item = u16>) -> impl Iterator<Item = Vec<Band>> {
    alphas.map(|alpha| split(6).into_iter().zip(0..).map(|(band, beta)| Band { alpha, beta, ..band }).collect())
}

/// Every choice of operators off and rides out.
#[test]
fn covers_of_every_choice() {
    every_choice(|board| tables_of_limits(0..6).for_each(|table| check_covers(board, &table)));
}

/// The largest board.
#[test]
fn covers_of_the_largest_board() {
    let mut memory = Box::new(Memory::new());
    let board = largest(&mut memory, |operator, ride| {
        (operator * 37 + ride * 61 + operator * ride * 13) % 211 < operator * (ride + 1) / 60 + 10
    });
    let betas = [0, 1, 20, 30, 35, 40, 50, 70];
    for alpha in [0, 1, 10, 15, 20, 61] {
        let with_limits = |(band, beta): (Band, u16)| Band { alpha, beta, ..band };
        check_covers(&board, &split(8).into_iter().zip(betas).map(with_limits).collect::<Vec<_>>());
    }
}
