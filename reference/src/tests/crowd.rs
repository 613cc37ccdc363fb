//! Limits by crowd: samples by hand, numbers beside two other ways to find them, and covers beside queries and peels.

use super::minimums::words_of;
use super::*;
use crate::crowd::{crowd_cover, crowd_limits, Band, Bands, CrowdLimits};
use crate::crowd_samples::{followed, Asked, CROWD_COVERS, FIVE, LOOK_UPS, REFUSED, UNREAD, WITH_MINIMUMS};
use crate::frames::{replay, write_end, Call, Part, Reference};

/// A table, and the same with each of `UNREAD` past the count.
fn tables(table: Bands) -> Vec<Bands> {
    std::iter::once(table).chain(UNREAD.map(|unread| followed(table, unread))).collect()
}

/// One band has every guest count.
fn one_band(alpha: u16, beta: u16) -> Bands {
    let mut bands = Bands { count: 1, ..Bands::default() };
    bands.bands[0] = Band { first: 0, last: 20_000, alpha, beta };
    bands
}

/// Guest counts 99 and 100 have these limits, and the bands on both sides others.
pub(super) fn three_bands((alpha, beta): (u16, u16)) -> Bands {
    let band = |first, last, alpha, beta| Band { first, last, alpha, beta };
    let mut bands = Bands { count: 3, ..Bands::default() };
    bands.bands[..3].copy_from_slice(&[
        band(101, 20_000, alpha ^ 1, beta),
        band(99, 100, alpha, beta),
        band(0, 98, alpha, beta ^ 1),
    ]);
    bands
}

/// The answer of a crowd cover, and the marks that it leaves: two more are lent than needed, and all come in as one word.
pub(super) fn covered(board: &Store, bands: &Bands, guests: u16, minimums: &[u16], word: u16) -> (Counts, Vec<u16>) {
    let Vectors { operators, rides, presence, .. } = &board.parts;
    let mut marks = vec![word; board.head.nodes() + 2];
    let counts = crowd_cover(board.head, operators, rides, presence, bands, guests, minimums, &mut marks);
    (counts, marks)
}

/// Look-ups and covers in a table give what was worked out by hand. A function gives the minimums for a band's beta.
fn are_given(table: Bands, asked: &[Asked], minimums: impl Fn(u16) -> [u16; 3]) {
    let board = sample(START);
    for (bands, &(guests, (alpha, beta), marks)) in
        tables(table).iter().flat_map(|bands| asked.iter().map(move |asked| (bands, asked)))
    {
        assert_eq!(crowd_limits(bands, guests), CrowdLimits { code: 0, alpha, beta });
        // The marks that come in aren't read.
        for word in [0, 1, 7, 65_535] {
            assert_eq!(covered(&board, bands, guests, &minimums(beta), word), shown(board.head, &marks, word));
        }
    }
}

/// Minimums that are 0 or the band's beta change nothing.
#[test]
fn look_ups_and_covers() {
    for (table, asked) in LOOK_UPS {
        for own in [[0; 3], [1; 3], [0, 1, 0]] {
            are_given(*table, asked, |beta| own.map(|one| one * beta));
        }
    }
    for (table, minimums, asked) in WITH_MINIMUMS {
        are_given(*table, asked, |_| *minimums);
    }
}

/// Document 02's limits from 0, by one band that has every guest count.
#[test]
fn crowd_covers_from_0() {
    for sample in LIMITS_FROM_0 {
        let mut board = Store::new(sample.operators, sample.rides, sample.pairs);
        assert_eq!(board.build(1), 0);
        let bands = one_band(sample.alpha, sample.beta);
        for minimum in [0, sample.beta] {
            let minimums = vec![minimum; sample.rides as usize];
            assert_eq!(covered(&board, &bands, 20_000, &minimums, 7), shown(board.head, sample.marks, 7));
        }
    }
}

#[test]
fn crowd_covers_of_the_absent() {
    for &(words, guests, marks) in CROWD_COVERS {
        for word in [0, 1, 7] {
            let board = with_presence(&words);
            assert_eq!(covered(&board, &FIVE, guests, &[0; 3], word), shown(board.head, &marks, word));
        }
    }
}

#[test]
fn refused_tables() {
    let board = sample(START);
    for &(table, guests, code) in REFUSED {
        for bands in tables(table) {
            assert_eq!(crowd_limits(&bands, guests), CrowdLimits { code, alpha: 0, beta: 0 });
            for (minimums, word) in [([0; 3], 0), ([0; 3], 1), ([9, 0, 65_535], 7)] {
                let refused = Counts { code, operators: 0, rides: 0 };
                assert_eq!(covered(&board, &bands, guests, &minimums, word), (refused, vec![word; 9]));
            }
        }
    }
}

/// Numbers at random.
struct Random(u32);

impl Random {
    fn below(&mut self, n: u16) -> u16 {
        self.0 = self.0.wrapping_mul(1_664_525).wrapping_add(1_013_904_223);
        ((self.0 >> 16) % n as u32) as u16
    }

    /// A table that has each guest count once, the bands in any order, and then at times a change or two.
    fn table(&mut self) -> Bands {
        let count = 1 + self.below(8);
        let mut starts: BTreeSet<u16> = BTreeSet::from([0]);
        while starts.len() < count as usize {
            let start = if self.below(3) == 0 { starts.last().unwrap() + 1 } else { 1 + self.below(20_000) };
            starts.insert(start.min(20_000));
        }
        let ends = starts.iter().skip(1).map(|start| start - 1).chain([20_000]);
        let ranges: Vec<(u16, u16)> = starts.iter().copied().zip(ends).collect();
        let mut table = Bands { count, ..Bands::default() };
        for (place, &(first, last)) in ranges.iter().enumerate() {
            table.bands[place] = Band { first, last, alpha: 100 + place as u16, beta: self.below(4) };
        }
        for last in (1..count).rev() {
            table.bands.swap(last as usize, self.below(last + 1) as usize);
        }
        for _ in 0..self.below(3) {
            self.change(&mut table);
        }
        table
    }

    fn change(&mut self, table: &mut Bands) {
        let which = self.below(9);
        let near = |word: u16| [word.saturating_sub(1), word.saturating_add(1)];
        let counts = near(table.count);
        let band = &mut table.bands[self.below(8) as usize];
        match which {
            0..=2 => band.first = near(band.first)[self.below(2) as usize],
            3..=5 => band.last = near(band.last)[self.below(2) as usize],
            6 => band.first = self.below(20_001),
            7 => band.last = self.below(20_003),
            _ => table.count = counts[self.below(2) as usize],
        }
    }
}

/// 16, of a table and the guest count asked for.
fn is_malformed(table: &Bands, guests: u16) -> bool {
    let is_wrong = |band: &Band| band.first > band.last || band.first > 20_000 || band.last > 20_000;
    table.count < 1 || table.count > 8 || guests > 20_000 || table.bands[..table.count as usize].iter().any(is_wrong)
}

/// The number by how many bands each guest count falls in.
fn number_by_counts(table: &Bands, guests: u16) -> u16 {
    if is_malformed(table, guests) {
        return 16;
    }
    let bands = &table.bands[..table.count as usize];
    let held = |guests: u16| bands.iter().filter(|band| band.first <= guests && guests <= band.last).count();
    let (least, most) = (0..=20_000).map(held).fold((8, 0), |(least, most), n| (least.min(n), most.max(n)));
    match (least, most) {
        (_, 2..) => 17,
        (0, _) => 18,
        _ => 0,
    }
}

/// The number by the bands in ascending order: each begins where the one before ends.
fn number_by_order(table: &Bands, guests: u16) -> u16 {
    if is_malformed(table, guests) {
        return 16;
    }
    let mut bands = table.bands[..table.count as usize].to_vec();
    bands.sort_by_key(|band| band.first);
    if bands.windows(2).any(|two| two[1].first <= two[0].last) {
        return 17;
    }
    let joined = bands.windows(2).all(|two| two[1].first == two[0].last + 1);
    let is_whole = joined && bands[0].first == 0 && bands[bands.len() - 1].last == 20_000;
    if is_whole {
        0
    } else {
        18
    }
}

#[test]
fn numbers_of_random_tables() {
    let mut random = Random(26);
    let mut given = [0; 19];
    for _ in 0..3_000 {
        let table = random.table();
        let guests = if random.below(20) == 0 { 20_001 + random.below(2) } else { random.below(20_001) };
        let code = number_by_counts(&table, guests);
        assert_eq!((crowd_limits(&table, guests).code, number_by_order(&table, guests)), (code, code));
        given[code as usize] += 1;
        if code == 0 {
            for band in &table.bands[..table.count as usize] {
                let Band { first, last, alpha, beta } = *band;
                for guests in [first, first + (last - first) / 2, last] {
                    assert_eq!(crowd_limits(&table, guests), CrowdLimits { code: 0, alpha, beta });
                }
            }
        }
    }
    assert!([0, 16, 17, 18].iter().all(|code| given[*code] > 300), "{given:?}");
}

/// On every table of a few small sizes, with everybody on and in and with some off or out: a crowd cover with minimums that
/// are 0 or the band's beta marks and counts what a query does by the index, and marks what a peel from all ones leaves.
#[test]
fn crowd_covers_are_covers() {
    for (n, m) in [(0, 0), (0, 2), (2, 0), (2, 2), (1, 3), (3, 2)] {
        // Those who are off or out, as bits.
        for (board, _) in boards(n, m, &[0, 1, 1 << n, 1 << 1 | 1 << n]) {
            for (alpha, beta) in (0..m as u16 + 2).flat_map(|alpha| (0..n as u16 + 2).map(move |beta| (alpha, beta))) {
                let (counts, marks) = board.query(alpha, beta);
                let mut peeled = vec![1; n + m];
                assert_eq!(board.peel(&mut peeled, alpha, beta, 65_535).settled, 1);
                assert_eq!(peeled, marks);
                for (guests, minimums) in [99, 100].into_iter().cycle().zip(words_of(m, &[0, beta])) {
                    let covered = covered(&board, &three_bands((alpha, beta)), guests, &minimums, 7);
                    assert_eq!(covered, (counts, [&marks[..], &[7; 2]].concat()));
                }
            }
        }
    }
}

/// A look-up's checksum is that of no words, a crowd cover's that of operators, rides, presence, minimums and marks.
#[test]
fn lines_of_a_stream() {
    let head = Head { operators: 1, rides: 1, pairs: 1 };
    let bands = one_band(1, 0);
    let cover = |guests, minimums| Call::CrowdCover {
        head,
        guests,
        bands,
        operators: Part::given(2, &[0, 3], 0),
        rides: Part::filled(1, 0),
        presence: Part::filled(2, 1),
        minimums,
        marks: Part::given(3, &[7, 7, 5], 0),
    };
    let mut stream = Vec::new();
    let (lent, short) = (Part::given(2, &[1, 6], 0), Part::kept(0));
    for call in [Call::CrowdLimits { guests: 9, bands }, cover(9, lent), cover(20_001, Part::kept(2)), cover(9, short)]
    {
        call.write(&mut stream);
    }
    write_end(&mut stream);
    assert_eq!(replay(&stream, &mut Reference), "0 1 0 0\n0 1 1 1719058002\n16 0 0 1769020638\n3 0 0 977061850\n");
}
