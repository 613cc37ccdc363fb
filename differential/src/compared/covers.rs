//! One cover under a list of limits on the library and on the reference, from pair arrays or over tables: every lent word
//! and byte is compared.

use super::{end, Compared, Totals, MARKS_MOST, MOST};
use differential::guarded::Region;
use differential::kernel::{Degrees, TABLE};
use differential::Kernel;
use reference::{cover_under_limits, Head};

/// A pair table that is accepted, and a byte for each node, 1 if it is here and else 0; each part as long as it is lent.
pub struct PairTable {
    pub head: Head,
    pub operators: Vec<u16>,
    pub rides: Vec<u16>,
    pub here: Vec<u8>,
}

impl PairTable {
    /// The pairs whose nodes are both here.
    pub fn counting(&self) -> impl Iterator<Item = (usize, usize)> + '_ {
        let listed = self.operators.iter().zip(&self.rides).take(self.head.pairs as usize);
        let is_here = |node: usize| self.here[node] == 1;
        let counts =
            move |&(operator, ride): &(usize, usize)| is_here(operator) && is_here(self.head.ride_node(ride as u16));
        listed.map(|(operator, ride)| (*operator as usize, *ride as usize)).filter(counts)
    }

    /// The degrees of operators and rides in these pairs.
    pub fn degrees(&self) -> Vec<u8> {
        let mut degrees = vec![0; self.head.nodes()];
        for (operator, ride) in self.counting() {
            degrees[operator] += 1;
            degrees[self.head.operators as usize + ride] += 1;
        }
        degrees
    }

    /// The tables of these pairs, by operator and by ride.
    fn tables(&self) -> [Vec<u8>; 2] {
        let [mut by_operator, mut by_ride] = [vec![0; TABLE], vec![0; TABLE]];
        for (operator, ride) in self.counting() {
            by_operator[operator * 60 + ride] = 1;
            by_ride[ride * 200 + operator] = 1;
        }
        [by_operator, by_ride]
    }

    /// What a cover leaves in these marks.
    fn covered(&self, limits: &[u16], marks: &[u16]) -> Vec<u16> {
        let mut expected = cover_under_limits(self.head, &self.operators, &self.rides, &self.here, limits);
        expected.extend_from_slice(&marks[self.head.nodes()..]);
        expected
    }
}

/// Covers that were compared so far.
#[derive(Default)]
pub struct CoverTotals {
    pub from_pairs: u64,
    pub over_tables: u64,
    /// How often tables were filled.
    pub tables: u64,
    pub largest: u64,
    pub dropped: u64,
    pub kept: u64,
}

impl CoverTotals {
    pub fn compared(&self) -> u64 {
        self.from_pairs + self.over_tables
    }

    /// Counts what a cover leaves.
    fn count(&mut self, head: Head, expected: &[u16]) {
        let kept = expected[..head.nodes()].iter().filter(|mark| **mark == 1).count();
        self.kept += kept as u64;
        self.dropped += (head.nodes() - kept) as u64;
        self.largest += ((head.operators, head.rides) == (200, 60)) as u64;
    }
}

/// Guarded memory for everything that a cover is lent.
pub struct CoverRegions {
    operators: Region<u16>,
    rides: Region<u16>,
    here: Region<u8>,
    by_operator: Region<u8>,
    by_ride: Region<u8>,
    limits: Region<u16>,
    marks: Region<u16>,
}

impl CoverRegions {
    pub fn new() -> CoverRegions {
        CoverRegions {
            operators: Region::new(MOST.operators),
            rides: Region::new(MOST.rides),
            here: Region::new(MOST.presence),
            by_operator: Region::new(TABLE),
            by_ride: Region::new(TABLE),
            limits: Region::new(MARKS_MOST),
            marks: Region::new(MARKS_MOST),
        }
    }

    fn are_intact(&self) -> bool {
        let pairs = self.operators.is_intact() && self.rides.is_intact() && self.here.is_intact();
        let tables = self.by_operator.is_intact() && self.by_ride.is_intact();
        pairs && tables && self.limits.is_intact() && self.marks.is_intact()
    }
}

/// The limits of a cover, and the marks as they come in.
pub struct LimitList {
    pub limits: Vec<u16>,
    pub marks: Vec<u16>,
}

/// The tables of a pair table, and the degrees.
pub struct Filled {
    by_operator: Vec<u8>,
    by_ride: Vec<u8>,
    degrees: Degrees,
}

impl Totals {
    fn same_pairs(&mut self, call: &str, operators: &[u16], rides: &[u16], here: &[u8], table: &PairTable) {
        self.same_words(call, "operators", operators, &table.operators);
        self.same_words(call, "rides", rides, &table.rides);
        self.same_places(call, "here", here, &table.here);
    }
}

impl<B: Kernel> Compared<B> {
    fn check_cover_filled(&mut self) {
        self.totals.same("memory beside what a cover is lent is intact", self.cover_regions.are_intact(), true);
    }

    pub fn pair_cover(&mut self, table: &PairTable, list: &LimitList) {
        let call = "cover from pairs";
        let expected = table.covered(&list.limits, &list.marks);
        let Compared { library, cover_regions: regions, ends, totals, .. } = self;
        let operators = regions.operators.lend(&table.operators, end(ends));
        let rides = regions.rides.lend(&table.rides, end(ends));
        let here = regions.here.lend(&table.here, end(ends));
        let limits = regions.limits.lend(&list.limits, end(ends));
        let marks = regions.marks.lend_mut(&list.marks, end(ends));
        library.pair_cover(table.head, operators, rides, here, limits, marks);
        totals.covers.from_pairs += 1;
        totals.covers.count(table.head, &expected);
        totals.same_words(call, "marks", marks, &expected);
        totals.same_words(call, "limits", limits, &list.limits);
        totals.same_pairs(call, operators, rides, here, table);
        self.check_cover_filled();
    }

    /// Fills tables, and gives them as the library left them.
    pub fn tables(&mut self, table: &PairTable) -> Filled {
        let [expected_by_operator, expected_by_ride] = table.tables();
        let (head, expected_degrees) = (table.head, table.degrees());
        let (n, m) = (head.operators as usize, head.rides as usize);
        let Compared { library, cover_regions: regions, ends, totals, .. } = self;
        let operators = regions.operators.lend(&table.operators, end(ends));
        let rides = regions.rides.lend(&table.rides, end(ends));
        let here = regions.here.lend(&table.here, end(ends));
        let by_operator = regions.by_operator.lend_mut(&[0; TABLE], end(ends));
        let by_ride = regions.by_ride.lend_mut(&[0; TABLE], end(ends));
        let degrees = library.tables(head, operators, rides, here, by_operator, by_ride);
        totals.covers.tables += 1;
        totals.same_places("tables", "by operator", by_operator, &expected_by_operator);
        totals.same_places("tables", "by ride", by_ride, &expected_by_ride);
        totals.same_places("tables", "degrees of operators", &degrees.operators[..n], &expected_degrees[..n]);
        totals.same_places("tables", "degrees of rides", &degrees.rides[..m], &expected_degrees[n..]);
        totals.same_pairs("tables", operators, rides, here, table);
        let filled = Filled { by_operator: by_operator.to_vec(), by_ride: by_ride.to_vec(), degrees };
        self.check_cover_filled();
        filled
    }

    /// A cover over the filled tables of a pair table. They are lent to be read, so that they serve the next one too; the
    /// degrees are passed by value.
    pub fn cover(&mut self, table: &PairTable, filled: &Filled, list: &LimitList) {
        let call = "cover over tables";
        let expected = table.covered(&list.limits, &list.marks);
        let Compared { library, cover_regions: regions, ends, totals, .. } = self;
        let by_operator = regions.by_operator.lend(&filled.by_operator, end(ends));
        let by_ride = regions.by_ride.lend(&filled.by_ride, end(ends));
        let limits = regions.limits.lend(&list.limits, end(ends));
        let marks = regions.marks.lend_mut(&list.marks, end(ends));
        library.cover(table.head, by_operator, by_ride, filled.degrees, limits, marks);
        totals.covers.over_tables += 1;
        totals.covers.count(table.head, &expected);
        totals.same_words(call, "marks", marks, &expected);
        totals.same_words(call, "limits", limits, &list.limits);
        totals.same_places(call, "by operator", by_operator, &filled.by_operator);
        totals.same_places(call, "by ride", by_ride, &filled.by_ride);
        self.check_cover_filled();
    }
}
