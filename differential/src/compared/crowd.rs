//! One look-up or crowd cover on the library and on the reference: the answers and every lent word are compared.

use super::{end, Compared, Given, Lent, MinimumTotals, CROWD_COVER_NUMBERS, CROWD_LIMITS_NUMBERS};
use differential::Library;
use reference::crowd::{crowd_cover, crowd_limits, Bands, CrowdLimits};
use reference::{Counts, Parts};

/// The limits of the first band that a guest count falls in, whether the table is valid or not; 0 where there is none.
pub fn band_limits(table: &Bands, guests: u16) -> (u16, u16) {
    let mut bands = table.bands.iter().take(table.count as usize);
    bands.find(|band| (band.first..=band.last).contains(&guests)).map_or((0, 0), |band| (band.alpha, band.beta))
}

/// Look-ups and crowd covers that were compared so far.
#[derive(Default)]
pub struct CrowdTotals {
    pub look_ups: u64,
    pub covers: u64,
    pub look_up_numbers: Given,
    pub cover_numbers: Given,
    pub minimums: MinimumTotals,
    /// Crowd covers that a query for the same limits was made after.
    pub queried: u64,
    /// Crowd covers that an own cover for the same limits and minimums was made after.
    pub own_covered: u64,
}

impl CrowdTotals {
    /// For how many tables a look-up or a crowd cover gave a number.
    pub fn tables(&self, number: u16) -> u64 {
        [&self.look_up_numbers, &self.cover_numbers].into_iter().filter_map(|given| given.get(&number)).sum()
    }
}

impl<B: Library> Compared<B> {
    pub fn crowd_limits(&mut self, table: &Bands, guests: u16) -> CrowdLimits {
        let expected = crowd_limits(table, guests);
        let found = self.library.crowd_limits(*table, guests);
        let totals = &mut self.totals;
        totals.crowd.look_ups += 1;
        *totals.crowd.look_up_numbers.entry(found.code).or_default() += 1;
        totals.given("look-up", CROWD_LIMITS_NUMBERS, found.code);
        totals.same("look-up", found, expected);
        expected
    }

    pub fn crowd_cover(
        &mut self,
        lent: &Lent,
        table: &Bands,
        guests: u16,
        minimums: &[u16],
        marks: &mut [u16],
    ) -> Counts {
        let (before, head, words) = (marks.to_vec(), lent.head, &lent.parts);
        let Parts { operators, rides, presence, .. } = words;
        let expected = crowd_cover(head, operators, rides, presence, table, guests, minimums, marks);
        let Compared { library, regions, ends, totals, .. } = self;
        let operators = regions.parts.operators.lend(&words.operators, end(ends));
        let rides = regions.parts.rides.lend(&words.rides, end(ends));
        let presence = regions.parts.presence.lend(&words.presence, end(ends));
        let read = regions.minimums.lend(minimums, end(ends));
        let left = regions.marks.lend_mut(&before, end(ends));
        let found = library.crowd_cover(head, operators, rides, presence, *table, guests, read, left);
        totals.crowd.covers += 1;
        totals.number("crowd cover", CROWD_COVER_NUMBERS, head, found.code);
        *totals.crowd.cover_numbers.entry(found.code).or_default() += 1;
        totals.same("crowd cover", found, expected);
        totals.same_words("crowd cover", "operators", operators, &words.operators);
        totals.same_words("crowd cover", "rides", rides, &words.rides);
        totals.same_words("crowd cover", "presence", presence, &words.presence);
        totals.same_words("crowd cover", "minimums", read, minimums);
        totals.same_words("crowd cover", "marks", left, marks);
        let (alpha, beta) = band_limits(table, guests);
        totals.crowd.minimums.count(head, minimums, beta, expected.code);
        if expected.code == 0 {
            totals.accepted(head, alpha, beta, &words.presence);
        }
        self.check_filled();
        expected
    }
}
