//! One own cover on the library and on the reference: the answers and every lent word are compared. Minimums of peels and
//! covers.

use super::{end, Compared, Given, Lent, Totals, OWN_COVER_NUMBERS};
use differential::Library;
use reference::{own_cover, Counts, Head, Peeled};
use std::fmt::{Display, Formatter};

/// Own covers that were compared so far, and the minimums of own covers and peels.
#[derive(Default)]
pub struct OwnTotals {
    pub covers: u64,
    pub numbers: Given,
    pub minimums: MinimumTotals,
    /// Own covers that a query for the same limits was made after.
    pub queried: u64,
    /// Own covers that a peel from all ones was made after.
    pub peeled: u64,
}

/// Lists of minimums of calls, all but the last of accepted ones.
#[derive(Debug, Default, PartialEq, Eq)]
pub struct MinimumTotals {
    /// Lists with which no ride has a minimum of its own, some rides have one, and all rides.
    pub without: u64,
    pub some: u64,
    pub all: u64,
    /// Lists with a minimum below beta, with one equal to it, and with one above it.
    pub below: u64,
    pub equal: u64,
    pub above: u64,
    /// Lists that are longer than needed.
    pub longer: u64,
    /// Lists that are too short, of calls that got 3.
    pub short: u64,
}

impl MinimumTotals {
    /// Counts the minimums of a call that got a number.
    pub fn count(&mut self, head: Head, minimums: &[u16], beta: u16, code: u16) {
        let rides = head.rides as usize;
        self.short += (code == 3 && minimums.len() < rides) as u64;
        if code != 0 {
            return;
        }
        let own = || minimums[..rides].iter().filter(|minimum| **minimum != 0);
        match own().count() {
            0 => self.without += 1,
            count if count < rides => self.some += 1,
            _ => self.all += 1,
        }
        self.below += own().any(|minimum| *minimum < beta) as u64;
        self.equal += own().any(|minimum| *minimum == beta) as u64;
        self.above += own().any(|minimum| *minimum > beta) as u64;
        self.longer += (minimums.len() > rides) as u64;
    }
}

impl Display for MinimumTotals {
    fn fmt(&self, f: &mut Formatter) -> std::fmt::Result {
        let MinimumTotals { without, some, all, below, equal, above, longer, short } = self;
        write!(f, "accepted of no ride {without}, of some {some}, of all {all}, ")?;
        write!(f, "with one below β {below}, equal to it {equal}, above it {above}, ")?;
        write!(f, "with words past the rides {longer}; refused as too short {short}")
    }
}

impl Totals {
    /// An own cover that was not refused, and a peel from all ones with the same minimums and limits, in any number of steps.
    pub fn same_as_peeled(&mut self, head: Head, covered: (Counts, &[u16]), peeled: (Peeled, &[u16])) {
        self.own.peeled += 1;
        let (nodes, members) = (head.nodes(), covered.0.operators + covered.0.rides);
        let settled = Peeled { code: 0, settled: 1, steps: nodes as u16 - members };
        self.same("an own cover, and a peel from all ones then", settled, peeled.0);
        if covered.1[..nodes] != peeled.1[..nodes] {
            self.differ("own cover: the marks are not those of a peel from all ones");
        }
    }
}

impl<B: Library> Compared<B> {
    pub fn own_cover(&mut self, lent: &Lent, minimums: &[u16], alpha: u16, beta: u16, marks: &mut [u16]) -> Counts {
        let (before, head, words) = (marks.to_vec(), lent.head, &lent.parts);
        let expected = own_cover(head, &words.operators, &words.rides, &words.presence, minimums, alpha, beta, marks);
        let Compared { library, regions, ends, totals, .. } = self;
        let operators = regions.parts.operators.lend(&words.operators, end(ends));
        let rides = regions.parts.rides.lend(&words.rides, end(ends));
        let presence = regions.parts.presence.lend(&words.presence, end(ends));
        let read = regions.minimums.lend(minimums, end(ends));
        let left = regions.marks.lend_mut(&before, end(ends));
        let found = library.own_cover(head, operators, rides, presence, read, alpha, beta, left);
        totals.own.covers += 1;
        totals.number("own cover", OWN_COVER_NUMBERS, head, found.code);
        *totals.own.numbers.entry(found.code).or_default() += 1;
        totals.same("own cover", found, expected);
        totals.same_words("own cover", "operators", operators, &words.operators);
        totals.same_words("own cover", "rides", rides, &words.rides);
        totals.same_words("own cover", "presence", presence, &words.presence);
        totals.same_words("own cover", "minimums", read, minimums);
        totals.same_words("own cover", "marks", left, marks);
        totals.own.minimums.count(head, minimums, beta, expected.code);
        if expected.code == 0 {
            totals.accepted(head, alpha, beta, &words.presence);
        }
        self.check_filled();
        expected
    }
}

#[cfg(test)]
mod tests {
    use super::*;

    const HEAD: Head = Head { operators: 2, rides: 3, pairs: 0 };

    /// Each list of an accepted call is counted once as one of no, some or all rides; words past the rides are not looked at.
    #[test]
    fn minimums_are_counted() {
        let counted = |minimums: &[u16], beta: u16, code: u16| {
            let mut totals = MinimumTotals::default();
            totals.count(HEAD, minimums, beta, code);
            totals
        };
        let none = MinimumTotals::default;
        assert_eq!(counted(&[0, 0, 0], 2, 0), MinimumTotals { without: 1, ..none() });
        assert_eq!(counted(&[0, 0, 0, 1, 2, 3], 2, 0), MinimumTotals { without: 1, longer: 1, ..none() });
        assert_eq!(counted(&[0, 1, 0], 2, 0), MinimumTotals { some: 1, below: 1, ..none() });
        assert_eq!(counted(&[0, 1, 3], 2, 0), MinimumTotals { some: 1, below: 1, above: 1, ..none() });
        assert_eq!(counted(&[2, 2, 2], 2, 0), MinimumTotals { all: 1, equal: 1, ..none() });
        assert_eq!(counted(&[2, 2, 3, 0], 0, 0), MinimumTotals { all: 1, above: 1, longer: 1, ..none() });
        assert_eq!(counted(&[1, 2], 2, 3), MinimumTotals { short: 1, ..none() });
        assert_eq!(counted(&[1, 2], 2, 1), none());
        assert_eq!(counted(&[1, 2, 3], 2, 3), none());
    }

    /// Another number, unsettled, another count of steps and another mark are each a difference; a mark past the nodes is
    /// none.
    #[test]
    fn an_own_cover_that_is_not_what_a_peel_leaves_is_a_difference() {
        let (counts, marks) = (Counts { code: 0, operators: 2, rides: 1 }, [1, 1, 0, 0, 1, 7]);
        let differences = |change: fn(&mut Peeled, &mut [u16])| {
            let (mut totals, mut answer, mut left) =
                (Totals::default(), Peeled { code: 0, settled: 1, steps: 2 }, marks);
            change(&mut answer, &mut left);
            totals.same_as_peeled(HEAD, (counts, &marks), (answer, &left));
            totals.differences
        };
        assert_eq!(differences(|_, _| {}), 0);
        assert_eq!(differences(|_, marks| marks[5] = 1), 0);
        assert_eq!(differences(|answer, _| answer.code = 12), 1);
        assert_eq!(differences(|answer, _| answer.settled = 0), 1);
        assert_eq!(differences(|answer, _| answer.steps = 3), 1);
        assert_eq!(differences(|_, marks| marks[2] = 1), 1);
    }
}
