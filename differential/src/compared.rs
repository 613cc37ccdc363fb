//! One call on the library and on the reference, from equal memory: the answers and every lent word are compared.

mod covers;
mod crowd;
mod own;

pub use covers::{CoverTotals, LimitList, PairTable};
pub use crowd::{band_limits, CrowdTotals};
pub use own::{MinimumTotals, OwnTotals};

use crate::numbers::Numbers;
use covers::CoverRegions;
use differential::guarded::{End, Region};
use differential::Library;
use reference::frames::{Board, Reference};
use reference::{Answer, Counts, Head, Lengths, Message, Parts, Peeled, Slices, Vectors, Views, PRESENT};
use std::collections::BTreeMap;
use std::fmt::Debug;
use std::ops::Deref;

/// A board, each part as long as it is lent.
#[derive(Clone, Debug, PartialEq, Eq)]
pub struct Lent {
    pub head: Head,
    pub parts: Vectors,
}

impl Lent {
    /// The board alone: each part to the places that it needs.
    pub fn board(&self) -> Lent {
        Lent { head: self.head, parts: self.parts.first(self.head.lengths()).copy() }
    }
}

/// The most places that are lent of a part, of the marks, of the minimums and of a list, longer than any board needs.
pub const MOST: Lengths = Parts {
    operators: 12_100,
    rides: 12_100,
    stamps: 12_100,
    revisions: 12_100,
    index: 15_700,
    presence_stamps: 400,
    presence_revisions: 400,
    presence: 400,
};
pub const MARKS_MOST: usize = 400;
pub const MINIMUMS_MOST: usize = 100;
pub const LIST_MOST: usize = 400;

/// The numbers that each call can give: document 01's, with document 02's 14 to 18 and without its 11.
const BUILD_NUMBERS: &[u16] = &[0, 1, 2, 3, 4, 5, 9];
const QUERY_NUMBERS: &[u16] = &[0, 1, 2, 3];
const PEEL_NUMBERS: &[u16] = &[0, 1, 2, 3, 4, 5, 12];
const MESSAGE_NUMBERS: &[u16] = &[0, 1, 2, 3, 4, 5, 6, 7, 8, 9, 10, 14, 15];
const LIST_NUMBERS: &[u16] = &[0, 1, 2, 3, 4, 5, 6];
const CROWD_LIMITS_NUMBERS: &[u16] = &[0, 16, 17, 18];
const CROWD_COVER_NUMBERS: &[u16] = &[0, 1, 2, 3, 4, 5, 16, 17, 18];
const OWN_COVER_NUMBERS: &[u16] = &[0, 1, 2, 3, 4, 5];
/// Those of a message of a list that isn't refused.
const LISTED_NUMBERS: &[u16] = &[0, 7, 8, 9, 10, 14, 15];

/// How often each number was given, or each kind taken, by number or kind.
pub type Given = BTreeMap<u16, u64>;

/// Guarded memory for the parts of a board.
type PartRegions = Parts<Region<u16>, Region<u32>>;

fn part_regions() -> PartRegions {
    MOST.map(Region::new, Region::new)
}

fn are_parts_intact(regions: &PartRegions) -> bool {
    regions.each_ref().map(Region::is_intact, Region::is_intact).list() == [true; 8]
}

/// Guarded memory for everything that a call is lent.
struct Regions {
    head: Region<Head>,
    parts: PartRegions,
    minimums: Region<u16>,
    marks: Region<u16>,
    messages: Region<Message>,
    answers: Region<u16>,
    spare: PartRegions,
}

impl Regions {
    fn new() -> Regions {
        Regions {
            head: Region::new(1),
            parts: part_regions(),
            minimums: Region::new(MINIMUMS_MOST),
            marks: Region::new(MARKS_MOST),
            messages: Region::new(LIST_MOST),
            answers: Region::new(LIST_MOST),
            spare: part_regions(),
        }
    }

    fn are_intact(&self) -> bool {
        let boards = are_parts_intact(&self.parts) && are_parts_intact(&self.spare);
        let lists = self.minimums.is_intact() && self.messages.is_intact() && self.answers.is_intact();
        self.head.is_intact() && boards && self.marks.is_intact() && lists
    }
}

/// An end by chance.
fn end(ends: &mut Numbers) -> End {
    if ends.one_in(2) {
        End::Low
    } else {
        End::High
    }
}

/// The regions with the words of each part, and an end for each.
type Placed<'a> = Parts<((&'a mut Region<u16>, &'a Vec<u16>), End), ((&'a mut Region<u32>, &'a Vec<u32>), End)>;

fn placed<'a>(regions: &'a mut PartRegions, words: &'a Vectors, ends: &mut Numbers) -> Placed<'a> {
    regions.each_mut().zip(words.each_ref()).zip(MOST.map_all(|_| end(ends)))
}

/// Lends the words of each part, to be written.
fn lend_parts<'a>(regions: &'a mut PartRegions, words: &'a Vectors, ends: &mut Numbers) -> Slices<'a> {
    placed(regions, words, ends).map(
        |((region, words), end)| region.lend_mut(words, end),
        |((region, stamps), end)| region.lend_mut(stamps, end),
    )
}

/// Lends the words of each part, to be read.
fn view_parts<'a>(regions: &'a mut PartRegions, words: &'a Vectors, ends: &mut Numbers) -> Views<'a> {
    placed(regions, words, ends)
        .map(|((region, words), end)| region.lend(words, end), |((region, stamps), end)| region.lend(stamps, end))
}

/// What was compared so far.
#[derive(Default)]
pub struct Totals {
    pub builds: u64,
    pub queries: u64,
    pub peels: u64,
    pub messages: u64,
    pub lists: u64,
    pub listed_messages: u64,
    pub previews: u64,
    pub numbers: Given,
    /// The numbers of the messages of lists, and of previews.
    pub listed_numbers: Given,
    pub preview_numbers: Given,
    /// The taken messages of message calls and lists, by kind.
    pub taken_kinds: Given,
    /// Previews whose message was then sent to the board.
    pub sent: u64,
    /// Previews whose spare memory was the board of the calls after them.
    pub exchanged: u64,
    pub settled: u64,
    pub unsettled: u64,
    pub alpha_zero: u64,
    pub beta_zero: u64,
    pub both_zero: u64,
    /// Accepted queries, peels, own covers and crowd covers with somebody off or out.
    pub absent: u64,
    pub words: u64,
    pub largest: u64,
    pub deliveries: u64,
    pub covers: CoverTotals,
    pub crowd: CrowdTotals,
    pub own: OwnTotals,
    pub differences: u64,
}

impl Totals {
    pub fn calls(&self) -> u64 {
        let of_messages = self.messages + self.lists + self.previews;
        let of_crowds = self.crowd.look_ups + self.crowd.covers;
        self.builds + self.queries + self.peels + self.own.covers + of_messages + of_crowds
    }

    /// Counts a number that a call gave.
    fn given(&mut self, call: &str, can_give: &[u16], code: u16) {
        *self.numbers.entry(code).or_default() += 1;
        self.check_number(call, can_give, code);
    }

    /// The same of a call that is lent a board.
    fn number(&mut self, call: &str, can_give: &[u16], head: Head, code: u16) {
        self.largest += (code == 0 && (head.operators, head.rides) == (200, 60)) as u64;
        self.given(call, can_give, code);
    }

    /// Counts a message that got a number, by its kind where it is taken.
    fn taken(&mut self, one: Message, code: u16) {
        if code == 0 {
            *self.taken_kinds.entry(one.kind).or_default() += 1;
        }
    }

    /// Counts the number of a message of a list.
    fn listed_number(&mut self, one: Message, code: u16) {
        self.taken(one, code);
        *self.listed_numbers.entry(code).or_default() += 1;
        self.check_number("message of a list", LISTED_NUMBERS, code);
    }

    /// A number that can't be given is a difference, also where both sides give it.
    fn check_number(&mut self, call: &str, can_give: &[u16], code: u16) {
        if !can_give.contains(&code) {
            self.differ(&format!("{call}: {code} is given"));
        }
    }

    /// Counts an accepted query, peel, own cover or crowd cover: limits that have a 0 among them, and somebody off or out.
    fn accepted(&mut self, head: Head, alpha: u16, beta: u16, presence: &[u16]) {
        match (alpha, beta) {
            (0, 0) => self.both_zero += 1,
            (0, _) => self.alpha_zero += 1,
            (_, 0) => self.beta_zero += 1,
            _ => {}
        }
        self.absent += presence[..head.nodes()].iter().any(|word| *word != PRESENT) as u64;
    }

    fn same<T: PartialEq + Debug>(&mut self, what: &str, library: T, reference: T) {
        if library != reference {
            self.differ(&format!("{what}: library {library:?}, reference {reference:?}"));
        }
    }

    fn same_words<T: PartialEq + Debug>(&mut self, call: &str, part: &str, library: &[T], reference: &[T]) {
        self.words += reference.len() as u64;
        self.same_places(call, part, library, reference);
    }

    /// The same without a count. Most parts are equal, which is told soonest as a whole.
    fn same_places<T: PartialEq + Debug>(&mut self, call: &str, part: &str, library: &[T], reference: &[T]) {
        if library == reference {
            return;
        }
        if let Some(place) = (0..reference.len()).find(|&place| library[place] != reference[place]) {
            let (found, expected) = (&library[place], &reference[place]);
            self.differ(&format!("{call}, {part} at {place}: library {found:?}, reference {expected:?}"));
        }
    }

    fn same_parts<A, B>(&mut self, call: &str, library: &Parts<A, B>, reference: &Vectors)
    where
        A: Deref<Target = [u16]>,
        B: Deref<Target = [u32]>,
    {
        let Parts { operators, rides, stamps, revisions, index, presence_stamps, presence_revisions, presence } =
            library;
        self.same_words(call, "operators", operators, &reference.operators);
        self.same_words(call, "rides", rides, &reference.rides);
        self.same_words(call, "stamps", stamps, &reference.stamps);
        self.same_words(call, "revisions", revisions, &reference.revisions);
        self.same_words(call, "index", index, &reference.index);
        self.same_words(call, "presence stamps", presence_stamps, &reference.presence_stamps);
        self.same_words(call, "presence revisions", presence_revisions, &reference.presence_revisions);
        self.same_words(call, "presence", presence, &reference.presence);
    }

    /// A preview that was not refused, and its message sent to the board: the answers, and the spare board and the board.
    pub fn same_as_sent(&mut self, previewed: (Answer, &Lent), sent: (Answer, &Lent)) {
        self.sent += 1;
        self.same("a preview, and its message then", previewed.0, sent.0);
        if previewed.1.board() != sent.1.board() {
            self.differ("the spare board is not the one that the message leaves");
        }
    }

    /// A cover, and another call for its limits, from equal marks: a query on a board whose index is its own, or an own
    /// cover.
    pub fn same_as(&mut self, call: &str, other: &str, covered: (Counts, &[u16]), found: (Counts, &[u16])) {
        self.same(&format!("{call}, and {other} for its limits then"), covered.0, found.0);
        if covered.1 != found.1 {
            self.differ(&format!("{call}: the marks are not those of {other} for its limits"));
        }
    }

    pub fn differ(&mut self, what: &str) {
        self.differences += 1;
        println!("DIFFERENCE after {} calls: {what}", self.calls());
    }
}

/// A library, and what was compared of it so far.
pub struct Compared<B> {
    library: B,
    regions: Regions,
    cover_regions: CoverRegions,
    ends: Numbers,
    pub totals: Totals,
}

impl<B: Library> Compared<B> {
    pub fn new(library: B, seed: u64) -> Compared<B> {
        let (regions, cover_regions) = (Regions::new(), CoverRegions::new());
        Compared { library, regions, cover_regions, ends: Numbers::new(!seed), totals: Totals::default() }
    }

    fn check_filled(&mut self) {
        self.totals.same("memory beside the lent parts is intact", self.regions.are_intact(), true);
    }

    pub fn build(&mut self, lent: &mut Lent, start: u32) -> u16 {
        let before = lent.parts.clone();
        let expected = Reference.build(lent.head, &mut lent.parts.lend(), start);
        let Compared { library, regions, ends, totals, .. } = self;
        let mut parts = lend_parts(&mut regions.parts, &before, ends);
        let found = library.build(lent.head, &mut parts, start);
        totals.builds += 1;
        totals.number("build", BUILD_NUMBERS, lent.head, found);
        totals.same("build", found, expected);
        totals.same_parts("build", &parts, &lent.parts);
        self.check_filled();
        expected
    }

    pub fn query(&mut self, lent: &Lent, alpha: u16, beta: u16, marks: &mut [u16]) -> Counts {
        let (before, head, words) = (marks.to_vec(), lent.head, &lent.parts);
        let expected = Reference.query(head, &words.index, &words.presence, alpha, beta, marks);
        let Compared { library, regions, ends, totals, .. } = self;
        let index = regions.parts.index.lend(&words.index, end(ends));
        let presence = regions.parts.presence.lend(&words.presence, end(ends));
        let left = regions.marks.lend_mut(&before, end(ends));
        let found = library.query(head, index, presence, alpha, beta, left);
        totals.queries += 1;
        totals.number("query", QUERY_NUMBERS, head, found.code);
        totals.same("query", found, expected);
        totals.same_words("query", "index", index, &words.index);
        totals.same_words("query", "presence", presence, &words.presence);
        totals.same_words("query", "marks", left, marks);
        if expected.code == 0 {
            totals.accepted(head, alpha, beta, &words.presence);
        }
        self.check_filled();
        expected
    }

    pub fn peel(
        &mut self,
        lent: &Lent,
        minimums: &[u16],
        marks: &mut [u16],
        alpha: u16,
        beta: u16,
        steps: u16,
    ) -> Peeled {
        let (before, head, words) = (marks.to_vec(), lent.head, &lent.parts);
        let Parts { operators, rides, presence, .. } = words;
        let expected = Reference.peel(head, operators, rides, presence, minimums, marks, alpha, beta, steps);
        let Compared { library, regions, ends, totals, .. } = self;
        let operators = regions.parts.operators.lend(&words.operators, end(ends));
        let rides = regions.parts.rides.lend(&words.rides, end(ends));
        let presence = regions.parts.presence.lend(&words.presence, end(ends));
        let read = regions.minimums.lend(minimums, end(ends));
        let left = regions.marks.lend_mut(&before, end(ends));
        let found = library.peel(head, operators, rides, presence, read, left, alpha, beta, steps);
        totals.peels += 1;
        totals.number("peel", PEEL_NUMBERS, head, found.code);
        totals.settled += (found.code == 0 && found.settled == 1) as u64;
        totals.unsettled += (found.code == 0 && found.settled == 0) as u64;
        totals.same("peel", found, expected);
        totals.same_words("peel", "operators", operators, &words.operators);
        totals.same_words("peel", "rides", rides, &words.rides);
        totals.same_words("peel", "presence", presence, &words.presence);
        totals.same_words("peel", "minimums", read, minimums);
        totals.same_words("peel", "marks", left, marks);
        totals.own.minimums.count(head, minimums, beta, expected.code);
        if expected.code == 0 {
            totals.accepted(head, alpha, beta, &words.presence);
        }
        self.check_filled();
        expected
    }

    pub fn message(&mut self, lent: &mut Lent, one: Message) -> Answer {
        let before = lent.clone();
        let expected = Reference.message(&mut lent.head, &mut lent.parts.lend(), one);
        let Compared { library, regions, ends, totals, .. } = self;
        let head = regions.head.lend_mut(&[before.head], end(ends));
        let mut parts = lend_parts(&mut regions.parts, &before.parts, ends);
        let found = library.message(&mut head[0], &mut parts, one);
        totals.messages += 1;
        totals.number("message", MESSAGE_NUMBERS, lent.head, found.code);
        totals.taken(one, found.code);
        totals.same("message", found, expected);
        totals.same_words("message", "head", head, &[lent.head]);
        totals.same_parts("message", &parts, &lent.parts);
        self.check_filled();
        expected
    }

    pub fn messages(&mut self, lent: &mut Lent, list: &[Message], answers: &mut [u16]) -> u16 {
        let (before, answers_before) = (lent.clone(), answers.to_vec());
        let expected = Reference.messages(&mut lent.head, &mut lent.parts.lend(), list, answers);
        let Compared { library, regions, ends, totals, .. } = self;
        let head = regions.head.lend_mut(&[before.head], end(ends));
        let mut parts = lend_parts(&mut regions.parts, &before.parts, ends);
        let messages = regions.messages.lend(list, end(ends));
        let left = regions.answers.lend_mut(&answers_before, end(ends));
        let found = library.messages(&mut head[0], &mut parts, messages, left);
        totals.lists += 1;
        totals.listed_messages += list.len() as u64;
        totals.number("message list", LIST_NUMBERS, lent.head, found);
        if found == 0 {
            list.iter().zip(&*left).for_each(|(one, code)| totals.listed_number(*one, *code));
        }
        totals.same("message list", found, expected);
        totals.same_words("message list", "head", head, &[lent.head]);
        totals.same_parts("message list", &parts, &lent.parts);
        totals.same_words("message list", "messages", messages, list);
        totals.same_words("message list", "answers", left, answers);
        self.check_filled();
        expected
    }

    pub fn preview(&mut self, lent: &Lent, one: Message, spare: &mut Lent) -> Answer {
        let before = spare.clone();
        let expected = reference::preview(lent.head, &lent.parts.view(), one, &mut spare.head, &mut spare.parts.lend());
        let Compared { library, regions, ends, totals, .. } = self;
        let parts = view_parts(&mut regions.parts, &lent.parts, ends);
        let head = regions.head.lend_mut(&[before.head], end(ends));
        let mut left = lend_parts(&mut regions.spare, &before.parts, ends);
        let found = library.preview(lent.head, &parts, one, &mut head[0], &mut left);
        totals.previews += 1;
        totals.number("preview", MESSAGE_NUMBERS, lent.head, found.code);
        *totals.preview_numbers.entry(found.code).or_default() += 1;
        totals.same("preview", found, expected);
        totals.same_parts("preview", &parts, &lent.parts);
        totals.same_words("preview", "spare head", head, &[spare.head]);
        totals.same_parts("preview, spare", &left, &spare.parts);
        self.check_filled();
        expected
    }
}

#[cfg(test)]
mod tests {
    use super::*;

    /// 14 and 15 are for messages and previews alone, 16 to 18 for look-ups and crowd covers, 11 and 13 for no call.
    #[test]
    fn a_number_that_a_call_cannot_give_is_a_difference() {
        let head = Head { operators: 4, rides: 3, pairs: 7 };
        for (can_give, count) in [
            (BUILD_NUMBERS, 7),
            (QUERY_NUMBERS, 4),
            (PEEL_NUMBERS, 7),
            (MESSAGE_NUMBERS, 13),
            (LIST_NUMBERS, 7),
            (LISTED_NUMBERS, 7),
            (CROWD_LIMITS_NUMBERS, 4),
            (CROWD_COVER_NUMBERS, 9),
            (OWN_COVER_NUMBERS, 6),
        ] {
            let mut totals = Totals::default();
            (0..=20).for_each(|code| totals.number("call", can_give, head, code));
            assert_eq!((totals.numbers.values().sum::<u64>(), totals.differences), (21, 21 - count));
            assert!(!can_give.contains(&11) && !can_give.contains(&13));
            let is_of_bands = [CROWD_LIMITS_NUMBERS, CROWD_COVER_NUMBERS].contains(&can_give);
            assert!((16..=18).all(|number| can_give.contains(&number) == is_of_bands));
            let is_of_messages = [MESSAGE_NUMBERS, LISTED_NUMBERS].contains(&can_give);
            assert!((14..=15).all(|number| can_give.contains(&number) == is_of_messages));
        }
    }

    /// Another number, another count and another mark are each a difference.
    #[test]
    fn a_cover_that_is_not_what_another_call_gives_is_a_difference() {
        let (counts, marks) = (Counts { code: 0, operators: 2, rides: 1 }, [1, 0, 1, 1, 7]);
        let differences = |change: fn(&mut Counts, &mut [u16])| {
            let (mut totals, mut other_counts, mut other) = (Totals::default(), counts, marks);
            change(&mut other_counts, &mut other);
            totals.same_as("cover", "a query", (counts, &marks), (other_counts, &other));
            totals.differences
        };
        assert_eq!(differences(|_, _| {}), 0);
        assert_eq!(differences(|counts, _| counts.code = 3), 1);
        assert_eq!(differences(|counts, _| counts.operators = 1), 1);
        assert_eq!(differences(|counts, _| counts.rides = 2), 1);
        assert_eq!(differences(|_, marks| marks[1] = 1), 1);
        assert_eq!(differences(|_, marks| marks[4] = 0), 1);
    }

    /// Another answer, another head and another word of a part are each a difference; another word past a part's needed
    /// places is none.
    #[test]
    fn a_preview_that_is_not_what_the_message_does_is_a_difference() {
        let taken = Answer { code: 0, differ: 5 };
        let head = Head { operators: 2, rides: 1, pairs: 1 };
        let parts = head.lengths().map(|needed| vec![0; needed + 1], |needed| vec![0; needed + 1]);
        let board = Lent { head, parts };
        let differences = |answer: Answer, change: fn(&mut Lent)| {
            let (mut totals, mut spare) = (Totals::default(), board.clone());
            change(&mut spare);
            totals.same_as_sent((answer, &spare), (taken, &board));
            totals.differences
        };
        assert_eq!(differences(taken, |_| {}), 0);
        assert_eq!(differences(taken, |spare| spare.parts.operators[2] = 9), 0);
        assert_eq!(differences(taken, |spare| spare.parts.rides[2] = 9), 0);
        assert_eq!(differences(taken, |spare| spare.parts.stamps[2] = 9), 0);
        assert_eq!(differences(taken, |spare| spare.parts.revisions[2] = 9), 0);
        assert_eq!(differences(taken, |spare| spare.parts.index[3] = 9), 0);
        assert_eq!(differences(taken, |spare| spare.parts.presence_stamps[3] = 9), 0);
        assert_eq!(differences(taken, |spare| spare.parts.presence_revisions[3] = 9), 0);
        assert_eq!(differences(taken, |spare| spare.parts.presence[3] = 9), 0);
        assert_eq!(differences(Answer { code: 0, differ: 4 }, |_| {}), 1);
        assert_eq!(differences(taken, |spare| spare.head.pairs = 0), 1);
        assert_eq!(differences(taken, |spare| spare.parts.operators[1] = 9), 1);
        assert_eq!(differences(taken, |spare| spare.parts.rides[1] = 9), 1);
        assert_eq!(differences(taken, |spare| spare.parts.stamps[1] = 9), 1);
        assert_eq!(differences(taken, |spare| spare.parts.revisions[1] = 9), 1);
        assert_eq!(differences(taken, |spare| spare.parts.index[2] = 9), 1);
        assert_eq!(differences(taken, |spare| spare.parts.presence_stamps[2] = 9), 1);
        assert_eq!(differences(taken, |spare| spare.parts.presence_revisions[2] = 9), 1);
        assert_eq!(differences(taken, |spare| spare.parts.presence[2] = 9), 1);
    }
}
