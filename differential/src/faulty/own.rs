//! Peels and own covers, with a fault in their minimums or another one, and a query that uses minimums.

use super::found::{counted, refused, Lent};
use super::{bytes, write_byte, Faulty};
use crate::faults::{Fault, WrongMinimums};
use reference::frames::{Board, Reference};
use reference::{own_cover, peel, Counts, Head, Peeled, PRESENT};

/// What a peel or a cover is lent to read, with its limits.
#[derive(Clone, Copy)]
pub struct Asked<'a> {
    pub lent: Lent<'a>,
    pub minimums: &'a [u16],
    pub alpha: u16,
    pub beta: u16,
}

impl Asked<'_> {
    /// The reference's own cover.
    fn own_cover(self, marks: &mut [u16]) -> Counts {
        let Asked { lent: Lent { head, operators, rides, presence }, minimums, alpha, beta } = self;
        own_cover(head, operators, rides, presence, minimums, alpha, beta, marks)
    }

    /// The reference's peel.
    fn peel(self, marks: &mut [u16], steps: u16) -> Peeled {
        let Asked { lent: Lent { head, operators, rides, presence }, minimums, alpha, beta } = self;
        peel(head, operators, rides, presence, minimums, marks, alpha, beta, steps)
    }

    /// Whether every ride has a minimum.
    pub fn is_of_all(self) -> bool {
        (0..self.lent.head.rides as usize).all(|ride| self.minimums.get(ride).is_some_and(|one| *one != 0))
    }

    /// The number that a fault gives. The function gives the reference's.
    fn number(self, wrong: WrongMinimums, reference: impl Fn(Asked) -> u16) -> u16 {
        let (head, minimums) = (self.lent.head, self.minimums);
        let (places, rides, number) = (minimums.len(), head.rides as usize, reference(self));
        let is_short = places < rides;
        let lengthened = [minimums, &vec![0; rides.saturating_sub(places)]].concat();
        let otherwise = reference(Asked { minimums: &lengthened, ..self });
        match wrong {
            WrongMinimums::ShortAccepted => otherwise,
            WrongMinimums::ShortFirst if is_short => 3,
            WrongMinimums::ShortAfter(last) if is_short && (1..=last).contains(&otherwise) => otherwise,
            WrongMinimums::LongRefused if rides < places && !(1..=2).contains(&number) => 3,
            WrongMinimums::NodesNeeded if places < head.nodes() && !(1..=2).contains(&number) => 3,
            WrongMinimums::LargeRefused(code) if number == 0 && minimums[..rides].iter().any(|one| *one > 200) => code,
            _ => number,
        }
    }

    /// The limit of a ride as a fault reads it.
    fn ride_limit(self, wrong: WrongMinimums, ride: usize) -> u16 {
        let (head, beta) = (self.lent.head, self.beta);
        let at = |place: usize| self.minimums.get(place).copied().unwrap_or(0);
        let minimum = match (wrong, at(ride)) {
            (WrongMinimums::Unread | WrongMinimums::OfOperators, _) => 0,
            (WrongMinimums::NextPlace, _) => at(ride + 1),
            (WrongMinimums::PlaceBefore, _) => ride.checked_sub(1).map_or(0, at),
            (WrongMinimums::PlaceAsMarks, _) => at(head.ride_node(ride as u16)),
            (WrongMinimums::OfFirst, _) => at(0),
            (WrongMinimums::LastUnread, _) if ride + 1 == head.rides as usize => 0,
            (WrongMinimums::NoneUnderBetaZero, _) if beta == 0 => 0,
            (WrongMinimums::LowByte, minimum) => minimum % 256,
            (WrongMinimums::MostIsNone, 65535) => 0,
            (WrongMinimums::TooManyIsNone, minimum) if head.operators < minimum => 0,
            (_, minimum) => minimum,
        };
        match (wrong, minimum) {
            (WrongMinimums::ZeroIsLimit, _) => minimum,
            (WrongMinimums::SmallerUnused, _) => minimum.max(beta),
            (WrongMinimums::SmallerOfBoth, _) => minimum.min(beta),
            (_, 0) => beta,
            (WrongMinimums::LargerUnused, _) => minimum.min(beta),
            (WrongMinimums::Added, _) => minimum.saturating_add(beta),
            (WrongMinimums::NotEnough, _) => minimum.saturating_add(1),
            _ => minimum,
        }
    }

    /// The limits of operators and rides as a fault reads them.
    pub fn limits(self, wrong: WrongMinimums) -> Vec<u16> {
        let mut limits = self.lent.limits(self.alpha, |ride| self.ride_limit(wrong, ride));
        if matches!(wrong, WrongMinimums::OfOperators | WrongMinimums::OfOperatorsToo) {
            let of_operators = limits.iter_mut().take(self.lent.head.operators as usize);
            of_operators.zip(self.minimums).filter(|(_, one)| **one != 0).for_each(|(limit, one)| *limit = *one);
        }
        limits
    }

    /// The words of presence as a fault reads them.
    fn presence(self, wrong: WrongMinimums) -> Vec<u16> {
        let mut words = self.lent.presence.to_vec();
        if wrong == WrongMinimums::OutIsIn {
            let of_rides = words.iter_mut().skip(self.lent.head.operators as usize);
            of_rides.zip(self.minimums).filter(|(_, one)| **one != 0).for_each(|(word, _)| *word = PRESENT);
        }
        words
    }

    /// A cover that reads or tests its minimums otherwise. The function is the reference's cover.
    pub fn cover(
        self,
        wrong: WrongMinimums,
        reference: impl Fn(Asked, &mut [u16]) -> Counts,
        marks: &mut [u16],
    ) -> Counts {
        let head = self.lent.head;
        match self.number(wrong, |asked| reference(asked, &mut marks.to_vec()).code) {
            0 => {
                marks[..head.nodes()].fill(1);
                self.drop_short(wrong, marks, u16::MAX);
                counted(head, marks)
            }
            code => refused(code),
        }
    }

    /// A peel that isn't refused.
    fn drop_short(self, wrong: WrongMinimums, marks: &mut [u16], steps: u16) -> Peeled {
        match wrong {
            WrongMinimums::Written => write_byte(bytes(self.minimums), 0),
            WrongMinimums::ReadPast => {
                let end = self.minimums.as_ptr_range().end;
                unsafe { end.read_volatile() };
            }
            _ => {}
        }
        let presence = &self.presence(wrong);
        Lent { presence, ..self.lent }.drop_short(&self.limits(wrong), marks, steps)
    }
}

impl Faulty {
    /// A peel, where its minimums are the fault.
    pub(super) fn peel_with(&self, asked: Asked, marks: &mut [u16], steps: u16) -> Option<Peeled> {
        let Fault::PeelMinimums(wrong) = self.0 else { return None };
        match asked.number(wrong, |asked| asked.peel(&mut marks.to_vec(), steps).code) {
            0 => Some(asked.drop_short(wrong, marks, steps)),
            code => Some(Peeled { code, settled: 0, steps: 0 }),
        }
    }

    pub(super) fn cover_with(&self, asked: Asked, marks: &mut [u16]) -> Counts {
        match self.0 {
            Fault::OwnMinimums(wrong) => asked.cover(wrong, |asked, marks| asked.own_cover(marks), marks),
            Fault::OwnCover(wrong) => {
                let limits = asked.limits(WrongMinimums::None);
                asked.lent.spoiled(wrong, &limits, |lent, marks| Asked { lent, ..asked }.own_cover(marks), marks)
            }
            _ => asked.own_cover(marks),
        }
    }

    /// Marks each ride that had a minimum in the last peel or cover as a query for that minimum does, and counts anew.
    pub(super) fn query_with(
        &self,
        head: Head,
        index: &[u16],
        presence: &[u16],
        alpha: u16,
        marks: &mut [u16],
    ) -> Counts {
        for (ride, minimum) in self.1.iter().take(head.rides as usize).enumerate().filter(|(_, one)| **one != 0) {
            let (mut others, node) = (marks.to_vec(), head.ride_node(ride as u16));
            Reference.query(head, index, presence, alpha, *minimum, &mut others);
            marks[node] = others[node];
        }
        counted(head, marks)
    }
}
