//! Covers that are found from pair arrays and words of presence, crowd covers and own covers, with a fault.

use super::covers::swept_once;
use super::{bytes, counting, spoil, write_beside, write_byte};
use crate::faults::{WrongCover, OPERATORS, RIDES};
use reference::{Counts, Head, Peeled, PRESENT};

/// What a refused cover answers.
pub fn refused(code: u16) -> Counts {
    Counts { code, operators: 0, rides: 0 }
}

/// The counts of marks that are left.
pub fn counted(head: Head, marks: &[u16]) -> Counts {
    let (operators, rides) = marks[..head.nodes()].split_at(head.operators as usize);
    Counts { code: 0, operators: operators.iter().sum(), rides: rides.iter().sum() }
}

/// What a cover is lent to read, but for minimums.
#[derive(Clone, Copy)]
pub struct Lent<'a> {
    pub head: Head,
    pub operators: &'a [u16],
    pub rides: &'a [u16],
    pub presence: &'a [u16],
}

impl Lent<'_> {
    /// A limit for each node: one for all operators, and one for each ride.
    pub fn limits(self, alpha: u16, of_ride: impl Fn(usize) -> u16) -> Vec<u16> {
        let of_rides = (0..self.head.rides as usize).map(of_ride);
        vec![alpha; self.head.operators as usize].into_iter().chain(of_rides).collect()
    }

    /// How many marked neighbours each node has that are on or in, as it is itself.
    fn degrees(self, marks: &[u16]) -> Vec<u16> {
        let Lent { head, operators, rides, presence } = self;
        let (pairs, operators, rides) = counting(head, operators, rides, presence);
        let mut degrees = vec![0; head.nodes()];
        for (operator, ride) in operators.iter().zip(&rides).take(pairs as usize) {
            let (operator, ride) = (*operator as usize, head.ride_node(*ride));
            degrees[operator] += marks[ride];
            degrees[ride] += marks[operator];
        }
        degrees
    }

    /// Drops the first marked one who falls short of its limit, again and again, in so many steps at most.
    pub fn drop_short(self, limits: &[u16], marks: &mut [u16], steps: u16) -> Peeled {
        let mut taken = 0;
        loop {
            let degrees = self.degrees(marks);
            let is_short = |node: usize| self.presence[node] != PRESENT || degrees[node] < limits[node];
            let first = (0..self.head.nodes()).find(|node| marks[*node] == 1 && is_short(*node));
            match first {
                Some(node) if taken < steps => marks[node] = 0,
                _ => return Peeled { code: 0, settled: first.is_none() as u16, steps: taken },
            }
            taken += 1;
        }
    }

    /// Whoever is on or in and has its limit of neighbours that are.
    fn by_degrees(self, limits: &[u16]) -> Vec<u16> {
        let degrees = self.degrees(&vec![1; self.head.nodes()]);
        let is_in = |node: usize| self.presence[node] == PRESENT && limits[node] <= degrees[node];
        (0..self.head.nodes()).map(is_in).map(u16::from).collect()
    }

    /// One sweep of the rides and one of the operators.
    fn by_one_sweep(self, limits: &[u16]) -> Vec<u16> {
        let Lent { head, operators, rides, presence } = self;
        let here: Vec<u8> = presence[..head.nodes()].iter().map(|word| (*word == PRESENT) as u8).collect();
        let marks = swept_once(head, operators, rides, &here, limits);
        marks.iter().zip(here).map(|(mark, here)| mark * here as u16).collect()
    }

    /// The largest set inside the marks that came in.
    fn inside_marks(self, limits: &[u16], marks: &[u16]) -> Vec<u16> {
        let mut marks: Vec<u16> = marks[..self.head.nodes()].iter().map(|mark| (*mark != 0) as u16).collect();
        self.drop_short(limits, &mut marks, u16::MAX);
        marks
    }

    /// A cover that refuses or reads otherwise, where the reference gives this number.
    fn otherwise(
        self,
        wrong: WrongCover,
        limits: &[u16],
        number: u16,
        cover: impl Fn(Lent, &mut [u16]) -> Counts,
        marks: &mut [u16],
    ) -> Option<Counts> {
        let Lent { head, operators, rides, presence } = self;
        let (places, nodes) = (head.places(), head.nodes());
        let lengthened =
            |part: &[u16], needed: usize| [part, &vec![PRESENT; needed.saturating_sub(part.len())]].concat();
        match (wrong, number) {
            (WrongCover::Twelve, 0 | 16..) if marks[..nodes].iter().any(|mark| *mark > 1) => Some(refused(12)),
            (WrongCover::ZeroRefused, 0) if limits.contains(&0) => Some(refused(11)),
            (WrongCover::Short(OPERATORS), 3) => {
                let operators = &lengthened(operators, places);
                Some(cover(Lent { operators, ..self }, marks))
            }
            (WrongCover::Short(RIDES), 3) => {
                let rides = &lengthened(rides, places);
                Some(cover(Lent { rides, ..self }, marks))
            }
            (WrongCover::Short(_), 3) => {
                let presence = &lengthened(presence, nodes);
                Some(cover(Lent { presence, ..self }, marks))
            }
            (WrongCover::ShortMarks, 3) => Some(cover(self, &mut lengthened(marks, nodes))),
            (WrongCover::Presence(reading), 0) => {
                let presence = &reading.read(head, presence);
                Some(cover(Lent { presence, ..self }, marks))
            }
            (WrongCover::ZeroKeepsAbsent, 0) => {
                // Whoever is off or out is on or in, with no pair.
                let (pairs, operators, rides) = counting(head, operators, rides, presence);
                let (head, all) = (Head { pairs, ..head }, vec![PRESENT; nodes]);
                Some(cover(Lent { head, operators: &operators, rides: &rides, presence: &all }, marks))
            }
            _ => None,
        }
    }

    /// The marks of the nodes that a fault leaves under these limits.
    fn other_marks(self, wrong: WrongCover, limits: &[u16], marks: &[u16]) -> Option<Vec<u16>> {
        match wrong {
            WrongCover::DegreesAlone => Some(self.by_degrees(limits)),
            WrongCover::SweptOnce => Some(self.by_one_sweep(limits)),
            WrongCover::MarksAsCame => Some(self.inside_marks(limits, marks)),
            _ => None,
        }
    }

    /// The reference's cover, which is found under these limits where it isn't refused, with a fault.
    pub fn spoiled(
        self,
        wrong: WrongCover,
        limits: &[u16],
        cover: impl Fn(Lent, &mut [u16]) -> Counts,
        marks: &mut [u16],
    ) -> Counts {
        let (head, nodes, before) = (self.head, self.head.nodes(), marks.to_vec());
        let number = cover(self, &mut before.clone()).code;
        if let Some(counts) = self.otherwise(wrong, limits, number, &cover, marks) {
            return counts;
        }
        let mut counts = cover(self, marks);
        match (wrong, number) {
            (WrongCover::MarksThoughRefused, 1..) => spoil(marks),
            (WrongCover::CountsThoughRefused, 1..) => counts.operators = 1,
            (_, 1..) => {}
            (WrongCover::CountsExchanged, _) => {
                (counts.operators, counts.rides) = (counts.rides, counts.operators);
            }
            (WrongCover::MarksPastNodes, _) => marks[nodes..].fill(0),
            (WrongCover::WritesBeside, _) => write_beside(bytes(marks)),
            (WrongCover::WritesPast, _) => write_byte(bytes(marks), size_of_val(marks) as isize),
            (WrongCover::Writes(OPERATORS), _) => write_byte(bytes(self.operators), 0),
            (WrongCover::Writes(RIDES), _) => write_byte(bytes(self.rides), 0),
            (WrongCover::Writes(_), _) => write_byte(bytes(self.presence), 0),
            _ => {
                if let Some(others) = self.other_marks(wrong, limits, &before) {
                    marks[..nodes].copy_from_slice(&others);
                    counts = counted(head, marks);
                }
            }
        }
        counts
    }
}
