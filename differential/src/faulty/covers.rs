//! Covers under a list of limits, with a fault.

use super::{bytes, write_beside, write_byte, Faulty};
use crate::faults::{CoverPart, Fault, Wrong, WrongTables};
use differential::kernel::Degrees;
use differential::Kernel;
use reference::{cover_under_limits, Head};

/// The limits of the nodes as the fault reads them.
fn read(wrong: Wrong, head: Head, here: &[u8], limits: &[u16]) -> Vec<u16> {
    let (n, nodes) = (head.operators as usize, head.nodes());
    let one = |node: usize| match (wrong, limits[node]) {
        (Wrong::LimitNextPlace, _) if node + 1 < nodes => limits[node + 1],
        (Wrong::LimitOfOperator, _) if n <= node && node - n < n => limits[node - n],
        (Wrong::LimitLowByte, limit) => limit % 256,
        (Wrong::LimitZeroIsOne, 0) => 1,
        (Wrong::LimitMostIsNone, 65535) => 0,
        (Wrong::LimitNotEnough, limit) if limit != 0 => limit.saturating_add(1),
        (Wrong::RidesKept, _) if n <= node => 0,
        (Wrong::NotHereDropped, _) if here[node] == 0 => 65535,
        (Wrong::NotHereKept, _) if here[node] == 0 => 0,
        (_, limit) => limit,
    };
    (0..nodes).map(one).collect()
}

/// One sweep of the rides and one of the operators.
pub fn swept_once(head: Head, operators: &[u16], rides: &[u16], here: &[u8], limits: &[u16]) -> Vec<u16> {
    let (n, nodes) = (head.operators as usize, head.nodes());
    let pairs = || operators.iter().zip(rides).take(head.pairs as usize);
    let mut marks = vec![1; nodes];
    for node in (n..nodes).chain(0..n) {
        let neighbours = pairs().filter_map(|(&operator, &ride)| match (operator as usize, head.ride_node(ride)) {
            (operator, ride) if operator == node => Some(ride),
            (operator, ride) if ride == node => Some(operator),
            _ => None,
        });
        let counts = |other: &usize| here[node] == 1 && here[*other] == 1 && marks[*other] == 1;
        if neighbours.filter(counts).count() < limits[node] as usize {
            marks[node] = 0;
        }
    }
    marks
}

/// Leaves the cover of a pair table in the marks, with a fault.
fn spoiled(wrong: Wrong, head: Head, pairs: (&[u16], &[u16]), here: &[u8], limits: &[u16], marks: &mut [u16]) {
    let nodes = head.nodes();
    let limits = read(wrong, head, here, limits);
    let all = vec![1; nodes];
    let here = if wrong == Wrong::NotHereCounts { &all } else { here };
    let mut left = match wrong {
        Wrong::SweptOnce => swept_once(head, pairs.0, pairs.1, here, &limits),
        _ => cover_under_limits(head, pairs.0, pairs.1, here, &limits),
    };
    for (mark, came) in left.iter_mut().zip(&*marks) {
        match wrong {
            Wrong::MarksAsCame if *came == 0 => *mark = 0,
            Wrong::MarksLeft if *mark == 1 => *mark = *came,
            _ => {}
        }
    }
    marks[..nodes].copy_from_slice(&left);
    match wrong {
        Wrong::MarksPastNodes => marks[nodes..].fill(0),
        Wrong::WritesBeside => write_beside(bytes(marks)),
        Wrong::WritesPast => write_byte(bytes(marks), size_of_val(marks) as isize),
        _ => {}
    }
}

/// The pairs that a table by operator has.
fn pairs_of(head: Head, by_operator: &[u8]) -> (Vec<u16>, Vec<u16>) {
    let all = (0..head.operators).flat_map(|operator| (0..head.rides).map(move |ride| (operator, ride)));
    all.filter(|(operator, ride)| by_operator[*operator as usize * 60 + *ride as usize] == 1).unzip()
}

impl Kernel for Faulty {
    fn tables(
        &mut self,
        head: Head,
        operators: &[u16],
        rides: &[u16],
        here: &[u8],
        by_operator: &mut [u8],
        by_ride: &mut [u8],
    ) -> Degrees {
        let mut degrees = Degrees { operators: [0; 200], rides: [0; 60] };
        let width = if self.0 == Fault::Tables(WrongTables::RowsOfRides) { head.rides as usize } else { 60 };
        let not_here_counts = self.0 == Fault::Tables(WrongTables::NotHereCounts);
        for place in 0..head.pairs as usize {
            let (operator, ride) = (operators[place] as usize, rides[place] as usize);
            let counts = here[operator] == 1 && here[head.ride_node(rides[place])] == 1;
            if counts || not_here_counts || self.0 == Fault::Tables(WrongTables::DegreesOfAll) {
                degrees.operators[operator] += 1;
                degrees.rides[ride] += 1;
            }
            if counts || not_here_counts {
                by_operator[operator * width + ride] = 1;
                by_ride[ride * 200 + operator] = 1;
            }
            if self.0 == Fault::Tables(WrongTables::PairMissing) && place + 1 == head.pairs as usize {
                by_ride[ride * 200 + operator] = 0;
            }
        }
        match self.0 {
            Fault::Tables(WrongTables::WritesBeside) => write_beside(by_ride),
            Fault::Tables(WrongTables::Writes(CoverPart::Operators)) => write_byte(bytes(operators), 0),
            Fault::Tables(WrongTables::Writes(CoverPart::Rides)) => write_byte(bytes(rides), 0),
            Fault::Tables(WrongTables::Writes(_)) => write_byte(here, 0),
            _ => {}
        }
        degrees
    }

    fn cover(&mut self, head: Head, by_operator: &[u8], by_ride: &[u8], _: Degrees, limits: &[u16], marks: &mut [u16]) {
        let (operators, rides) = pairs_of(head, by_operator);
        let head = Head { pairs: operators.len() as u16, ..head };
        let here = vec![1; head.nodes()];
        match self.0 {
            Fault::TableCover(Wrong::Writes(CoverPart::ByOperator)) => write_byte(by_operator, 0),
            Fault::TableCover(Wrong::Writes(CoverPart::ByRide)) => write_byte(by_ride, 0),
            Fault::TableCover(Wrong::Writes(_)) => write_byte(bytes(limits), 0),
            Fault::TableCover(wrong) => return spoiled(wrong, head, (&operators, &rides), &here, limits, marks),
            _ => {}
        }
        marks[..head.nodes()].copy_from_slice(&cover_under_limits(head, &operators, &rides, &here, limits));
    }

    fn pair_cover(
        &mut self,
        head: Head,
        operators: &[u16],
        rides: &[u16],
        here: &[u8],
        limits: &[u16],
        marks: &mut [u16],
    ) {
        match self.0 {
            Fault::PairCover(Wrong::Writes(CoverPart::Operators)) => write_byte(bytes(operators), 0),
            Fault::PairCover(Wrong::Writes(CoverPart::Rides)) => write_byte(bytes(rides), 0),
            Fault::PairCover(Wrong::Writes(CoverPart::Here)) => write_byte(here, 0),
            Fault::PairCover(Wrong::Writes(_)) => write_byte(bytes(limits), 0),
            Fault::PairCover(wrong) => return spoiled(wrong, head, (operators, rides), here, limits, marks),
            _ => {}
        }
        marks[..head.nodes()].copy_from_slice(&cover_under_limits(head, operators, rides, here, limits));
    }
}
