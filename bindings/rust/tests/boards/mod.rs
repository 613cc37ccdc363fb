//! Boards that covers are asked of: document 01's, with everybody on and in and with every choice of those who are not, and
//! the largest.

use crate::lent::Lent;
use board::*;

pub const PAIRS: [(u16, u16); 7] = [(0, 0), (0, 1), (1, 0), (1, 1), (2, 1), (2, 2), (3, 2)];
pub const LENGTHS: [usize; 8] = [12, 12, 12, 12, 21, 7, 7, 7];
pub const HEAD: Head = Head { operators: 4, rides: 3, pairs: 7 };

/// Document 01's board, built at stamp 5.
pub fn built(lent: &mut Lent) -> Board<'_> {
    Board::build(lent.parts(), 4, 3, &PAIRS, 5).unwrap()
}

/// Checks document 01's board with every choice of operators off and rides out.
pub fn every_choice(check: impl Fn(&Board)) {
    for present in 0..1 << 7 {
        let mut lent = Lent::new(LENGTHS);
        let mut board = built(&mut lent);
        for place in (0..7).filter(|place| present >> place & 1 == 0) {
            let one = if place < 4 { Message::operator_off(place, 1) } else { Message::ride_out(place - 4, 1) };
            board.message(one).unwrap();
        }
        check(&board);
    }
}

/// The largest board of the operators and rides that are cleared, with every seventh operator off and a ride out.
pub fn largest(memory: &mut Memory, cleared: impl Fn(u32, u32) -> bool) -> Board<'_> {
    let every = (0..200).flat_map(|operator| (0..60).map(move |ride| (operator, ride)));
    let pairs: Vec<(u16, u16)> = every.filter(|&(operator, ride)| cleared(operator.into(), ride.into())).collect();
    let mut board = Board::build(memory.parts(), 200, 60, &pairs, 1).unwrap();
    let off: Vec<Message> = (0..200).step_by(7).map(|operator| Message::operator_off(operator, 2)).collect();
    board.messages(&off, &mut [0; 200]).unwrap();
    board.message(Message::ride_out(17, 2)).unwrap();
    board
}
