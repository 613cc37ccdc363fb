//! A preview beside the library's message and a plain copy of the board.

use crate::lent::Lent;
use crate::{measure, median, Case, ROUNDS, START};
use board::{Board, Head, Memory, Message};
use std::hint::black_box;
use std::mem::swap;

/// A board's head, and its parts to the lengths that it needs.
#[derive(Clone, PartialEq)]
struct Held {
    head: Head,
    lent: Lent,
}

impl Held {
    fn new(case: &Case) -> Held {
        let mut memory = Box::new(Memory::new());
        let board = Board::build(memory.parts(), case.operators, case.rides, &case.pairs, START).unwrap();
        Held { head: board.head(), lent: board.words().into() }
    }

    fn preview(&mut self, one: Message, spare: &mut Held) -> u16 {
        board::preview(self.head, self.lent.parts().words(), one, &mut spare.head, &mut spare.lent.parts()).unwrap()
    }

    fn message(&mut self, one: Message) -> u16 {
        board::message(&mut self.head, &mut self.lent.parts(), one).unwrap()
    }

    fn copy_from(&mut self, from: &Held) {
        let (lent, from_lent) = (&mut self.lent, &from.lent);
        self.head = from.head;
        lent.operators.copy_from_slice(&from_lent.operators);
        lent.rides.copy_from_slice(&from_lent.rides);
        lent.stamps.copy_from_slice(&from_lent.stamps);
        lent.revisions.copy_from_slice(&from_lent.revisions);
        lent.index.copy_from_slice(&from_lent.index);
        lent.presence_stamps.copy_from_slice(&from_lent.presence_stamps);
        lent.presence_revisions.copy_from_slice(&from_lent.presence_revisions);
        lent.presence.copy_from_slice(&from_lent.presence);
    }
}

/// The microseconds of a preview, a message and a copy, in each round. Preview and message are given the same messages in
/// the same order, all taken, and equal boards: the spare memory of one preview is the board of the next. Before them
/// another board takes the round's messages: whoever meets them first takes longer, by a tenth on a small board.
fn times(case: &Case) -> [Vec<f64>; 3] {
    eprintln!("measures preview, {} × {}, {} pairs", case.operators, case.rides, case.pairs.len());
    let board = Held::new(case);
    let (mut now, mut spare) = (board.clone(), board.clone());
    let (mut first, mut sent, mut copy) = (board.clone(), board.clone(), board.clone());
    let [mut to_first, mut to_preview, mut to_send] = [(); 3].map(|_| case.messages.iter());
    let (mut previewed, mut taken) = (0, 0);
    let [_, preview, message, plain] = measure(
        case.messages.len() / (ROUNDS + 2),
        &mut [
            &mut || _ = first.message(*to_first.next().unwrap()),
            &mut || {
                previewed += now.preview(*to_preview.next().unwrap(), &mut spare) as u64;
                swap(&mut now, &mut spare);
            },
            &mut || taken += sent.message(*to_send.next().unwrap()) as u64,
            &mut || black_box(&mut copy).copy_from(black_box(&board)),
        ],
    );
    assert!(now == sent && previewed == taken && copy == board);
    [preview, message, plain]
}

/// A preview's time over that of a message and a copy: the median of the rounds' ratios.
fn ratio([preview, message, copy]: &[Vec<f64>; 3]) -> f64 {
    let both = message.iter().zip(copy).map(|(message, copy)| message + copy);
    median(preview.iter().zip(both).map(|(preview, both)| preview / both).collect())
}

fn print_line(case: &Case, times: &[Vec<f64>; 3]) {
    let [preview, message, copy] = times.each_ref().map(|times| median(times.clone()));
    println!(
        "| {} × {} | {} | {preview:.1} | {message:.1} | {copy:.1} | {:.2} |",
        case.operators,
        case.rides,
        case.pairs.len(),
        ratio(times)
    );
}

pub fn print(cases: &[Case]) {
    let measured: Vec<_> = cases.iter().map(times).collect();
    println!("A preview beside the library's message and a plain copy of the board, medians of {ROUNDS} rounds:\n");
    println!("| Board | Pairs | preview µs | message µs | copy µs | preview / (message + copy) |");
    println!("|---|---:|---:|---:|---:|---:|");
    cases.iter().zip(&measured).for_each(|(case, times)| print_line(case, times));
    let goal = cases.iter().position(|case| case.operators == 200 && case.pairs.len() == 6000).unwrap();
    let (most, ratio) = (1.05, ratio(&measured[goal]));
    let reached = if ratio <= most { "reached" } else { "NOT reached" };
    println!("\n- at 6,000 pairs at most {most} × (message + copy): {ratio:.2}, {reached}\n");
}
