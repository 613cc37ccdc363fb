//! What a call needs at 200 × 60: its deepest stack, and the fewest places of each part that it accepts.

use crate::crowds::{self, GUESTS};
use crate::lent::Lent;
use crate::{limits, stack, Case, START};
use board::{Board, Clearances, Head, Memory, Message, Refusal};

/// A message of each of the kinds 3 to 6, off and out before on and in.
fn leaving_and_coming(stamp: u32) -> [Message; 4] {
    let (off, out) = (Message::operator_off(199, stamp), Message::ride_out(59, stamp));
    [off, out, Message::operator_on(199, stamp + 1), Message::ride_in(59, stamp + 1)]
}

/// The deepest stack of each call, over boards with few and many pairs.
fn deepest() -> [usize; 9] {
    let mut deepest = [0; 9];
    let (mut memory, mut other) = (Box::new(Memory::new()), Box::new(Memory::new()));
    let mut spare = Box::new(Memory::new());
    for pairs in [1, 3000, 6000, 12000] {
        let case = Case::new(200, 60, pairs, 24);
        let head = Head { operators: 200, rides: 60, pairs: pairs as u16 };
        let parts = other.parts();
        for (place, pair) in case.pairs.iter().enumerate() {
            (parts.operators[place], parts.rides[place]) = *pair;
        }
        let built = stack::deepest(|| assert!(board::build(head, &mut other.parts(), START).is_ok()));
        let mut board = Board::build(memory.parts(), 200, 60, &case.pairs, START).unwrap();
        let (alpha, beta) = limits(&case, &board);
        let (mut marks, mut answers) = ([1; 260], [1; 16]);
        let minimums = [beta; 60];
        let peeled = stack::deepest(|| assert!(board.peel(&minimums, &mut marks, alpha, beta, u16::MAX).is_ok()));
        let limits = [(alpha, beta), (0, 0), (61, 0)];
        let own =
            |(alpha, beta)| stack::deepest(|| assert!(board.own_cover(&minimums, alpha, beta, &mut marks).is_ok()));
        let owned = limits.map(own).into_iter().max().unwrap();
        let query = |(alpha, beta)| stack::deepest(|| assert!(board.query(alpha, beta, &mut marks).is_ok()));
        let queried = limits.map(query).into_iter().max().unwrap();
        let bands = limits.map(crowds::bands);
        let look_up = |bands| stack::deepest(|| assert!(board::crowd_limits(bands, GUESTS).is_ok()));
        let looked_up = bands.map(look_up).into_iter().max().unwrap();
        let cover = |bands| stack::deepest(|| assert!(board.crowd_cover(bands, GUESTS, &minimums, &mut marks).is_ok()));
        let covered = bands.map(cover).into_iter().max().unwrap();
        let (sent, list) = case.messages.split_at(12);
        let (sent, list) = ([sent, &leaving_and_coming(1)].concat(), [list, &leaving_and_coming(3)].concat());
        let previewed = sent
            .iter()
            .map(|&one| stack::deepest(|| assert!(board.preview(one, spare.parts()).is_ok())))
            .max()
            .unwrap();
        let taken = sent.iter().map(|&one| stack::deepest(|| assert!(board.message(one).is_ok()))).max().unwrap();
        let listed = stack::deepest(|| assert!(board.messages(&list, &mut answers).is_ok()));
        assert!(answers == [0; 16]);
        let calls = [built, queried, peeled, owned, looked_up, covered, taken, listed, previewed];
        for (most, now) in deepest.iter_mut().zip(calls) {
            *most = now.max(*most);
        }
    }
    deepest
}

const MOST: usize = 20_000;

/// The fewest places of each part that a call accepts, where the others are long.
fn fewest<const N: usize>(mut call: impl FnMut([usize; N]) -> Result<(), Refusal>) -> [usize; N] {
    std::array::from_fn(|part| {
        let (mut refused, mut accepted) = (None, MOST);
        while refused.map_or(0, |places| places + 1) < accepted {
            let places = (refused.map_or(0, |places| places + 1) + accepted) / 2;
            let mut lengths = [MOST; N];
            lengths[part] = places;
            match call(lengths) {
                Err(Refusal::PartShort) => refused = Some(places),
                _ => accepted = places,
            }
        }
        accepted
    })
}

/// The first places of what a peel or a cover reads.
fn clearances(lent: &Lent, [operators, rides, presence]: [usize; 3]) -> Clearances<'_> {
    Clearances {
        operators: &lent.operators[..operators],
        rides: &lent.rides[..rides],
        presence: &lent.presence[..presence],
    }
}

/// The bytes of a board's parts of these lengths.
fn board_bytes(lengths: &[usize]) -> usize {
    lengths.iter().zip([2, 2, 4, 2, 2, 4, 2, 2]).map(|(places, bytes)| places * bytes).sum()
}

/// The bytes that each call must be lent, and what they are.
fn lent() -> [(String, &'static str); 9] {
    let case = Case::new(200, 60, 6000, 12);
    let one = case.messages[0];
    let (mut head, mut spare_head) = (Head { operators: 200, rides: 60, pairs: 6000 }, Head::default());
    let (mut long, mut spare) = (Lent::new([MOST; 8]), Lent::new([MOST; 8]));
    let (minimums, mut marks, mut answers) = (vec![0; MOST], vec![0; MOST], vec![0; MOST]);
    for (place, pair) in case.pairs.iter().enumerate() {
        (long.operators[place], long.rides[place]) = *pair;
    }
    let built = fewest(|lengths| board::build(head, &mut long.first(lengths), START));
    let queried = fewest(|[i, p, k]| {
        board::query(head, &long.index[..i], &long.presence[..p], 1, 1, &mut marks[..k]).map(|_| ())
    });
    let peeled = fewest(|[o, r, p, m, k]| {
        let clearances = clearances(&long, [o, r, p]);
        board::peel(head, clearances, &minimums[..m], &mut marks[..k], 1, 1, 0).map(|_| ())
    });
    let owned = fewest(|[o, r, p, m, k]| {
        let clearances = clearances(&long, [o, r, p]);
        board::own_cover(head, clearances, &minimums[..m], 1, 1, &mut marks[..k]).map(|_| ())
    });
    let bands = crowds::bands((1, 1));
    let covered = fewest(|[o, r, p, m, k]| {
        let clearances = clearances(&long, [o, r, p]);
        board::crowd_cover(head, clearances, bands, GUESTS, &minimums[..m], &mut marks[..k]).map(|_| ())
    });
    let taken = fewest(|lengths| board::message(&mut head, &mut long.first(lengths), one).map(|_| ()));
    let listed = fewest(|[o, r, s, v, i, ps, pv, p, a]| {
        let parts = &mut long.first([o, r, s, v, i, ps, pv, p]);
        board::messages(&mut head, parts, &case.messages, &mut answers[..a]).map(|_| ())
    });
    let previewed = fewest(|lengths: [usize; 16]| {
        let [board, spare_lengths] = [0, 8].map(|first| std::array::from_fn(|part| lengths[first + part]));
        let spare = &mut spare.first(spare_lengths);
        board::preview(head, long.first(board).words(), one, &mut spare_head, spare).map(|_| ())
    });
    let (listed, answers) = listed.split_at(8);
    assert!(answers == [case.messages.len()]);
    let (read, written) = previewed.split_at(8);
    let head_bytes = size_of::<Head>();
    let each = size_of::<board::Message>() + size_of::<u16>();
    let words = |places: &[usize]| 2 * places.iter().sum::<usize>();
    [
        (format!("{}", board_bytes(&built)), "pair arrays, stamps, revisions, index, presence parts"),
        (format!("{}", words(&queried)), "index, presence words, marks"),
        (format!("{}", words(&peeled)), "pair arrays, presence words, minimums, marks"),
        (format!("{}", words(&owned)), "pair arrays, presence words, minimums, marks"),
        ("0".to_string(), "nothing"),
        (format!("{}", words(&covered)), "pair arrays, presence words, minimums, marks"),
        (
            format!("{}", head_bytes + board_bytes(&taken)),
            "head, pair arrays, stamps, revisions, index, presence parts",
        ),
        (
            format!("{} + {each} for each message", head_bytes + board_bytes(listed)),
            "as message, the messages and their answers",
        ),
        (
            format!("{}", board_bytes(read) + head_bytes + board_bytes(written)),
            "as build; the same again and a head as spare memory",
        ),
    ]
}

const STACK_MOST: usize = 32 * 1024;

pub fn print() {
    println!("| Call | Deepest stack, bytes | Lent, bytes | What is lent |");
    println!("|---|---:|---:|---|");
    let names = ["build", "query", "peel", "own cover", "look-up", "crowd cover", "message", "message list", "preview"];
    let deepest = deepest();
    for ((name, deep), (bytes, what)) in names.iter().zip(deepest).zip(lent()) {
        println!("| {name} | {deep} | {bytes} | {what} |");
    }
    let most = deepest.into_iter().max().unwrap();
    let reached = if most <= STACK_MOST { "reached" } else { "NOT reached" };
    println!("\n- stack at most {STACK_MOST} bytes: {most}, {reached}");
}
