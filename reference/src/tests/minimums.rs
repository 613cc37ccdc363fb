//! Own minimums of rides: samples by hand, Definition 2.1 with a limit for each ride over every set, and covers beside
//! queries and peels.

use super::crowd::{self, three_bands};
use super::*;
use crate::crowd::crowd_cover;
use crate::crowd_samples::{Lent, BESIDE, LENT};
use crate::frames::{replay, write_end, Call, Part, Reference};
use crate::minimums::{COVERS, PEELS, SHORT};
use std::iter::repeat;

/// The answer of a cover with minimums, and the marks that it leaves: two more are lent than needed, and all come in as one
/// word.
fn covered(board: &Store, minimums: &[u16], (alpha, beta): (u16, u16), word: u16) -> (Counts, Vec<u16>) {
    let Vectors { operators, rides, presence, .. } = &board.parts;
    let mut marks = vec![word; board.head.nodes() + 2];
    let counts = own_cover(board.head, operators, rides, presence, minimums, alpha, beta, &mut marks);
    (counts, marks)
}

/// A list, and the same with words past the rides.
fn lists(minimums: &[u16]) -> [Vec<u16>; 4] {
    [&[][..], &[0, 0], &[1, 65_535], &[7; 60]].map(|past| [minimums, past].concat())
}

#[test]
fn covers_with_minimums() {
    for sample in COVERS {
        let mut board = Store::new(sample.operators, sample.rides, sample.pairs);
        assert_eq!(board.build(1), 0);
        board.parts.presence[..sample.presence.len()].copy_from_slice(sample.presence);
        for minimums in lists(sample.minimums) {
            // The marks that come in aren't read.
            for word in [0, 1, 7, 65_535] {
                let expected = shown(board.head, sample.marks, word);
                assert_eq!(covered(&board, &minimums, sample.limits, word), expected);
                assert_eq!(crowd::covered(&board, &three_bands(sample.limits), 99, &minimums, word), expected);
            }
            let mut marks = vec![1; sample.marks.len()];
            let peeled = board.peel_with(&minimums, &mut marks, sample.limits, 65_535);
            assert_eq!((peeled, &marks[..]), (Peeled { code: 0, settled: 1, steps: sample.steps() }, sample.marks));
        }
    }
}

#[test]
fn peels_with_minimums() {
    for &(words, minimums, marks, limits, steps, numbers, expected) in PEELS {
        for minimums in lists(&minimums) {
            let mut left = marks;
            let Peeled { code, settled, steps } = with_presence(&words).peel_with(&minimums, &mut left, limits, steps);
            assert_eq!(([code, settled, steps], left), (numbers, expected));
        }
    }
}

/// The number of a peel and of a cover with minimums, the marks all 7, and of a peel with the marks all 1. Refused, they
/// leave the marks. Every ride has a minimum: a crowd cover gives what the own cover does, but 16 to 18 where that isn't
/// refused.
fn numbers(head: Head, pairs: &[(u16, u16)], places: [usize; 4], minimums: usize) -> [u16; 3] {
    let lent = |words: Vec<u16>, places: usize| words.into_iter().chain(repeat(0)).take(places).collect::<Vec<u16>>();
    let (operators, rides): (Vec<u16>, Vec<u16>) = pairs.iter().copied().unzip();
    let (operators, rides) = (lent(operators, places[0]), lent(rides, places[1]));
    let (presence, minimums) = (vec![1; places[2]], vec![1; minimums]);
    let not_shown = |code: u16| (Counts { code, operators: 0, rides: 0 }, vec![7; places[3]]);
    let mut marks = vec![7; places[3]];
    let cover = own_cover(head, &operators, &rides, &presence, &minimums, 1, 1, &mut marks);
    let covered = (cover, marks);
    if cover.code != 0 {
        assert_eq!(covered, not_shown(cover.code));
    }
    for (bands, guests, beside) in BESIDE {
        let mut marks = vec![7; places[3]];
        let crowd = crowd_cover(head, &operators, &rides, &presence, &bands, guests, &minimums, &mut marks);
        let is_refused = cover.code == 0 && beside != 0;
        assert_eq!((crowd, marks), if is_refused { not_shown(beside) } else { covered.clone() });
    }
    let peels = [7, 1].map(|word| {
        let mut marks = vec![word; places[3]];
        let peeled = peel(head, &operators, &rides, &presence, &minimums, &mut marks, 1, 1, 65_535);
        if peeled.code != 0 {
            assert_eq!((peeled, marks), (Peeled { code: peeled.code, settled: 0, steps: 0 }, vec![word; places[3]]));
        }
        peeled.code
    });
    [peels[0], cover.code, peels[1]]
}

#[test]
fn short_minimums() {
    for &(head, places, code) in SHORT {
        let pairs = &PAIRS[..(head.pairs as usize).min(7)];
        let board = Store::new(head.operators, head.rides, pairs);
        let Parts { operators, rides, presence, .. } = board.parts.lengths();
        let twelve = if code == 0 { 12 } else { code };
        assert_eq!(numbers(head, pairs, [operators, rides, presence, head.nodes()], places), [twelve, code, code]);
    }
}

/// 1 to 5, each part long enough or too short: a list of minimums that is too short gets 3, after 1 and 2 and before 4, 5,
/// 12 and 16 to 18.
#[test]
fn numbers_beside_short_minimums() {
    for Lent { head, pairs, places, number } in LENT {
        for (minimums, is_short) in [(3, false), (61, false), (2, true), (0, true)] {
            let code = if is_short && ![1, 2].contains(number) { 3 } else { *number };
            let twelve = if code == 0 { 12 } else { code };
            assert_eq!(numbers(*head, pairs, *places, minimums), [twelve, code, code]);
        }
    }
}

/// Every list of so many words, each one of these.
pub(super) fn words_of(count: usize, these: &[u16]) -> Vec<Vec<u16>> {
    (0..count).fold(vec![vec![]], |lists, _| {
        lists.iter().flat_map(|list| these.iter().map(move |word| [&list[..], &[*word]].concat())).collect()
    })
}

/// On every small table the largest set from all ones is what an own cover marks, and on the smaller of them, as a look-up
/// takes its time, what a crowd cover marks.
#[test]
fn cover_is_the_largest_with_minimums() {
    for (n, m, these) in [
        (0, 0, &[0, 1][..]),
        (0, 2, &[0, 1, 65_535]),
        (2, 0, &[0, 1]),
        (1, 1, &[0, 1, 2, 65_535]),
        (2, 2, &[0, 1, 2, 3]),
        (1, 3, &[0, 1, 2]),
        (3, 1, &[0, 1, 2, 3, 4]),
        (2, 3, &[0, 1, 2]),
        (3, 2, &[0, 1, 2, 3]),
    ] {
        let absences = if n + m < 5 { vec![0, 1, 1 << n, (1 << (n + m)) - 1] } else { vec![0, 1 << 1 | 1 << n] };
        for board in boards(n, m, &absences) {
            for ((alpha, beta), minimums) in (0..=m as u16 + 1)
                .flat_map(|alpha| [0, 1, n as u16].map(|beta| (alpha, beta)))
                .flat_map(|limits| words_of(m, these).into_iter().map(move |minimums| (limits, minimums)))
            {
                let expected = shown(board.0.head, &largest(&board, &minimums, (alpha, beta)), 7);
                assert_eq!(covered(&board.0, &minimums, (alpha, beta), 7), expected);
                if n + m < 5 {
                    let bands = three_bands((alpha, beta));
                    assert_eq!(crowd::covered(&board.0, &bands, 100, &minimums, 7), expected);
                }
            }
        }
    }
}

/// On every table of a few small sizes, with everybody on and in and with some off or out: minimums that are all 0 give
/// what a query (alpha, beta) marks by the index, and all equal to one above 0 what a query (alpha, minimum) marks, whatever
/// beta is.
#[test]
fn equal_minimums() {
    for (n, m) in [(0, 0), (0, 2), (2, 0), (2, 2), (1, 3), (3, 2), (2, 3)] {
        for (board, _) in boards(n, m, &[0, 1, 1 << n, 1 << 1 | 1 << n]) {
            for (alpha, beta) in (0..m as u16 + 2).flat_map(|alpha| (0..n as u16 + 2).map(move |beta| (alpha, beta))) {
                for minimum in 0..n as u16 + 2 {
                    let query = board.query(alpha, if minimum == 0 { beta } else { minimum });
                    let (counts, marks) = covered(&board, &vec![minimum; m], (alpha, beta), 7);
                    assert_eq!((counts, marks[..n + m].to_vec()), query);
                    let mut left = vec![1; n + m];
                    assert_eq!(board.peel_with(&vec![minimum; m], &mut left, (alpha, beta), 65_535).settled, 1);
                    assert_eq!(left, query.1);
                }
            }
        }
    }
}

/// On larger boards at random: an own cover marks what a peel from all ones leaves, and what is left under a list of limits
/// in which those who are off or out have one that nobody meets. A crowd cover for the same limits gives the same.
#[test]
fn covers_beside_peels_from_all_ones() {
    let mut state = 27u32;
    let mut below = |n: u32| {
        state = state.wrapping_mul(1_664_525).wrapping_add(1_013_904_223);
        (state >> 16) % n
    };
    // How often somebody is in, and somebody out, who wouldn't be without minimums.
    let mut differ = [0; 2];
    for _ in 0..2_000 {
        let (n, m) = (1 + below(9) as u16, 1 + below(8) as u16);
        let listed = 2 + below(4);
        let all = (0..n).flat_map(|o| (0..m).map(move |r| (o, r)));
        let pairs: Vec<(u16, u16)> = all.filter(|_| below(6) < listed).collect();
        let mut board = Store::new(n, m, &pairs);
        assert_eq!(board.build(1), 0);
        let head = board.head;
        (0..head.nodes()).filter(|_| below(8) == 0).for_each(|node| board.parts.presence[node] = 7);
        let limits = (below(4) as u16, below(n as u32 + 2) as u16);
        let minimums: Vec<u16> = (0..m).map(|_| if below(2) == 0 { 0 } else { below(n as u32 + 1) as u16 }).collect();
        let (counts, marks) = covered(&board, &minimums, limits, 7);
        assert_eq!(crowd::covered(&board, &three_bands(limits), 99, &minimums, 7), (counts, marks.clone()));
        let mut left = vec![1; head.nodes()];
        let peeled = board.peel_with(&minimums, &mut left, limits, 65_535);
        assert_eq!((counts, marks), shown(head, &left, 7));
        assert_eq!(
            peeled,
            Peeled { code: 0, settled: 1, steps: head.nodes() as u16 - counts.operators - counts.rides }
        );
        let here: Vec<u8> = board.parts.presence.iter().map(|word| (*word == PRESENT) as u8).collect();
        let own = |r: usize| if minimums[r] == 0 { limits.1 } else { minimums[r] };
        let limit = |node: usize| if node < n as usize { limits.0 } else { own(node - n as usize) };
        let under: Vec<u16> =
            (0..head.nodes()).map(|node| if here[node] == 1 { limit(node) } else { 65_535 }).collect();
        let Vectors { operators, rides, .. } = &board.parts;
        assert_eq!(cover_under_limits(head, operators, rides, &here, &under), left);
        let without = covered(&board, &vec![0; m as usize], limits, 7).1;
        differ[0] += left.iter().zip(&without).any(|(own, without)| own > without) as usize;
        differ[1] += left.iter().zip(&without).any(|(own, without)| own < without) as usize;
    }
    assert!(differ.iter().all(|times| *times > 200), "{differ:?}");
}

/// The checksum of a peel and of a cover with minimums is that of operators, rides, presence, minimums and marks.
#[test]
fn lines_of_a_stream() {
    let head = Head { operators: 1, rides: 1, pairs: 1 };
    let (operators, rides) = (Part::given(2, &[0, 3], 0), Part::filled(1, 0));
    let (presence, marks) = (Part::filled(2, 1), Part::given(3, &[1, 1, 5], 0));
    let lent = |minimum| Part::given(2, &[minimum, 6], 0);
    let cover = |minimums| Call::OwnCover {
        head,
        alpha: 1,
        beta: 0,
        operators: operators.clone(),
        rides: rides.clone(),
        presence: presence.clone(),
        minimums,
        marks: marks.clone(),
    };
    let peel = |minimums| Call::Peel {
        head,
        alpha: 1,
        beta: 0,
        steps: 1,
        operators: operators.clone(),
        rides: rides.clone(),
        presence: presence.clone(),
        minimums,
        marks: marks.clone(),
    };
    let mut stream = Vec::new();
    for call in
        [cover(lent(1)), cover(lent(2)), cover(Part::kept(0)), peel(lent(1)), peel(lent(2)), peel(Part::kept(2))]
    {
        call.write(&mut stream);
    }
    write_end(&mut stream);
    let covers = "0 1 1 1719058002\n0 0 0 735889344\n3 0 0 927099214\n";
    let peels = "0 1 0 1719058002\n0 0 1 744150851\n0 0 1 744150851\n";
    assert_eq!(replay(&stream, &mut Reference), [covers, peels].concat());
}
