//! Random sequences of the calls, look-ups and crowd covers, own covers, and covers under lists of limits, on the library
//! and on the reference, for so many seconds, from a seed.

mod compared;
#[cfg(test)]
mod faults;
#[cfg(test)]
mod faulty;
mod numbers;
mod sequences;
#[cfg(test)]
mod stored;

use compared::{Compared, Totals};
use differential::Proved;
use numbers::Numbers;
use sequences::{covers, crowd, delivery, own, sequence, Size};
use std::time::{Duration, Instant, SystemTime, UNIX_EPOCH};

fn print_totals(totals: &Totals) {
    println!("calls compared: {}", totals.calls());
    println!("  build {}, query {}, peel {}", totals.builds, totals.queries, totals.peels);
    println!("  message {}, message list {} with {} messages", totals.messages, totals.lists, totals.listed_messages);
    println!(
        "  preview {}, its message then sent {}, its spare memory then the board {}",
        totals.previews, totals.sent, totals.exchanged
    );
    println!(
        "  look-up {}, crowd cover {}, an own cover for its limits then made {}, a query {}",
        totals.crowd.look_ups, totals.crowd.covers, totals.crowd.own_covered, totals.crowd.queried
    );
    println!(
        "  own cover {}, a peel from all ones then made {}, a query for its limits then made {}",
        totals.own.covers, totals.own.peeled, totals.own.queried
    );
    println!("  accepted on boards of 200 × 60: {}", totals.largest);
    println!("  peels settled {}, unsettled {}", totals.settled, totals.unsettled);
    println!(
        "  accepted with α = 0 alone {}, with β = 0 alone {}, with both 0 {}",
        totals.alpha_zero, totals.beta_zero, totals.both_zero
    );
    println!("  accepted queries, peels, own covers and crowd covers with somebody off or out {}", totals.absent);
    println!("  minimums of peels and own covers: {}", totals.own.minimums);
    println!("  minimums of crowd covers: {}", totals.crowd.minimums);
    println!("  messages taken, by kind: {:?}", totals.taken_kinds);
    println!("  answers by number: {:?}", totals.numbers);
    println!("  answers of previews: {:?}", totals.preview_numbers);
    println!("  answers of messages of lists: {:?}", totals.listed_numbers);
    println!("  answers of look-ups: {:?}", totals.crowd.look_up_numbers);
    println!("  answers of crowd covers: {:?}", totals.crowd.cover_numbers);
    let [valid, malformed, overlapping, gapped] = [0, 16, 17, 18].map(|number| totals.crowd.tables(number));
    println!(
        "  tables of bands by these: valid {valid}, malformed or asked for more than 20,000 guests {malformed}, \
         overlapping {overlapping}, gapped {gapped}"
    );
    println!("  answers of own covers: {:?}", totals.own.numbers);
    println!("message sets delivered in three orders: {}", totals.deliveries);
    println!("covers under a list of limits compared: {}", totals.covers.compared());
    println!(
        "  from pair arrays {}, over tables {}, which were filled {} times",
        totals.covers.from_pairs, totals.covers.over_tables, totals.covers.tables
    );
    println!("  on boards of 200 × 60: {}", totals.covers.largest);
    println!("  nodes dropped {}, kept {}", totals.covers.dropped, totals.covers.kept);
    println!("lent words compared: {}", totals.words);
    println!("differences: {}", totals.differences);
}

/// After each sequence or delivery covers are compared on so many boards, and crowd covers and own covers on so many others.
const COVER_BOARDS: usize = 4;
const CROWD_BOARDS: usize = 3;
const OWN_BOARDS: usize = 3;

/// The size of such a board: most of them are small.
fn cover_size(numbers: &mut Numbers) -> Size {
    match numbers.below(100) {
        0 => Size::Large,
        1..=15 => Size::Middle,
        _ => Size::Small,
    }
}

fn main() {
    let mut words = std::env::args().skip(1).map(|word| word.parse::<u64>().expect("a whole number"));
    let seconds = words.next().filter(|&seconds| seconds != 0).expect("SECONDS from 1 (differential/run --help)");
    let clock =
        || SystemTime::now().duration_since(UNIX_EPOCH).map_or(1, |time| time.as_nanos() as u64 % 1_000_000_000);
    let seed = words.next().unwrap_or_else(clock);
    println!("seed {seed}, {seconds} seconds");

    let mut numbers = Numbers::new(seed);
    let mut compared = Compared::new(Proved, seed);
    let (begin, mut told) = (Instant::now(), Instant::now());
    while begin.elapsed() < Duration::from_secs(seconds) && compared.totals.differences < 10 {
        match numbers.below(200) {
            0 => sequence(&mut compared, &mut numbers, Size::Large),
            1 => delivery(&mut compared, &mut numbers, Size::Large),
            2..=21 => sequence(&mut compared, &mut numbers, Size::Middle),
            22..=26 => delivery(&mut compared, &mut numbers, Size::Middle),
            27..=50 => delivery(&mut compared, &mut numbers, Size::Small),
            _ => sequence(&mut compared, &mut numbers, Size::Small),
        }
        for _ in 0..COVER_BOARDS {
            let size = cover_size(&mut numbers);
            covers(&mut compared, &mut numbers, size);
        }
        for _ in 0..CROWD_BOARDS {
            let size = cover_size(&mut numbers);
            crowd(&mut compared, &mut numbers, size);
        }
        for _ in 0..OWN_BOARDS {
            let size = cover_size(&mut numbers);
            own(&mut compared, &mut numbers, size);
        }
        if Duration::from_secs(10) <= told.elapsed() {
            let totals = &compared.totals;
            println!("{} s: {} calls, {} differences", begin.elapsed().as_secs(), totals.calls(), totals.differences);
            told = Instant::now();
        }
    }
    print_totals(&compared.totals);
    std::process::exit(if compared.totals.differences == 0 { 0 } else { 1 });
}
