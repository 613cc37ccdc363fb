//! Look-ups in tables of bands, valid and other ones, and crowd covers.

use super::{asked, cover_marks, damage, lent, limits, own, table, Size};
use crate::compared::{band_limits, Compared, Lent};
use crate::numbers::Numbers;
use differential::Library;
use reference::crowd::{Band, Bands, BANDS_MOST, GUESTS_MOST};
use reference::Head;

/// How many tables there are for a board.
const TABLES: usize = 2;

/// A band with limits for a board.
fn band(numbers: &mut Numbers, head: Head, first: u16, last: u16) -> Band {
    let (alpha, beta) = limits(numbers, head);
    Band { first, last, alpha, beta }
}

/// Bands that have every guest count once, in ascending order. They are cut at random places, now and then beside another
/// cut, the first or the last guest count, so that there are bands of one guest count.
fn cut(numbers: &mut Numbers, head: Head) -> Vec<Band> {
    let count = numbers.of(&[1, 1, 2, 3, 4, 5, 6, 7, 8, 8]);
    let mut firsts = vec![0];
    while firsts.len() < count {
        let first = match numbers.below(6) {
            0 => numbers.of(&firsts) + 1,
            1 => numbers.of(&[1, GUESTS_MOST]),
            _ => 1 + numbers.below(GUESTS_MOST as usize) as u16,
        };
        if first <= GUESTS_MOST && !firsts.contains(&first) {
            firsts.push(first);
        }
    }
    firsts.sort_unstable();
    let lasts = firsts[1..].iter().map(|first| first - 1).chain([GUESTS_MOST]);
    firsts.iter().zip(lasts).map(|(first, last)| band(numbers, head, *first, last)).collect()
}

/// Adds a band that equals another one or lies inside it, at one of its ends or anywhere. Of eight bands it takes the place
/// of one.
fn add(numbers: &mut Numbers, head: Head, bands: &mut Vec<Band>) {
    let place = numbers.below(bands.len());
    let Band { first, last, .. } = bands[place];
    let one = match numbers.below(5) {
        0 => bands[place],
        1 => band(numbers, head, first, last),
        2 => band(numbers, head, first, first),
        3 => band(numbers, head, last, last),
        _ => {
            let from = first + numbers.below((last - first) as usize + 1) as u16;
            let to = from + numbers.below((last - from) as usize + 1) as u16;
            band(numbers, head, from, to)
        }
    };
    if bands.len() < BANDS_MOST {
        bands.push(one);
    } else {
        bands[(place + 1) % BANDS_MOST] = one;
    }
}

/// Makes two bands touch at one guest count, or adds one.
fn overlap(numbers: &mut Numbers, head: Head, bands: &mut Vec<Band>) {
    let others = bands.len() - 1;
    match numbers.below(4) {
        0 if others > 0 => bands[numbers.below(others)].last += 1,
        1 if others > 0 => bands[1 + numbers.below(others)].first -= 1,
        _ => add(numbers, head, bands),
    }
}

/// Takes guest counts away from one end of a band, often one alone, or takes out the band; often the first or the last band.
fn gap(numbers: &mut Numbers, bands: &mut Vec<Band>) {
    let places = [0, bands.len() - 1, numbers.below(bands.len())];
    let place = numbers.of(&places);
    let others = (bands[place].last - bands[place].first) as usize;
    if others == 0 || bands.len() > 1 && numbers.one_in(5) {
        bands.remove(place);
        return;
    }
    let taken = if numbers.one_in(2) { 1 } else { 1 + numbers.below(others) as u16 };
    if numbers.one_in(2) {
        bands[place].first += taken;
    } else {
        bands[place].last -= taken;
    }
}

/// An overlap and a gap. Bands of which one is moved by one have 20,001 guest counts together still.
fn overlap_and_gap(numbers: &mut Numbers, head: Head, bands: &mut Vec<Band>) {
    if bands.len() > 1 && numbers.one_in(2) {
        let place = numbers.below(bands.len() - 1);
        bands[place].first += 1;
        bands[place].last += 1;
    } else {
        gap(numbers, bands);
        add(numbers, head, bands);
    }
}

/// A table of bands, in any order. Past the count are zeros, bands of the table, one for every guest count, or any words.
fn packed(numbers: &mut Numbers, mut bands: Vec<Band>) -> Bands {
    numbers.shuffle(&mut bands);
    let count = bands.len();
    let whole = Band { first: 0, last: GUESTS_MOST, alpha: 1, beta: 1 };
    while bands.len() < BANDS_MOST {
        let any = [(); 4].map(|_| numbers.word());
        bands.push(match numbers.below(4) {
            0 => Band::default(),
            1 => bands[numbers.below(count)],
            2 => whole,
            _ => Band { first: any[0], last: any[1], alpha: any[2], beta: any[3] },
        });
    }
    Bands { count: count as u16, bands: std::array::from_fn(|place| bands[place]) }
}

fn valid(numbers: &mut Numbers, head: Head) -> Bands {
    let bands = cut(numbers, head);
    packed(numbers, bands)
}

/// Changes a word of a table or its count, exchanges the ends of a band, or gives it guest counts above 20,000.
fn damage_bands(numbers: &mut Numbers, table: &mut Bands) {
    let count = table.count;
    let words = [0, 1, GUESTS_MOST - 1, GUESTS_MOST, GUESTS_MOST + 1, 65535, numbers.word()];
    let above = numbers.of(&[GUESTS_MOST + 1, 65535]);
    let band = &mut table.bands[numbers.below(count as usize)];
    match numbers.below(8) {
        0 => band.first = numbers.of(&words),
        1 => band.last = numbers.of(&words),
        2..=4 => table.count = numbers.of(&[0, 9, 255, 65535, count + 256, count + 1, count - 1]),
        5 => (band.first, band.last) = (band.last, band.first),
        6 => (band.first, band.last) = (numbers.of(&[band.first, above]), above),
        _ => table.bands.iter_mut().filter(|band| band.last == GUESTS_MOST).for_each(|band| band.last = above),
    }
}

/// A table: half of them valid, some with an overlap, a gap or both, some damaged.
fn any(numbers: &mut Numbers, head: Head) -> Bands {
    let mut bands = cut(numbers, head);
    let kind = numbers.below(16);
    match kind {
        8..=9 => overlap(numbers, head, &mut bands),
        10..=11 => gap(numbers, &mut bands),
        12 => overlap_and_gap(numbers, head, &mut bands),
        _ => {}
    }
    let mut table = packed(numbers, bands);
    if kind > 12 {
        damage_bands(numbers, &mut table);
    }
    table
}

/// A guest count: that of an end of a band or one beside it, 0, 20,000, one above that, or any.
fn guests(numbers: &mut Numbers, table: &Bands) -> u16 {
    let band = table.bands[numbers.below((table.count as usize).clamp(1, BANDS_MOST))];
    match numbers.below(11) {
        0..=1 => band.first,
        2..=3 => band.last,
        4 => band.first.saturating_sub(1),
        5 => band.last.saturating_add(1),
        6 => 0,
        7 => GUESTS_MOST,
        8 => numbers.of(&[GUESTS_MOST + 1, 65535]),
        _ => numbers.below(GUESTS_MOST as usize + 1) as u16,
    }
}

/// A board and some tables: a look-up and a crowd cover for each; some covers are given a damaged board.
pub fn crowd<B: Library>(compared: &mut Compared<B>, numbers: &mut Numbers, size: Size) {
    let (n, m) = size.numbers(numbers);
    let pairs = table(numbers, n, m);
    let board = lent(numbers, n, m, &pairs);
    for _ in 0..TABLES {
        let table = any(numbers, board.head);
        compared.crowd_limits(&table, guests(numbers, &table));
        let mut lent = asked(numbers, &board);
        if numbers.one_in(4) {
            damage(numbers, &mut lent);
        }
        cover(compared, numbers, &lent, &table);
    }
}

/// A crowd cover with any minimums.
fn cover<B: Library>(compared: &mut Compared<B>, numbers: &mut Numbers, lent: &Lent, table: &Bands) {
    let guests = guests(numbers, table);
    let minimums = own::minimums(numbers, lent.head, band_limits(table, guests).1);
    let mut marks = cover_marks(numbers, lent.head);
    compared.crowd_cover(lent, table, guests, &minimums, &mut marks);
}

/// The same for a table that is valid, on a board that isn't damaged.
pub fn one<B: Library>(compared: &mut Compared<B>, numbers: &mut Numbers, board: &Lent) {
    let table = valid(numbers, board.head);
    cover(compared, numbers, board, &table);
}

/// Crowd covers on a board whose index is its own: for any minimums an own cover with the same, refused or not, and for
/// minimums that are 0 or the band's beta a query for its limits.
pub fn queried<B: Library>(compared: &mut Compared<B>, numbers: &mut Numbers, board: &Lent) {
    for _ in 0..TABLES {
        let table = valid(numbers, board.head);
        let guests = guests(numbers, &table);
        let limits = compared.crowd_limits(&table, guests);
        if limits.code != 0 {
            continue;
        }
        let minimums = own::minimums(numbers, board.head, limits.beta);
        let mut covered = cover_marks(numbers, board.head);
        let mut owned = covered.clone();
        let counts = compared.crowd_cover(board, &table, guests, &minimums, &mut covered);
        let answer = compared.own_cover(board, &minimums, limits.alpha, limits.beta, &mut owned);
        compared.totals.crowd.own_covered += 1;
        compared.totals.same_as("crowd cover", "an own cover", (counts, &covered), (answer, &owned));

        let minimums = own::idle_minimums(numbers, board.head, limits.beta);
        let mut covered = cover_marks(numbers, board.head);
        let mut queried = covered.clone();
        let counts = compared.crowd_cover(board, &table, guests, &minimums, &mut covered);
        if counts.code == 0 {
            let answer = compared.query(board, limits.alpha, limits.beta, &mut queried);
            compared.totals.crowd.queried += 1;
            compared.totals.same_as("crowd cover", "a query", (counts, &covered), (answer, &queried));
        }
    }
}
