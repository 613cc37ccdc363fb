//! Crowd tables, whole and damaged, and look-ups in them.

use crate::draft::some_limits;
use crate::random::Random;
use reference::crowd::{Band, Bands, BANDS_MOST, GUESTS_MOST};
use reference::frames::Call;
use reference::samples::BUILT;

/// Bands that have each guest count once, in any order, with the limits that a function gives. Past the count stand words
/// that are not read.
pub fn some_bands(random: &mut Random, mut limits: impl FnMut(&mut Random) -> (u16, u16)) -> Bands {
    let count = random.pick(&[1, 2, 3, 4, 5, 6, 7, 8, 8]);
    let mut firsts = vec![0];
    while firsts.len() < count {
        let first = match random.below(4) {
            0 => random.pick(&[1, 2, 255, 256, 257, GUESTS_MOST - 1, GUESTS_MOST]),
            1 => random.pick(&firsts) + 1,
            _ => 1 + random.below(GUESTS_MOST as usize) as u16,
        };
        if first <= GUESTS_MOST && !firsts.contains(&first) {
            firsts.push(first);
        }
    }
    firsts.sort_unstable();
    let lasts = firsts.iter().skip(1).map(|first| first - 1).chain([GUESTS_MOST]);
    let mut read: Vec<(u16, u16)> = firsts.iter().copied().zip(lasts).collect();
    random.shuffle(&mut read);
    let bands = std::array::from_fn(|place| {
        let (first, last) = read.get(place).copied().unwrap_or_else(|| (random.word(), random.word()));
        let (alpha, beta) = limits(random);
        Band { first, last, alpha, beta }
    });
    Bands { count: count as u16, bands }
}

/// A guest count for a table that isn't damaged: one of its edges, 0, 20,000 or any.
pub fn some_guests(random: &mut Random, bands: &Bands) -> u16 {
    let band = random.pick(&bands.bands[..bands.count as usize]);
    match random.below(6) {
        0..=1 => band.first,
        2..=3 => band.last,
        4 => random.pick(&[0, GUESTS_MOST]),
        _ => random.below(GUESTS_MOST as usize + 1) as u16,
    }
}

/// A band grows, or is there twice, in part.
fn overlap(random: &mut Random, bands: &mut Bands) {
    let (count, by) = (bands.count as usize, random.pick(&[1, 1, 2, 300]));
    let place = random.below(count);
    let Band { first, last, alpha, beta } = bands.bands[place];
    match random.below(3) {
        0 => bands.bands[place].last = last.saturating_add(by).min(GUESTS_MOST),
        1 => bands.bands[place].first = first.saturating_sub(by),
        _ if count < BANDS_MOST => {
            bands.bands[count] = Band { first: first.max(last.saturating_sub(by)), last, alpha: beta, beta: alpha };
            bands.count += 1;
        }
        _ => {}
    }
}

/// A band loses its first or its last guest count, or stands past the count.
fn gap(random: &mut Random, bands: &mut Bands) {
    let count = bands.count as usize;
    let band = &mut bands.bands[random.below(count)];
    match random.below(3) {
        0 if band.first < band.last => band.first += 1,
        1 if band.first < band.last => band.last -= 1,
        _ if count > 1 => bands.count -= 1,
        _ => {}
    }
}

/// Does one of the damages that 16 speaks of. Of a band of one guest count the order stays.
fn malform(random: &mut Random, bands: &mut Bands, guests: &mut u16) {
    let place = random.below(bands.count as usize);
    let Band { first, last, .. } = &mut bands.bands[place];
    let above = random.pick(&[20_001, 20_001, 20_002, 32_768, 65_535]);
    match random.below(5) {
        0 => bands.count = random.pick(&[0, 9, 10, 255, 256, 257, 264, 65_535]),
        1 => std::mem::swap(first, last),
        2 => *last = above,
        3 => *first = above,
        _ => *guests = above,
    }
}

/// Another word in place of the count, of a guest count of a band or of the one asked for.
fn change_word(random: &mut Random, bands: &mut Bands, guests: &mut u16) {
    let word = if random.one_in(2) { random.word() } else { random.below(GUESTS_MOST as usize + 2) as u16 };
    let place = random.below(bands.count as usize);
    match random.below(5) {
        0 => bands.count = random.pick(&[word, word % 16]),
        1..=2 => bands.bands[place].first = word,
        3 => bands.bands[place].last = word,
        _ => *guests = word,
    }
}

/// A table and a guest count, half of them damaged, at times twice.
pub fn some_crowd(random: &mut Random, limits: impl FnMut(&mut Random) -> (u16, u16)) -> (Bands, u16) {
    let mut bands = some_bands(random, limits);
    let mut guests = some_guests(random, &bands);
    for _ in 0..random.pick(&[0, 0, 0, 0, 1, 1, 1, 2]) {
        // No more is done where the count is damaged.
        if !(1..=BANDS_MOST).contains(&(bands.count as usize)) {
            break;
        }
        match random.below(8) {
            0..=2 => overlap(random, &mut bands),
            3..=5 => gap(random, &mut bands),
            6 => malform(random, &mut bands, &mut guests),
            _ => change_word(random, &mut bands, &mut guests),
        }
    }
    (bands, guests)
}

pub fn crowd_limits_case(random: &mut Random) -> Call {
    let (bands, guests) = some_crowd(random, |random| (random.word(), random.word()));
    Call::CrowdLimits { guests, bands }
}

/// A table, and a guest count whose band has these limits.
pub fn some_crowd_for(random: &mut Random, limits: (u16, u16)) -> (Bands, u16) {
    let mut bands = some_bands(random, |random| some_limits(random, BUILT));
    let guests = some_guests(random, &bands);
    let band = bands.bands.iter_mut().find(|band| band.first <= guests && guests <= band.last).unwrap();
    (band.alpha, band.beta) = limits;
    (bands, guests)
}
