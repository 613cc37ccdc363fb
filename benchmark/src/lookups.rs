//! A look-up beside a plain Rust loop over bands that were checked, and beside that loop alone.

use crate::{measure, median, print_ratios, ratio, Numbers, ROUNDS};
use board::exported::{board_crowd_limits, CrowdLimits};
use board::{Band, Bands, BANDS_MOST, GUESTS_MOST};
use std::hint::black_box;

/// A program that is called as the library is, with the table by value.
type LookUp = unsafe extern "C" fn(Bands, u16) -> CrowdLimits;

fn refused(code: u16) -> CrowdLimits {
    CrowdLimits { code, alpha: 0, beta: 0 }
}

/// The limits of the first band that a guest count falls in.
fn find(bands: &[Band], guests: u16) -> CrowdLimits {
    for band in bands {
        if band.first <= guests && guests <= band.last {
            return CrowdLimits { code: 0, alpha: band.alpha, beta: band.beta };
        }
    }
    refused(18)
}

#[inline(never)]
extern "C" fn loop_alone(table: Bands, guests: u16) -> CrowdLimits {
    find(&table.bands[..table.count as usize], guests)
}

/// The checks 16, 17 and 18, and the loop.
#[inline(never)]
extern "C" fn checked_loop(table: Bands, guests: u16) -> CrowdLimits {
    let count = table.count as usize;
    if count == 0 || BANDS_MOST < count || GUESTS_MOST < guests {
        return refused(16);
    }
    let bands = &table.bands[..count];
    for band in bands {
        if band.last < band.first || GUESTS_MOST < band.last {
            return refused(16);
        }
    }
    for (place, band) in bands.iter().enumerate() {
        for earlier in &bands[..place] {
            if band.first <= earlier.last && earlier.first <= band.last {
                return refused(17);
            }
        }
    }
    let mut widths = 0;
    for band in bands {
        widths += (band.last - band.first) as u32 + 1;
    }
    if widths <= GUESTS_MOST as u32 {
        return refused(18);
    }
    find(bands, guests)
}

/// The programs in turn: the library, the loop over checked bands, the loop alone.
const PROGRAMS: [LookUp; 3] = [board_crowd_limits, checked_loop, loop_alone];

/// Bands of about equal width in shuffled order, each with limits of its own.
fn shuffled(count: u16, numbers: &mut Numbers) -> Bands {
    let first = |i: u16| ((GUESTS_MOST as u32 + 1) * i as u32 / count as u32) as u16;
    let band = |i: u16| Band { first: first(i), last: first(i + 1) - 1, alpha: i + 1, beta: i + 101 };
    let mut bands: Vec<Band> = (0..count).map(band).collect();
    for place in (1..bands.len()).rev() {
        bands.swap(place, numbers.below(place + 1));
    }
    Bands::new(&bands)
}

/// The library and the loop over checked bands refuse the same tables and guest counts, with the same numbers.
fn compare_refusals() {
    let band = |first, last| Band { first, last, alpha: 1, beta: 1 };
    let all = band(0, GUESTS_MOST);
    let faulty: [(&[Band], u16, u16); 8] = [
        (&[], 0, 16),
        (&[all; 9], 0, 16),
        (&[all, band(1, 0)], 0, 16),
        (&[all, band(1, 20_001)], 0, 16),
        (&[all], 20_001, 16),
        (&[all, band(20_000, 20_000)], 0, 17),
        (&[band(0, 9), band(9, 20)], 0, 17),
        (&[band(1, 9), band(10, 20_000)], 1, 18),
    ];
    for (bands, guests, code) in faulty {
        for look_up in [board_crowd_limits, checked_loop] as [LookUp; 2] {
            assert!(unsafe { look_up(Bands::new(bands), guests) } == refused(code));
        }
    }
}

/// The nanoseconds of one look-up in a table of so many bands, of each program in each round.
fn times(count: u16) -> [Vec<f64>; 3] {
    eprintln!("measures look-ups in a table of {count}");
    let mut numbers = Numbers(0x9E37_79B9_7F4A_7C15 ^ count as u64);
    let table = shuffled(count, &mut numbers);
    // As many that the microseconds for all of them are the nanoseconds for one.
    let asked: Vec<u16> = (0..1000).map(|_| numbers.below(GUESTS_MOST as usize + 1) as u16).collect();
    for &guests in &asked {
        let [library, checked, alone] = PROGRAMS.map(|look_up| unsafe { look_up(table, guests) });
        assert!(library.code == 0 && library == checked && library == alone);
    }
    // Through a pointer that the compiler doesn't know, it can fit no program to this caller.
    let ask = |look_up: LookUp| {
        let (look_up, table) = (black_box(look_up), black_box(&table));
        let betas = asked.iter().map(|&guests| unsafe { look_up(*table, guests) }.beta as u64);
        black_box(betas.sum::<u64>());
    };
    let [library, checked, alone] = PROGRAMS;
    measure(10, &mut [&mut || ask(library), &mut || ask(checked), &mut || ask(alone)])
}

pub fn print() {
    let most = 1.2;
    compare_refusals();
    println!(
        "A look-up beside a plain Rust loop over checked bands, nanoseconds for one, medians of {ROUNDS} rounds:\n"
    );
    println!("| Bands | library ns | Rust ns | loop alone ns | library / Rust |");
    println!("|---:|---:|---:|---:|---:|");
    let ratios = [1, 3, 8].map(|count| {
        let times = times(count);
        let ratio = ratio(&times[0], &times[1]);
        let [library, checked, alone] = times.map(median);
        println!("| {count} | {library:.1} | {checked:.1} | {alone:.1} | {ratio:.2} |");
        ratio
    });
    println!();
    print_ratios(&ratios, most, &format!("at 1, 3 and 8 bands at most {most} × the Rust program that checks"));
    println!();
}
