//! The functions of `libkernel.a`, over slices: the cover under a list of limits. benchmark/ has this file too.
//!
//! # Safety
//! They test nothing. There are at most 200 operators and 60 rides. The head's pairs are in range and strictly ascending,
//! and the pair arrays at least that long. `here` has a byte for each node, operators first, 1 if it is here and else 0.
//! There are a limit and a mark for each node at least. A table has 12000 bytes, all 0 when it is to be filled.

use board::Head;

/// The bytes of a table: by operator a row of 60 rides each, by ride a row of 200 operators each.
pub const TABLE: usize = 12_000;

/// The degrees of the operators and of the rides.
#[derive(Clone, Copy)]
#[repr(C)]
pub struct Degrees {
    pub operators: [u8; 200],
    pub rides: [u8; 60],
}

extern "C" {
    fn kernel_tables(
        head: Head,
        operators: *const u16,
        operators_length: usize,
        rides: *const u16,
        rides_length: usize,
        here: *const u8,
        here_length: usize,
        by_operator: *mut u8,
        by_operator_length: usize,
        by_ride: *mut u8,
        by_ride_length: usize,
    ) -> Degrees;

    fn kernel_cover(
        head: Head,
        by_operator: *const u8,
        by_operator_length: usize,
        by_ride: *const u8,
        by_ride_length: usize,
        degrees: Degrees,
        limits: *const u16,
        limits_length: usize,
        marks: *mut u16,
        marks_length: usize,
    );

    fn kernel_pair_cover(
        head: Head,
        operators: *const u16,
        operators_length: usize,
        rides: *const u16,
        rides_length: usize,
        here: *const u8,
        here_length: usize,
        limits: *const u16,
        limits_length: usize,
        marks: *mut u16,
        marks_length: usize,
    );
}

/// Fills both tables with the pairs whose nodes are both here, and gives the degrees in these pairs.
///
/// # Safety
/// As above.
pub unsafe fn tables(
    head: Head,
    operators: &[u16],
    rides: &[u16],
    here: &[u8],
    by_operator: &mut [u8],
    by_ride: &mut [u8],
) -> Degrees {
    kernel_tables(
        head,
        operators.as_ptr(),
        operators.len(),
        rides.as_ptr(),
        rides.len(),
        here.as_ptr(),
        here.len(),
        by_operator.as_mut_ptr(),
        by_operator.len(),
        by_ride.as_mut_ptr(),
        by_ride.len(),
    )
}

/// Leaves the cover under the limits in the marks, over filled tables and their degrees.
///
/// # Safety
/// As above.
pub unsafe fn cover(
    head: Head,
    by_operator: &[u8],
    by_ride: &[u8],
    degrees: Degrees,
    limits: &[u16],
    marks: &mut [u16],
) {
    kernel_cover(
        head,
        by_operator.as_ptr(),
        by_operator.len(),
        by_ride.as_ptr(),
        by_ride.len(),
        degrees,
        limits.as_ptr(),
        limits.len(),
        marks.as_mut_ptr(),
        marks.len(),
    )
}

/// Leaves the cover under the limits in the marks, from pair arrays.
///
/// # Safety
/// As above.
pub unsafe fn pair_cover(head: Head, operators: &[u16], rides: &[u16], here: &[u8], limits: &[u16], marks: &mut [u16]) {
    kernel_pair_cover(
        head,
        operators.as_ptr(),
        operators.len(),
        rides.as_ptr(),
        rides.len(),
        here.as_ptr(),
        here.len(),
        limits.as_ptr(),
        limits.len(),
        marks.as_mut_ptr(),
        marks.len(),
    )
}
