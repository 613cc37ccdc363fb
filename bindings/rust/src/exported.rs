//! The library's functions as `include/board.h` declares them, for tests of the library itself: users want
//! [`Board`](crate::Board), or the calls of this package over slices. Nothing checks these declarations against the
//! library's source.
//!
//! # Safety
//! `docs/INTERFACE.md` lists under "Memory" what a call cannot check and its caller must see to.

use crate::calls::{Bands, Head, Message};

/// What a query, an own cover or a crowd cover answers. Beside a refusal the counts are 0.
#[derive(Clone, Copy, Debug, PartialEq, Eq)]
#[repr(C)]
pub struct Counts {
    /// Document 01's number.
    pub code: u16,
    /// Operators marked.
    pub operators: u16,
    /// Rides marked.
    pub rides: u16,
}

/// What a peel answers. Beside a refusal the others are 0.
#[derive(Clone, Copy, Debug, PartialEq, Eq)]
#[repr(C)]
pub struct Peeled {
    /// Document 01's number.
    pub code: u16,
    /// 1 settled, 0 unsettled.
    pub settled: u16,
    /// Steps taken.
    pub steps: u16,
}

/// What a look-up answers. Beside a refusal the limits are 0.
#[derive(Clone, Copy, Debug, PartialEq, Eq)]
#[repr(C)]
pub struct CrowdLimits {
    /// Document 01's number.
    pub code: u16,
    /// The band's limit for operators.
    pub alpha: u16,
    /// The band's limit for rides.
    pub beta: u16,
}

/// What a message or a preview answers. Beside a refusal the count is 0.
#[derive(Clone, Copy, Debug, PartialEq, Eq)]
#[repr(C)]
pub struct Answer {
    /// Document 01's number.
    pub code: u16,
    /// Index words that differ before and after.
    pub differ: u16,
}

extern "C" {
    /// Build; [`build`](crate::build) over slices.
    pub fn board_build(
        head: Head,
        operators: *mut u16,
        operators_length: usize,
        rides: *mut u16,
        rides_length: usize,
        start: u32,
        stamps: *mut u32,
        stamps_length: usize,
        revisions: *mut u16,
        revisions_length: usize,
        index: *mut u16,
        index_length: usize,
        presence_stamps: *mut u32,
        presence_stamps_length: usize,
        presence_revisions: *mut u16,
        presence_revisions_length: usize,
        presence: *mut u16,
        presence_length: usize,
    ) -> u16;

    /// Query; [`query`](crate::query) over slices.
    pub fn board_query(
        head: Head,
        index: *const u16,
        index_length: usize,
        presence: *const u16,
        presence_length: usize,
        alpha: u16,
        beta: u16,
        marks: *mut u16,
        marks_length: usize,
    ) -> Counts;

    /// Peel; [`peel`](crate::peel) over slices.
    pub fn board_peel(
        head: Head,
        operators: *const u16,
        operators_length: usize,
        rides: *const u16,
        rides_length: usize,
        presence: *const u16,
        presence_length: usize,
        minimums: *const u16,
        minimums_length: usize,
        marks: *mut u16,
        marks_length: usize,
        alpha: u16,
        beta: u16,
        steps: u16,
    ) -> Peeled;

    /// Own cover; [`own_cover`](crate::own_cover) over slices.
    pub fn board_own_cover(
        head: Head,
        operators: *const u16,
        operators_length: usize,
        rides: *const u16,
        rides_length: usize,
        presence: *const u16,
        presence_length: usize,
        minimums: *const u16,
        minimums_length: usize,
        alpha: u16,
        beta: u16,
        marks: *mut u16,
        marks_length: usize,
    ) -> Counts;

    /// Look-up; [`crowd_limits`](crate::crowd_limits) with a result.
    pub fn board_crowd_limits(bands: Bands, guests: u16) -> CrowdLimits;

    /// Crowd cover; [`crowd_cover`](crate::crowd_cover) over slices.
    pub fn board_crowd_cover(
        head: Head,
        operators: *const u16,
        operators_length: usize,
        rides: *const u16,
        rides_length: usize,
        presence: *const u16,
        presence_length: usize,
        bands: Bands,
        guests: u16,
        minimums: *const u16,
        minimums_length: usize,
        marks: *mut u16,
        marks_length: usize,
    ) -> Counts;

    /// Message; [`message`](crate::message) over slices.
    pub fn board_message(
        head: *mut Head,
        operators: *mut u16,
        operators_length: usize,
        rides: *mut u16,
        rides_length: usize,
        stamps: *mut u32,
        stamps_length: usize,
        revisions: *mut u16,
        revisions_length: usize,
        index: *mut u16,
        index_length: usize,
        presence_stamps: *mut u32,
        presence_stamps_length: usize,
        presence_revisions: *mut u16,
        presence_revisions_length: usize,
        presence: *mut u16,
        presence_length: usize,
        message: Message,
    ) -> Answer;

    /// Message list; [`messages`](crate::messages) over slices.
    pub fn board_messages(
        head: *mut Head,
        operators: *mut u16,
        operators_length: usize,
        rides: *mut u16,
        rides_length: usize,
        stamps: *mut u32,
        stamps_length: usize,
        revisions: *mut u16,
        revisions_length: usize,
        index: *mut u16,
        index_length: usize,
        presence_stamps: *mut u32,
        presence_stamps_length: usize,
        presence_revisions: *mut u16,
        presence_revisions_length: usize,
        presence: *mut u16,
        presence_length: usize,
        messages: *const Message,
        messages_length: usize,
        answers: *mut u16,
        answers_length: usize,
    ) -> u16;

    /// Preview; [`preview`](crate::preview) over slices.
    pub fn board_preview(
        head: Head,
        operators: *const u16,
        operators_length: usize,
        rides: *const u16,
        rides_length: usize,
        stamps: *const u32,
        stamps_length: usize,
        revisions: *const u16,
        revisions_length: usize,
        index: *const u16,
        index_length: usize,
        presence_stamps: *const u32,
        presence_stamps_length: usize,
        presence_revisions: *const u16,
        presence_revisions_length: usize,
        presence: *const u16,
        presence_length: usize,
        message: Message,
        spare_head: *mut Head,
        spare_operators: *mut u16,
        spare_operators_length: usize,
        spare_rides: *mut u16,
        spare_rides_length: usize,
        spare_stamps: *mut u32,
        spare_stamps_length: usize,
        spare_revisions: *mut u16,
        spare_revisions_length: usize,
        spare_index: *mut u16,
        spare_index_length: usize,
        spare_presence_stamps: *mut u32,
        spare_presence_stamps_length: usize,
        spare_presence_revisions: *mut u16,
        spare_presence_revisions_length: usize,
        spare_presence: *mut u16,
        spare_presence_length: usize,
    ) -> Answer;
}
