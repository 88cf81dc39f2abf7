//! The functions of the proved archive `libsplicereel_c.a` as C sees them.
//!
//! This crate links the archive and declares its functions; the crate
//! `splicereel` has a safe interface to them. `include/splicereel.h` says what
//! each takes and tells.
//!
//! Each returns 0 where the call answers and the refusal's number otherwise.
//! What else it has to tell stands in `told`; entries that a call does not
//! name stay as they were. Refused line never returns 0, and tells in `part`.
//!
//! # Safety
//!
//! The functions have no precondition beyond C's own:
//!
//! - a pointer is not null, is aligned, and has the elements that its length
//!   says (`told` has [`TOLD`], `part` has [`PART`]), for reading, and for
//!   writing too where it is not const;
//! - nothing else touches them during the call;
//! - no slice that is written overlaps another.
//!
//! They keep no pointer and have no state of their own.

#![no_std]
#![deny(missing_docs)]

/// The elements of `told`.
pub const TOLD: usize = 8;
/// The elements of `part`.
pub const PART: usize = 2;

unsafe extern "C" {
    /// Read: a network text into kept bytes.
    pub fn splicereel_read(
        text: *const u8,
        text_length: usize,
        output: *mut u8,
        output_length: usize,
        told: *mut u32,
    ) -> u32;

    /// Refused line: the part of a text that holds the line at which Read
    /// refuses it.
    pub fn splicereel_refused_line(
        text: *const u8,
        text_length: usize,
        output_length: usize,
        part: *mut usize,
    ) -> u32;

    /// Judge a segment of a kept network, by the rules of its edition.
    pub fn splicereel_judge_segment(
        net: *const u8,
        net_length: usize,
        segment: usize,
        told: *mut u32,
    ) -> u32;

    /// Judge the movement from one run onto another, by the same rules.
    pub fn splicereel_judge_movement(
        net: *const u8,
        net_length: usize,
        first: usize,
        second: usize,
        told: *mut u32,
    ) -> u32;

    /// Route: a shortest route within a tolerance.
    pub fn splicereel_route(
        net: *const u8,
        net_length: usize,
        from: usize,
        to: usize,
        tolerance: usize,
        best: *mut u32,
        best_length: usize,
        previous: *mut u32,
        previous_length: usize,
        buffer: *mut u16,
        buffer_length: usize,
        place: usize,
        told: *mut u32,
    ) -> u32;

    /// Least stress: a shortest route within the smallest tolerance that has
    /// any.
    pub fn splicereel_least_stress(
        net: *const u8,
        net_length: usize,
        from: usize,
        to: usize,
        best: *mut u32,
        best_length: usize,
        previous: *mut u32,
        previous_length: usize,
        buffer: *mut u16,
        buffer_length: usize,
        place: usize,
        told: *mut u32,
    ) -> u32;

    /// Reach map: every node that has a route within a tolerance and a
    /// greatest length.
    pub fn splicereel_reach_map(
        net: *const u8,
        net_length: usize,
        from: usize,
        tolerance: usize,
        greatest: usize,
        best: *mut u32,
        best_length: usize,
        previous: *mut u32,
        previous_length: usize,
        list: *mut u32,
        list_length: usize,
        told: *mut u32,
    ) -> u32;

    /// Nearest: of the marked nodes the one with the shortest route within a
    /// tolerance.
    pub fn splicereel_nearest(
        net: *const u8,
        net_length: usize,
        from: usize,
        tolerance: usize,
        marks: *const u8,
        marks_length: usize,
        best: *mut u32,
        best_length: usize,
        previous: *mut u32,
        previous_length: usize,
        told: *mut u32,
    ) -> u32;

    /// Move up: a network of edition 02 as one of edition 03.
    pub fn splicereel_move_up(
        net: *const u8,
        net_length: usize,
        output: *mut u8,
        output_length: usize,
        told: *mut u32,
    ) -> u32;

    /// Move back: a network of edition 03 as one of edition 02.
    pub fn splicereel_move_back(
        net: *const u8,
        net_length: usize,
        output: *mut u8,
        output_length: usize,
        told: *mut u32,
    ) -> u32;
}
