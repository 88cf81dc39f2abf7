//! The archive's calls as C sees them: a number comes back, and what else a
//! call has to tell stands in eight 32-bit numbers, or for [`refused_line`] in
//! two of the machine's size.
//!
//! Each function returns 0 where the call answers and the refusal's number
//! otherwise; [`refused_line`] returns a refusal's number always. Numbers of
//! [`Told`] that a call does not name stay as they were. This is the only
//! module with unsafe code; what it gives is safe to use with any arguments.

#![allow(unsafe_code)]

/// What a call tells besides its number.
pub type Told = [u32; splicereel_sys::TOLD];

/// Where a part of a text begins, and its bytes.
pub type Part = [usize; splicereel_sys::PART];

/// What a search needs to borrow.
///
/// With S segments each scratch slice has at least 2S numbers, and so has
/// the buffer from the place on; otherwise the call refuses. They may hold
/// anything beforehand.
#[derive(Debug)]
pub struct Lent<'l> {
    /// Scratch: best lengths.
    pub best: &'l mut [u32],
    /// Scratch: previous runs.
    pub previous: &'l mut [u32],
    /// Where the route's runs are written, from the place on.
    pub buffer: &'l mut [u16],
    /// The index in the buffer of the route's first run.
    pub place: usize,
}

/// What a search that writes no route needs to borrow.
///
/// With S segments each slice has at least 2S numbers; otherwise the call
/// refuses. They may hold anything beforehand.
#[derive(Debug)]
pub struct Scratch<'l> {
    /// Best lengths.
    pub best: &'l mut [u32],
    /// Previous runs.
    pub previous: &'l mut [u32],
}

// What every SAFETY comment below rests on: the archive's functions have no
// precondition beyond C's own, which crate splicereel-sys lists. A Rust slice
// keeps all of it: its pointer is aligned and not null even where it is empty,
// and a mutable slice shares no element with any other borrow.

/// Read. 0: `told[0]` bytes are written. A refusal: `told[0]` is its line.
#[inline]
pub fn read(text: &[u8], output: &mut [u8], told: &mut Told) -> u32 {
    // SAFETY: pointers and lengths of live slices; see above.
    unsafe {
        splicereel_sys::splicereel_read(
            text.as_ptr(),
            text.len(),
            output.as_mut_ptr(),
            output.len(),
            told.as_mut_ptr(),
        )
    }
}

/// Refused line, for an output of so many bytes. 1 to 7 as Read, or 14 where
/// Read accepts: the part begins at `part[0]` and has `part[1]` bytes.
#[inline]
pub fn refused_line(text: &[u8], output_length: usize, part: &mut Part) -> u32 {
    // SAFETY: pointers and lengths of live slices; see above.
    unsafe {
        splicereel_sys::splicereel_refused_line(
            text.as_ptr(),
            text.len(),
            output_length,
            part.as_mut_ptr(),
        )
    }
}

/// Judge a segment. 0: `told[0]` is the level, `told[1]` the measure.
#[inline]
pub fn judge_segment(net: &[u8], segment: usize, told: &mut Told) -> u32 {
    // SAFETY: pointers and lengths of live slices; see above.
    unsafe {
        splicereel_sys::splicereel_judge_segment(
            net.as_ptr(),
            net.len(),
            segment,
            told.as_mut_ptr(),
        )
    }
}

/// Judge a movement. 0: `told[0]` is the level.
#[inline]
pub fn judge_movement(net: &[u8], first: usize, second: usize, told: &mut Told) -> u32 {
    // SAFETY: pointers and lengths of live slices; see above.
    unsafe {
        splicereel_sys::splicereel_judge_movement(
            net.as_ptr(),
            net.len(),
            first,
            second,
            told.as_mut_ptr(),
        )
    }
}

/// Route. 0: `told[0]` is 0 for none, or 1 and then `told[1]` is the count,
/// `told[2]` the length, `told[3]` the level.
#[inline]
pub fn route(
    net: &[u8],
    from: usize,
    to: usize,
    tolerance: usize,
    lent: Lent<'_>,
    told: &mut Told,
) -> u32 {
    // SAFETY: pointers and lengths of live slices; see above.
    unsafe {
        splicereel_sys::splicereel_route(
            net.as_ptr(),
            net.len(),
            from,
            to,
            tolerance,
            lent.best.as_mut_ptr(),
            lent.best.len(),
            lent.previous.as_mut_ptr(),
            lent.previous.len(),
            lent.buffer.as_mut_ptr(),
            lent.buffer.len(),
            lent.place,
            told.as_mut_ptr(),
        )
    }
}

/// Least stress: as [`route`], and `told[4]` is the tolerance.
#[inline]
pub fn least_stress(net: &[u8], from: usize, to: usize, lent: Lent<'_>, told: &mut Told) -> u32 {
    // SAFETY: pointers and lengths of live slices; see above.
    unsafe {
        splicereel_sys::splicereel_least_stress(
            net.as_ptr(),
            net.len(),
            from,
            to,
            lent.best.as_mut_ptr(),
            lent.best.len(),
            lent.previous.as_mut_ptr(),
            lent.previous.len(),
            lent.buffer.as_mut_ptr(),
            lent.buffer.len(),
            lent.place,
            told.as_mut_ptr(),
        )
    }
}

/// Reach map. 0: `told[0]` entries stand in the list, each a node and its least
/// length.
#[inline]
pub fn reach_map(
    net: &[u8],
    from: usize,
    tolerance: usize,
    greatest: usize,
    scratch: Scratch<'_>,
    list: &mut [u32],
    told: &mut Told,
) -> u32 {
    // SAFETY: pointers and lengths of live slices; see above.
    unsafe {
        splicereel_sys::splicereel_reach_map(
            net.as_ptr(),
            net.len(),
            from,
            tolerance,
            greatest,
            scratch.best.as_mut_ptr(),
            scratch.best.len(),
            scratch.previous.as_mut_ptr(),
            scratch.previous.len(),
            list.as_mut_ptr(),
            list.len(),
            told.as_mut_ptr(),
        )
    }
}

/// Nearest. 0: `told[0]` is 0 for none, or 1 and then `told[1]` is the node,
/// `told[2]` its least length.
#[inline]
pub fn nearest(
    net: &[u8],
    from: usize,
    tolerance: usize,
    marks: &[u8],
    scratch: Scratch<'_>,
    told: &mut Told,
) -> u32 {
    // SAFETY: pointers and lengths of live slices; see above.
    unsafe {
        splicereel_sys::splicereel_nearest(
            net.as_ptr(),
            net.len(),
            from,
            tolerance,
            marks.as_ptr(),
            marks.len(),
            scratch.best.as_mut_ptr(),
            scratch.best.len(),
            scratch.previous.as_mut_ptr(),
            scratch.previous.len(),
            told.as_mut_ptr(),
        )
    }
}

/// Move up. 0: `told[0]` bytes are written.
#[inline]
pub fn move_up(net: &[u8], output: &mut [u8], told: &mut Told) -> u32 {
    // SAFETY: pointers and lengths of live slices; see above.
    unsafe {
        splicereel_sys::splicereel_move_up(
            net.as_ptr(),
            net.len(),
            output.as_mut_ptr(),
            output.len(),
            told.as_mut_ptr(),
        )
    }
}

/// Move back. 0: `told[0]` bytes are written.
#[inline]
pub fn move_back(net: &[u8], output: &mut [u8], told: &mut Told) -> u32 {
    // SAFETY: pointers and lengths of live slices; see above.
    unsafe {
        splicereel_sys::splicereel_move_back(
            net.as_ptr(),
            net.len(),
            output.as_mut_ptr(),
            output.len(),
            told.as_mut_ptr(),
        )
    }
}
