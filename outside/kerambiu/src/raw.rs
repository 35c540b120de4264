//! The library's C functions, as calls on slices. Each gives 0 or the number that
//! refuses the call; `include/kerambiu.h` says what each does.

/// The bytes of a receiver's or a sender's state (KERAMBIU_STATE_BYTES).
pub const STATE_BYTES: usize = 16;
/// The bytes of a receiver's answer (KERAMBIU_ANSWER_BYTES).
pub const ANSWER_BYTES: usize = 12;
/// The line byte of a point that became the reference (KERAMBIU_REFERENCE).
pub const REFERENCE: u8 = 16;
/// The line byte of a point at the origin (KERAMBIU_ORIGIN).
pub const ORIGIN: u8 = 17;
/// The bytes of a record of a track store (KERAMBIU_RECORD_BYTES).
pub const RECORD_BYTES: usize = 32;
/// The check bits of a V.41 block (KERAMBIU_V41_CHECK_BITS).
pub const V41_CHECK_BITS: usize = 16;
/// The lent bytes that a listing takes (KERAMBIU_LISTING_BYTES).
pub const LISTING_BYTES: usize = 372_645;

mod c {
    #[link(name = "kerambiu", kind = "static")]
    extern "C" {
        pub fn kerambiu_fresh(state: *mut u8, state_len: usize, mode: u8, role: u8) -> u8;
        pub fn kerambiu_receive_point(
            state: *mut u8,
            state_len: usize,
            re: i16,
            im: i16,
            answer: *mut u8,
            answer_len: usize,
        ) -> u8;
        pub fn kerambiu_receive_gap(
            state: *mut u8,
            state_len: usize,
            n: u32,
            answer: *mut u8,
            answer_len: usize,
        ) -> u8;
        pub fn kerambiu_receive_levels(
            state: *mut u8,
            state_len: usize,
            re: f32,
            im: f32,
            answer: *mut u8,
            answer_len: usize,
        ) -> u8;
        pub fn kerambiu_receive_squelch(
            state: *mut u8,
            state_len: usize,
            power: f32,
            answer: *mut u8,
            answer_len: usize,
        ) -> u8;
        pub fn kerambiu_receive_hole(
            state: *mut u8,
            state_len: usize,
            n: u32,
            answer: *mut u8,
            answer_len: usize,
        ) -> u8;
        pub fn kerambiu_receive_points(
            state: *mut u8,
            state_len: usize,
            points: *const i16,
            points_len: usize,
            line: *mut u8,
            line_len: usize,
            plain: *mut u8,
            plain_len: usize,
            distance: *mut u32,
            distance_len: usize,
        ) -> u8;
        pub fn kerambiu_receive_level_points(
            state: *mut u8,
            state_len: usize,
            levels: *const f32,
            levels_len: usize,
            line: *mut u8,
            line_len: usize,
            plain: *mut u8,
            plain_len: usize,
            distance: *mut u32,
            distance_len: usize,
        ) -> u8;
        pub fn kerambiu_open(
            state: *mut u8,
            state_len: usize,
            mode: u8,
            role: u8,
            length: u32,
            out: *mut i16,
            out_len: usize,
            offset: usize,
        ) -> u8;
        pub fn kerambiu_send(
            state: *mut u8,
            state_len: usize,
            input: *const u8,
            input_len: usize,
            out: *mut i16,
            out_len: usize,
            offset: usize,
        ) -> u8;
        pub fn kerambiu_make(store: *mut u8, store_len: usize, mode: u8, role: u8) -> u8;
        pub fn kerambiu_append_point(store: *mut u8, store_len: usize, re: i16, im: i16) -> u8;
        pub fn kerambiu_append_lost(store: *mut u8, store_len: usize, n: u32) -> u8;
        pub fn kerambiu_append_points(
            store: *mut u8,
            store_len: usize,
            points: *const i16,
            points_len: usize,
        ) -> u8;
        pub fn kerambiu_read(
            store: *const u8,
            store_len: usize,
            out: *mut i64,
            out_len: usize,
            offset: usize,
            count: *mut usize,
            count_len: usize,
        ) -> u8;
        pub fn kerambiu_list(
            store: *const u8,
            store_len: usize,
            out: *mut u8,
            out_len: usize,
            count: *mut usize,
            count_len: usize,
        ) -> u8;
        pub fn kerambiu_sums(
            store: *const u8,
            store_len: usize,
            sums: *mut u64,
            sums_len: usize,
        ) -> u8;
        pub fn kerambiu_v41_check(
            bits: *const u8,
            bits_len: usize,
            whole: *mut u8,
            whole_len: usize,
        ) -> u8;
        pub fn kerambiu_v41_make(
            bits: *const u8,
            bits_len: usize,
            out: *mut u8,
            out_len: usize,
        ) -> u8;
        pub fn kerambiu_settled_bits(
            mode: u8,
            line: *const u8,
            line_len: usize,
            plain: *const u8,
            plain_len: usize,
            out: *mut u8,
            out_len: usize,
            run: *mut usize,
            run_len: usize,
        ) -> u8;
    }
}

// Each call hands over the pointer and the length of live slices that do not
// overlap, which is all that the functions ask.

#[inline]
pub fn fresh(state: &mut [u8], mode: u8, role: u8) -> u8 {
    unsafe { c::kerambiu_fresh(state.as_mut_ptr(), state.len(), mode, role) }
}

#[inline]
pub fn receive_point(state: &mut [u8], re: i16, im: i16, answer: &mut [u8]) -> u8 {
    let (at, len) = (answer.as_mut_ptr(), answer.len());
    unsafe { c::kerambiu_receive_point(state.as_mut_ptr(), state.len(), re, im, at, len) }
}

#[inline]
pub fn receive_gap(state: &mut [u8], n: u32, answer: &mut [u8]) -> u8 {
    let (at, len) = (answer.as_mut_ptr(), answer.len());
    unsafe { c::kerambiu_receive_gap(state.as_mut_ptr(), state.len(), n, at, len) }
}

/// A point in levels.
#[inline]
pub fn receive_levels(state: &mut [u8], re: f32, im: f32, answer: &mut [u8]) -> u8 {
    let (at, len) = (answer.as_mut_ptr(), answer.len());
    unsafe { c::kerambiu_receive_levels(state.as_mut_ptr(), state.len(), re, im, at, len) }
}

#[inline]
pub fn receive_squelch(state: &mut [u8], power: f32, answer: &mut [u8]) -> u8 {
    let (at, len) = (answer.as_mut_ptr(), answer.len());
    unsafe { c::kerambiu_receive_squelch(state.as_mut_ptr(), state.len(), power, at, len) }
}

#[inline]
pub fn receive_hole(state: &mut [u8], n: u32, answer: &mut [u8]) -> u8 {
    let (at, len) = (answer.as_mut_ptr(), answer.len());
    unsafe { c::kerambiu_receive_hole(state.as_mut_ptr(), state.len(), n, at, len) }
}

/// Points are re and im in turn; a byte of line bits, one of data bits and a
/// distance for each.
#[inline]
pub fn receive_points(
    state: &mut [u8],
    points: &[i16],
    line: &mut [u8],
    plain: &mut [u8],
    distance: &mut [u32],
) -> u8 {
    unsafe {
        c::kerambiu_receive_points(
            state.as_mut_ptr(),
            state.len(),
            points.as_ptr(),
            points.len(),
            line.as_mut_ptr(),
            line.len(),
            plain.as_mut_ptr(),
            plain.len(),
            distance.as_mut_ptr(),
            distance.len(),
        )
    }
}

/// The same for points in levels.
#[inline]
pub fn receive_level_points(
    state: &mut [u8],
    levels: &[f32],
    line: &mut [u8],
    plain: &mut [u8],
    distance: &mut [u32],
) -> u8 {
    unsafe {
        c::kerambiu_receive_level_points(
            state.as_mut_ptr(),
            state.len(),
            levels.as_ptr(),
            levels.len(),
            line.as_mut_ptr(),
            line.len(),
            plain.as_mut_ptr(),
            plain.len(),
            distance.as_mut_ptr(),
            distance.len(),
        )
    }
}

#[inline]
pub fn open(
    state: &mut [u8],
    mode: u8,
    role: u8,
    length: u32,
    out: &mut [i16],
    offset: usize,
) -> u8 {
    let (at, len) = (out.as_mut_ptr(), out.len());
    let (state, state_len) = (state.as_mut_ptr(), state.len());
    unsafe { c::kerambiu_open(state, state_len, mode, role, length, at, len, offset) }
}

#[inline]
pub fn send(state: &mut [u8], input: &[u8], out: &mut [i16], offset: usize) -> u8 {
    let (at, len) = (out.as_mut_ptr(), out.len());
    let (bits, bits_len) = (input.as_ptr(), input.len());
    let (state, state_len) = (state.as_mut_ptr(), state.len());
    unsafe { c::kerambiu_send(state, state_len, bits, bits_len, at, len, offset) }
}

#[inline]
pub fn make(store: &mut [u8], mode: u8, role: u8) -> u8 {
    unsafe { c::kerambiu_make(store.as_mut_ptr(), store.len(), mode, role) }
}

#[inline]
pub fn append_point(store: &mut [u8], re: i16, im: i16) -> u8 {
    unsafe { c::kerambiu_append_point(store.as_mut_ptr(), store.len(), re, im) }
}

#[inline]
pub fn append_lost(store: &mut [u8], n: u32) -> u8 {
    unsafe { c::kerambiu_append_lost(store.as_mut_ptr(), store.len(), n) }
}

/// Points are re and im in turn.
#[inline]
pub fn append_points(store: &mut [u8], points: &[i16]) -> u8 {
    let (at, len) = (points.as_ptr(), points.len());
    unsafe { c::kerambiu_append_points(store.as_mut_ptr(), store.len(), at, len) }
}

/// Three numbers an event; the count of events stands in `count`.
#[inline]
pub fn read(store: &[u8], out: &mut [i64], offset: usize, count: &mut [usize]) -> u8 {
    let (at, len) = (out.as_mut_ptr(), out.len());
    let (counts, counts_len) = (count.as_mut_ptr(), count.len());
    unsafe {
        c::kerambiu_read(
            store.as_ptr(),
            store.len(),
            at,
            len,
            offset,
            counts,
            counts_len,
        )
    }
}

/// The listing's bytes; how many there are stands in `count`.
#[inline]
pub fn list(store: &[u8], out: &mut [u8], count: &mut [usize]) -> u8 {
    let (at, len) = (out.as_mut_ptr(), out.len());
    let (counts, counts_len) = (count.as_mut_ptr(), count.len());
    unsafe { c::kerambiu_list(store.as_ptr(), store.len(), at, len, counts, counts_len) }
}

/// Decided points, lost intervals and gaps, in the first three numbers.
#[inline]
pub fn sums(store: &[u8], sums: &mut [u64]) -> u8 {
    let (at, len) = (sums.as_mut_ptr(), sums.len());
    unsafe { c::kerambiu_sums(store.as_ptr(), store.len(), at, len) }
}

/// 1 in the first byte for a V.41 block that leaves nothing, else 0.
#[inline]
pub fn v41_check(bits: &[u8], whole: &mut [u8]) -> u8 {
    let (at, len) = (whole.as_mut_ptr(), whole.len());
    unsafe { c::kerambiu_v41_check(bits.as_ptr(), bits.len(), at, len) }
}

/// The V.41 block of service and information bits.
#[inline]
pub fn v41_make(bits: &[u8], out: &mut [u8]) -> u8 {
    let (at, len) = (out.as_mut_ptr(), out.len());
    unsafe { c::kerambiu_v41_make(bits.as_ptr(), bits.len(), at, len) }
}

/// The settled data bits of the first run in a block of points; where it begins,
/// its points and its bits stand in `run`.
#[inline]
pub fn settled_bits(mode: u8, line: &[u8], plain: &[u8], out: &mut [u8], run: &mut [usize]) -> u8 {
    unsafe {
        c::kerambiu_settled_bits(
            mode,
            line.as_ptr(),
            line.len(),
            plain.as_ptr(),
            plain.len(),
            out.as_mut_ptr(),
            out.len(),
            run.as_mut_ptr(),
            run.len(),
        )
    }
}
