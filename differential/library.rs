//! The calls of include/dapplescree.h, each in a safe function over slices.
use crate::reference::{Changes, Recording, Route, Shapes};

extern "C" {
    fn dapplescree_analyse_direct(n: usize, left: u32, right: u32, x: *const i16, x_length: usize, out: *mut i32, out_length: usize) -> u32;
    fn dapplescree_analyse_short(n: usize, left: u32, right: u32, x: *const i16, x_length: usize, out: *mut i32, out_length: usize) -> u32;
    fn dapplescree_analyse_double(n: usize, left: u32, right: u32, x: *const i16, x_length: usize, out: *mut i32, out_length: usize) -> u32;
    fn dapplescree_stream_fresh(n: usize, state: *mut i64, state_length: usize) -> u32;
    fn dapplescree_stream_step(
        state: *mut i64,
        state_length: usize,
        number: u32,
        left: u32,
        right: u32,
        coefficients: *const i32,
        coefficients_length: usize,
        hop: *mut i16,
        hop_length: usize,
    ) -> u32;
    fn dapplescree_analyse_recording_direct(
        n: usize,
        hops: usize,
        order: u32,
        samples: *const i16,
        samples_length: usize,
        coefficients: *mut i32,
        coefficients_length: usize,
    ) -> u32;
    fn dapplescree_analyse_recording_short(
        n: usize,
        hops: usize,
        order: u32,
        samples: *const i16,
        samples_length: usize,
        coefficients: *mut i32,
        coefficients_length: usize,
    ) -> u32;
    fn dapplescree_analyse_recording_double(
        n: usize,
        hops: usize,
        order: u32,
        samples: *const i16,
        samples_length: usize,
        coefficients: *mut i32,
        coefficients_length: usize,
    ) -> u32;
    fn dapplescree_synthesise_recording(
        n: usize,
        hops: usize,
        order: u32,
        coefficients: *const i32,
        coefficients_length: usize,
        samples: *mut i16,
        samples_length: usize,
    ) -> u32;
    fn dapplescree_page(
        n: usize,
        hops: usize,
        order: u32,
        coefficients: *const i32,
        coefficients_length: usize,
        page: *mut u8,
        page_length: usize,
    ) -> u32;
    fn dapplescree_reorder(
        n: usize,
        hops: usize,
        to: u32,
        coefficients: *const i32,
        coefficients_length: usize,
        reordered: *mut i32,
        reordered_length: usize,
    ) -> u32;
    fn dapplescree_quantise(
        n: usize,
        table: *const u8,
        table_length: usize,
        coefficients: *const i32,
        coefficients_length: usize,
        levels: *mut i32,
        levels_length: usize,
    ) -> u32;
    fn dapplescree_dequantise(
        n: usize,
        table: *const u8,
        table_length: usize,
        levels: *const i32,
        levels_length: usize,
        coefficients: *mut i32,
        coefficients_length: usize,
    ) -> u32;
    fn dapplescree_told_distance(n: usize, route: u32, table: *const u8, table_length: usize, distance: *mut u32, distance_length: usize) -> u32;
    fn dapplescree_stream_step_levels(
        state: *mut i64,
        state_length: usize,
        number: u32,
        left: u32,
        right: u32,
        table: *const u8,
        table_length: usize,
        levels: *const i32,
        levels_length: usize,
        hop: *mut i16,
        hop_length: usize,
    ) -> u32;
    fn dapplescree_largest_share(
        n: usize,
        shape: u32,
        first: *const i32,
        first_length: usize,
        first_changed: *const i32,
        first_changed_length: usize,
        second: *const i32,
        second_length: usize,
        second_changed: *const i32,
        second_changed_length: usize,
        place: usize,
        named: *mut u32,
        named_length: usize,
    ) -> u32;
    fn dapplescree_largest_share_recording(
        n: usize,
        hops: usize,
        order: u32,
        original: *const i32,
        original_length: usize,
        changed: *const i32,
        changed_length: usize,
        hop: usize,
        place: usize,
        named: *mut u32,
        named_length: usize,
    ) -> u32;
    fn dapplescree_coarsest_step(
        n: usize,
        hops: usize,
        samples: *const i16,
        samples_length: usize,
        allowed: u32,
        budget: usize,
        found: *mut u32,
        found_length: usize,
    ) -> u32;
    fn dapplescree_floats(n: usize, coefficients: *const i32, coefficients_length: usize, floats: *mut f64, floats_length: usize) -> u32;
    fn dapplescree_highest_lowest(n: usize, coefficients: *const i32, coefficients_length: usize, pair: *mut f64, pair_length: usize) -> u32;
}

// Each pointer and length below come from one slice, and slices lent by & and &mut do not overlap.

pub fn analyse(route: Route, n: usize, (left, right): Shapes, x: &[i16], out: &mut [i32]) -> u32 {
    let call = match route {
        Route::Direct => dapplescree_analyse_direct,
        Route::Short => dapplescree_analyse_short,
        Route::Double => dapplescree_analyse_double,
    };
    unsafe { call(n, left, right, x.as_ptr(), x.len(), out.as_mut_ptr(), out.len()) }
}

pub fn stream_fresh(n: usize, state: &mut [i64]) -> u32 {
    unsafe { dapplescree_stream_fresh(n, state.as_mut_ptr(), state.len()) }
}

pub fn stream_step(state: &mut [i64], number: u32, (left, right): Shapes, x: &[i32], out: &mut [i16]) -> u32 {
    let (state, length) = (state.as_mut_ptr(), state.len());
    unsafe { dapplescree_stream_step(state, length, number, left, right, x.as_ptr(), x.len(), out.as_mut_ptr(), out.len()) }
}

pub fn analyse_recording(route: Route, Recording { n, hops, order }: Recording, x: &[i16], out: &mut [i32]) -> u32 {
    let call = match route {
        Route::Direct => dapplescree_analyse_recording_direct,
        Route::Short => dapplescree_analyse_recording_short,
        Route::Double => dapplescree_analyse_recording_double,
    };
    unsafe { call(n, hops, order, x.as_ptr(), x.len(), out.as_mut_ptr(), out.len()) }
}

pub fn synthesise_recording(Recording { n, hops, order }: Recording, x: &[i32], out: &mut [i16]) -> u32 {
    unsafe { dapplescree_synthesise_recording(n, hops, order, x.as_ptr(), x.len(), out.as_mut_ptr(), out.len()) }
}

pub fn page(Recording { n, hops, order }: Recording, x: &[i32], out: &mut [u8]) -> u32 {
    unsafe { dapplescree_page(n, hops, order, x.as_ptr(), x.len(), out.as_mut_ptr(), out.len()) }
}

pub fn reorder(Recording { n, hops, order }: Recording, x: &[i32], out: &mut [i32]) -> u32 {
    unsafe { dapplescree_reorder(n, hops, order, x.as_ptr(), x.len(), out.as_mut_ptr(), out.len()) }
}

pub fn quantise(n: usize, table: &[u8], x: &[i32], out: &mut [i32]) -> u32 {
    unsafe { dapplescree_quantise(n, table.as_ptr(), table.len(), x.as_ptr(), x.len(), out.as_mut_ptr(), out.len()) }
}

pub fn dequantise(n: usize, table: &[u8], levels: &[i32], out: &mut [i32]) -> u32 {
    unsafe { dapplescree_dequantise(n, table.as_ptr(), table.len(), levels.as_ptr(), levels.len(), out.as_mut_ptr(), out.len()) }
}

pub fn told_distance(n: usize, route: u32, table: &[u8], out: &mut [u32]) -> u32 {
    unsafe { dapplescree_told_distance(n, route, table.as_ptr(), table.len(), out.as_mut_ptr(), out.len()) }
}

pub fn stream_step_levels(state: &mut [i64], number: u32, (left, right): Shapes, table: &[u8], levels: &[i32], out: &mut [i16]) -> u32 {
    let (state, length) = (state.as_mut_ptr(), state.len());
    let (lines, bytes, hop, samples) = (table.as_ptr(), table.len(), out.as_mut_ptr(), out.len());
    unsafe { dapplescree_stream_step_levels(state, length, number, left, right, lines, bytes, levels.as_ptr(), levels.len(), hop, samples) }
}

pub fn largest_share(n: usize, shape: u32, [a, b, c, d]: Changes, place: usize, named: &mut [u32]) -> u32 {
    let (room, numbers) = (named.as_mut_ptr(), named.len());
    let ([a, b, c, d], lengths) = ([a, b, c, d].map(<[i32]>::as_ptr), [a, b, c, d].map(<[i32]>::len));
    unsafe { dapplescree_largest_share(n, shape, a, lengths[0], b, lengths[1], c, lengths[2], d, lengths[3], place, room, numbers) }
}

pub fn largest_share_recording(recording: Recording, [original, changed]: [&[i32]; 2], hop: usize, place: usize, named: &mut [u32]) -> u32 {
    let Recording { n, hops, order } = recording;
    let ((a, b), (room, numbers)) = ((original.as_ptr(), changed.as_ptr()), (named.as_mut_ptr(), named.len()));
    unsafe { dapplescree_largest_share_recording(n, hops, order, a, original.len(), b, changed.len(), hop, place, room, numbers) }
}

pub fn coarsest_step(n: usize, hops: usize, x: &[i16], allowed: u32, budget: usize, found: &mut [u32]) -> u32 {
    unsafe { dapplescree_coarsest_step(n, hops, x.as_ptr(), x.len(), allowed, budget, found.as_mut_ptr(), found.len()) }
}

// Floats are lent as their patterns, which have the size and the alignment of floats: so they are compared bit by bit.

pub fn floats(n: usize, x: &[i32], out: &mut [u64]) -> u32 {
    unsafe { dapplescree_floats(n, x.as_ptr(), x.len(), out.as_mut_ptr().cast(), out.len()) }
}

pub fn highest_lowest(n: usize, x: &[i32], out: &mut [u64]) -> u32 {
    unsafe { dapplescree_highest_lowest(n, x.as_ptr(), x.len(), out.as_mut_ptr().cast(), out.len()) }
}
