//! The Rattle library `stagebench`, which the run links as a static library.
use crate::cases::{Case, Out};
use std::hint::black_box;

// In `exports.rt`: a `&[T]` crosses as a pointer and then a length.
unsafe extern "C" {
    fn stage_run(
        rounds: usize,
        state: u32,
        form: u32,
        descending: u32,
        nulls_first: u32,
        taking: u32,
        leaving: u32,
        n: usize,
        times: usize,
        rows: usize,
        batches: usize,
        total: usize,
        count: usize,
        kind: u32,
        key_kind: u32,
        validity: *const u8,
        validity_len: usize,
        offsets: *const u32,
        offsets_len: usize,
        data: *const u8,
        data_len: usize,
        stride: usize,
        key_validity: *const u8,
        key_validity_len: usize,
        key_offsets: *const u32,
        key_offsets_len: usize,
        key_data: *const u8,
        key_data_len: usize,
        key_stride: usize,
        filter_validity: *const u8,
        filter_validity_len: usize,
        filter: *const u8,
        filter_len: usize,
        indices: *const usize,
        indices_len: usize,
        out_validity: *mut u8,
        out_validity_len: usize,
        out_offsets: *mut u32,
        out_offsets_len: usize,
        out_data: *mut u8,
        out_data_len: usize,
        first_validity: *mut u8,
        first_validity_len: usize,
        first_offsets: *mut u32,
        first_offsets_len: usize,
        first_data: *mut u8,
        first_data_len: usize,
        second_validity: *mut u8,
        second_validity_len: usize,
        second_data: *mut u8,
        second_data_len: usize,
        third_validity: *mut u8,
        third_validity_len: usize,
        third_data: *mut u8,
        third_data_len: usize,
        flags_validity: *mut u8,
        flags_validity_len: usize,
        flags_bits: *mut u8,
        flags_bits_len: usize,
    ) -> u64;
    fn stage_column(
        rounds: usize,
        kind: u32,
        rows: usize,
        validity: *const u8,
        validity_len: usize,
        offsets: *const u32,
        offsets_len: usize,
        data: *const u8,
        data_len: usize,
    ) -> u64;
    fn stage_size(which: u32) -> usize;
}

pub fn run(case: &Case, rounds: usize, out: &mut Out) -> u64 {
    let [v0, v1, v2] = &mut out.key_validity;
    let [d0, d1, d2] = &mut out.key_data;
    // SAFETY: the declaration fits `exports.rt`, the function requires nothing, and each pointer and length are those of one slice, which is borrowed for the call.
    unsafe {
        stage_run(
            rounds,
            case.state,
            case.form,
            case.descending,
            case.nulls_first,
            case.taking,
            case.leaving,
            case.n,
            case.times,
            case.rows,
            case.batches,
            case.total,
            case.count,
            case.kind,
            case.key_kind,
            case.validity.as_ptr(),
            case.validity.len(),
            case.offsets.as_ptr(),
            case.offsets.len(),
            case.data.as_ptr(),
            case.data.len(),
            case.stride,
            case.key_validity.as_ptr(),
            case.key_validity.len(),
            case.key_offsets.as_ptr(),
            case.key_offsets.len(),
            case.key_data.as_ptr(),
            case.key_data.len(),
            case.key_stride,
            case.filter_validity.as_ptr(),
            case.filter_validity.len(),
            case.filter.as_ptr(),
            case.filter.len(),
            case.indices.as_ptr(),
            case.indices.len(),
            out.validity.as_mut_ptr(),
            out.validity.len(),
            out.offsets.as_mut_ptr(),
            out.offsets.len(),
            out.data.as_mut_ptr(),
            out.data.len(),
            v0.as_mut_ptr(),
            v0.len(),
            out.key_offsets.as_mut_ptr(),
            out.key_offsets.len(),
            d0.as_mut_ptr(),
            d0.len(),
            v1.as_mut_ptr(),
            v1.len(),
            d1.as_mut_ptr(),
            d1.len(),
            v2.as_mut_ptr(),
            v2.len(),
            d2.as_mut_ptr(),
            d2.len(),
            out.flags_validity.as_mut_ptr(),
            out.flags_validity.len(),
            out.flags_bits.as_mut_ptr(),
            out.flags_bits.len(),
        )
    }
}

pub fn columns(
    rounds: usize,
    kind: u32,
    rows: usize,
    validity: &[u8],
    offsets: &[u32],
    data: &[u8],
) -> u64 {
    let mut sum = 0u64;
    for _ in 0..rounds {
        let (rows, data) = (black_box(rows), black_box(data));
        // A call for each column: of equal calls in one loop of its own the library's compiler makes one.
        // SAFETY: as in `run`.
        let answered = unsafe {
            stage_column(
                1,
                kind,
                rows,
                validity.as_ptr(),
                validity.len(),
                offsets.as_ptr(),
                offsets.len(),
                data.as_ptr(),
                data.len(),
            )
        };
        sum = sum.wrapping_add(answered);
    }
    sum
}

pub fn size(which: u32) -> usize {
    // SAFETY: the function takes a number and requires nothing.
    unsafe { stage_size(which) }
}
