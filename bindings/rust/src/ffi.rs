//! The C interface, as `include/orgamish.h` declares it. Each slice is a pointer and its length.

use crate::limits::{MAP_LENGTH, TOLD};

/// The refusal's place, then four values.
pub type Told = [u64; TOLD];

extern "C" {
    pub fn orgamish_identity(map: &mut [u8; MAP_LENGTH]);

    pub fn orgamish_build(
        map: *const u8,
        map_len: usize,
        dict: *const u8,
        dict_len: usize,
        table: *mut u16,
        table_len: usize,
        told: &mut Told,
    ) -> u16;

    pub fn orgamish_widen(
        map: *const u8,
        map_len: usize,
        dict: *const u8,
        dict_len: usize,
        narrow: *const u16,
        narrow_len: usize,
        table: *mut u16,
        table_len: usize,
        told: &mut Told,
    ) -> u16;

    pub fn orgamish_narrow(
        map: *const u8,
        map_len: usize,
        dict: *const u8,
        dict_len: usize,
        table: *const u16,
        table_len: usize,
        narrow: *mut u16,
        narrow_len: usize,
        told: &mut Told,
    ) -> u16;

    pub fn orgamish_scan(
        map: *const u8,
        map_len: usize,
        dict: *const u8,
        dict_len: usize,
        table: *const u16,
        table_len: usize,
        text: *const u8,
        text_len: usize,
        states: *mut u16,
        states_len: usize,
        counts: *mut u64,
        counts_len: usize,
        told: &mut Told,
    ) -> u16;

    pub fn orgamish_first(
        map: *const u8,
        map_len: usize,
        dict: *const u8,
        dict_len: usize,
        table: *const u16,
        table_len: usize,
        text: *const u8,
        text_len: usize,
        states: *const u16,
        states_len: usize,
        counts: *const u64,
        counts_len: usize,
        reading: *mut u16,
        reading_len: usize,
        told: &mut Told,
    ) -> u16;

    pub fn orgamish_next(
        map: *const u8,
        map_len: usize,
        dict: *const u8,
        dict_len: usize,
        table: *const u16,
        table_len: usize,
        text: *const u8,
        text_len: usize,
        states: *const u16,
        states_len: usize,
        counts: *const u64,
        counts_len: usize,
        reading: *mut u16,
        reading_len: usize,
        given: usize,
        told: &mut Told,
    ) -> u16;

    pub fn orgamish_jump(
        map: *const u8,
        map_len: usize,
        dict: *const u8,
        dict_len: usize,
        table: *const u16,
        table_len: usize,
        text: *const u8,
        text_len: usize,
        states: *const u16,
        states_len: usize,
        counts: *const u64,
        counts_len: usize,
        reading: *mut u16,
        reading_len: usize,
        n: u64,
        told: &mut Told,
    ) -> u16;

    pub fn orgamish_place(
        map: *const u8,
        map_len: usize,
        dict: *const u8,
        dict_len: usize,
        table: *const u16,
        table_len: usize,
        text: *const u8,
        text_len: usize,
        states: *const u16,
        states_len: usize,
        counts: *const u64,
        counts_len: usize,
        reading: *const u16,
        reading_len: usize,
        given: usize,
        told: &mut Told,
    ) -> u16;

    pub fn orgamish_check_book(
        map: *const u8,
        map_len: usize,
        book: *const u8,
        book_len: usize,
        told: &mut Told,
    ) -> u16;

    pub fn orgamish_block(
        map: *const u8,
        map_len: usize,
        book: *const u8,
        book_len: usize,
        n: usize,
        told: &mut Told,
    ) -> u16;
}
