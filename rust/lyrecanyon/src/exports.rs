//! The functions that the library exports to C, and the same over slices: all that is unsafe is here.
//!
//! Why the calls are sound:
//!
//! - The declarations are those of `include/lyrecanyon.h`.
//! - A slice goes over as its own pointer and length, so every byte that the length counts may be read, and written where the slice is
//!   `&mut`, until the call returns. What is `&mut` overlaps nothing else, as the header asks.
//! - The functions accept all bytes, end, do not unwind, keep no pointer and have no state. They read and write within the slices, and
//!   write to none but the one that is lent for it and to the lengths used and needed. The library is proved to do so; what remains to be
//!   trusted is the compiler, and that the thread's stack is as large as the header asks.

extern "C" {
    pub fn lyrecanyon_read(
        table: *const u8,
        table_length: usize,
        stored: *const u8,
        stored_length: usize,
        format: *const u8,
        format_length: usize,
        buffer: *mut u8,
        buffer_length: usize,
        used: *mut usize,
    ) -> u8;

    pub fn lyrecanyon_read_needing(
        table: *const u8,
        table_length: usize,
        stored: *const u8,
        stored_length: usize,
        format: *const u8,
        format_length: usize,
        buffer: *mut u8,
        buffer_length: usize,
        used: *mut usize,
        needed: *mut usize,
    ) -> u8;

    pub fn lyrecanyon_update(
        table: *const u8,
        table_length: usize,
        stored: *const u8,
        stored_length: usize,
        format: *const u8,
        format_length: usize,
        buffer: *const u8,
        buffer_length: usize,
        room: *mut u8,
        room_length: usize,
        used: *mut usize,
    ) -> u8;

    pub fn lyrecanyon_apply(
        table: *const u8,
        table_length: usize,
        stored: *mut u8,
        room: usize,
        used: *mut usize,
        format: *const u8,
        format_length: usize,
        buffer: *const u8,
        buffer_length: usize,
    ) -> u8;

    pub fn lyrecanyon_empty(
        table: *const u8,
        table_length: usize,
        room: *mut u8,
        room_length: usize,
        used: *mut usize,
    ) -> u8;
}

/// The number and the length used.
pub fn read(table: &[u8], stored: &[u8], format: &[u8], buffer: &mut [u8]) -> (u8, usize) {
    let mut used = 0;
    let number = unsafe {
        lyrecanyon_read(
            table.as_ptr(),
            table.len(),
            stored.as_ptr(),
            stored.len(),
            format.as_ptr(),
            format.len(),
            buffer.as_mut_ptr(),
            buffer.len(),
            &mut used,
        )
    };
    (number, used)
}

/// The number, the length used and the length needed.
pub fn read_needing(table: &[u8], stored: &[u8], format: &[u8], buffer: &mut [u8]) -> (u8, usize, usize) {
    let (mut used, mut needed) = (0, 0);
    let number = unsafe {
        lyrecanyon_read_needing(
            table.as_ptr(),
            table.len(),
            stored.as_ptr(),
            stored.len(),
            format.as_ptr(),
            format.len(),
            buffer.as_mut_ptr(),
            buffer.len(),
            &mut used,
            &mut needed,
        )
    };
    (number, used, needed)
}

/// The number and the length used.
pub fn update(table: &[u8], stored: &[u8], format: &[u8], buffer: &[u8], room: &mut [u8]) -> (u8, usize) {
    let mut used = 0;
    let number = unsafe {
        lyrecanyon_update(
            table.as_ptr(),
            table.len(),
            stored.as_ptr(),
            stored.len(),
            format.as_ptr(),
            format.len(),
            buffer.as_ptr(),
            buffer.len(),
            room.as_mut_ptr(),
            room.len(),
            &mut used,
        )
    };
    (number, used)
}

/// The number; the length used is that of the record before the call and after it.
pub fn apply(table: &[u8], stored: &mut [u8], used: &mut usize, format: &[u8], buffer: &[u8]) -> u8 {
    unsafe {
        lyrecanyon_apply(
            table.as_ptr(),
            table.len(),
            stored.as_mut_ptr(),
            stored.len(),
            used,
            format.as_ptr(),
            format.len(),
            buffer.as_ptr(),
            buffer.len(),
        )
    }
}

/// The number and the length used.
pub fn empty(table: &[u8], room: &mut [u8]) -> (u8, usize) {
    let mut used = 0;
    let number = unsafe { lyrecanyon_empty(table.as_ptr(), table.len(), room.as_mut_ptr(), room.len(), &mut used) };
    (number, used)
}
