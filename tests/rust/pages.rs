//! Areas between unreadable pages.

use std::ops::Range;
use std::ptr;
use std::slice;

/// A multiple of the size of a page on every machine that runs or emulates the programs.
const SIZE: usize = 65_536;

/// How many bytes on the readable side of a slice are watched.
const AROUND: usize = 256;

const PAINT: u8 = 0xA7;

/// Where a slice lies: right before an unreadable page, or right after one.
#[derive(Clone, Copy, PartialEq, Eq, Debug)]
pub enum Place {
    BeforePage,
    AfterPage,
}

/// Bytes that can be read and written, between SIZE before and after them that can't. A slice of them is lent.
pub struct Area {
    start: *mut u8,
    size: usize,
    slice: Range<usize>,
    beside: Range<usize>,
}

extern "C" {
    fn mmap(address: *mut u8, length: usize, protection: i32, flags: i32, file: i32, offset: i64) -> *mut u8;
    fn mprotect(address: *mut u8, length: usize, protection: i32) -> i32;
    fn fork() -> i32;
    fn waitpid(child: i32, status: *mut i32, options: i32) -> i32;
    fn close(file: i32) -> i32;
    fn _exit(status: i32) -> !;
}

impl Area {
    pub fn new() -> Area {
        Area::for_slice(SIZE - AROUND)
    }

    /// An area with room for a slice of that length.
    pub fn for_slice(length: usize) -> Area {
        const NONE: i32 = 0;
        const READ_AND_WRITE: i32 = 3;
        const PRIVATE_AND_ANONYMOUS: i32 = 0x22;
        let size = (length + AROUND + SIZE - 1) / SIZE * SIZE;
        let all = unsafe { mmap(ptr::null_mut(), SIZE + size + SIZE, NONE, PRIVATE_AND_ANONYMOUS, -1, 0) };
        assert!(all as isize != -1, "no memory");
        let start = all.wrapping_add(SIZE);
        assert!(unsafe { mprotect(start, size, READ_AND_WRITE) } == 0, "no page can be lent");
        Area { start, size, slice: 0..0, beside: 0..0 }
    }

    /// Lends a slice with those bytes at that place, and paints what lies beside it. An empty one before a page is a null pointer.
    pub fn lend(&mut self, bytes: &[u8], place: Place) -> *mut u8 {
        assert!(bytes.len() + AROUND <= self.size, "a slice is too long");
        let (at, beside) = match place {
            Place::BeforePage => (self.size - bytes.len(), self.size - bytes.len() - AROUND),
            Place::AfterPage => (0, bytes.len()),
        };
        self.slice = at..at + bytes.len();
        self.beside = beside..beside + AROUND;
        let all = unsafe { slice::from_raw_parts_mut(self.start, self.size) };
        all[self.beside.clone()].fill(PAINT);
        all[self.slice.clone()].copy_from_slice(bytes);
        if bytes.is_empty() && place == Place::BeforePage {
            return ptr::null_mut();
        }
        self.start.wrapping_add(at)
    }

    fn all(&self) -> &[u8] {
        unsafe { slice::from_raw_parts(self.start, self.size) }
    }

    /// The slice that is lent.
    pub fn slice(&self) -> &[u8] {
        &self.all()[self.slice.clone()]
    }

    /// Whether the bytes beside the slice are as they were painted.
    pub fn surroundings_stay(&self) -> bool {
        self.all()[self.beside.clone()] == [PAINT; AROUND]
    }
}

/// Stops unless a process that reads or writes one byte beyond a slice is ended for it.
pub fn see_that_they_guard() {
    let mut area = Area::new();
    let last = area.lend(&[0], Place::BeforePage);
    let first = area.lend(&[0], Place::AfterPage);
    for &beyond in &[last.wrapping_add(1), first.wrapping_sub(1)] {
        assert!(ends_by_signal(|| { let _ = unsafe { ptr::read_volatile(beyond) }; }), "a byte beyond a slice was read");
        assert!(ends_by_signal(|| unsafe { ptr::write_volatile(beyond, 0) }), "a byte beyond a slice was written");
    }
    assert!(!ends_by_signal(|| unsafe { ptr::write_volatile(last, 0) }), "a byte of a slice was not written");
}

/// Whether a child process that does this is ended by the signal for a bad address.
fn ends_by_signal(act: impl FnOnce()) -> bool {
    let acts = || {
        act();
        true
    };
    in_child(acts).is_none()
}

/// What a child process finds; none if it is ended by the signal for a bad address.
pub fn in_child(find: impl FnOnce() -> bool) -> Option<bool> {
    const BAD_ADDRESS: i32 = 11;
    const ERRORS: i32 = 2;
    let mut status = 0;
    unsafe {
        let child = fork();
        assert!(child >= 0, "no child process");
        if child == 0 {
            close(ERRORS);
            _exit(i32::from(!find()));
        }
        assert!(waitpid(child, &mut status, 0) == child);
    }
    if status & 0x7F == BAD_ADDRESS {
        return None;
    }
    Some(status == 0)
}
