//! Buffers between pages that must not be touched.
use std::ffi::c_void;

extern "C" {
    fn mmap(at: *mut c_void, length: usize, allow: i32, flags: i32, file: i32, offset: i64) -> *mut c_void;
    fn munmap(at: *mut c_void, length: usize) -> i32;
    pub(crate) fn mprotect(at: *mut c_void, length: usize, allow: i32) -> i32;
}

pub(crate) const NOTHING: i32 = 0;
pub(crate) const READ_AND_WRITE: i32 = 1 | 2;
const PRIVATE_AND_EMPTY: i32 = 0x02 | 0x20;

/// No page of the machines at hand is larger.
const PAGE: usize = 65_536;
/// As many bytes as the largest sheet has, so that a wrong row is not past the guard.
const GUARD: usize = 512 * PAGE;

/// Which of the two guards a buffer touches.
#[derive(Clone, Copy, Debug, PartialEq)]
pub enum Against {
    Before,
    After,
}

/// Room for a buffer, with a guard on either side.
pub struct Guarded {
    start: *mut u8,
    room: usize,
}

impl Guarded {
    pub fn with_room(bytes: usize) -> Guarded {
        let room = bytes.next_multiple_of(PAGE).max(PAGE);
        // SAFETY: a new mapping, of which only the middle may be touched.
        unsafe {
            let whole = mmap(std::ptr::null_mut(), room + 2 * GUARD, NOTHING, PRIVATE_AND_EMPTY, -1, 0);
            assert!(whole as isize != -1, "no memory for {room} bytes");
            let start = whole.cast::<u8>().add(GUARD);
            assert_eq!(mprotect(start.cast(), room, READ_AND_WRITE), 0, "pages cannot be opened");
            Guarded { start, room }
        }
    }

    /// A buffer of this many numbers that touches one of the guards.
    pub fn lend<T: Copy + Plain>(&mut self, count: usize, against: Against) -> &mut [T] {
        let bytes = count * size_of::<T>();
        assert!(bytes <= self.room);
        let skipped = if against == Against::Before { 0 } else { self.room - bytes };
        // SAFETY: within the open pages, aligned because the room and the bytes are multiples of T's alignment, and any
        // bytes are a T.
        unsafe { std::slice::from_raw_parts_mut(self.start.add(skipped).cast(), count) }
    }

    /// A buffer that holds a copy of these numbers and touches one of the guards.
    pub fn lend_copy<T: Copy + Plain>(&mut self, held: &[T], against: Against) -> &mut [T] {
        let lent = self.lend(held.len(), against);
        lent.copy_from_slice(held);
        lent
    }
}

impl Drop for Guarded {
    fn drop(&mut self) {
        // SAFETY: the mapping is this one's own, and what was lent has ended.
        unsafe { munmap(self.start.sub(GUARD).cast(), self.room + 2 * GUARD) };
    }
}

/// What any bytes are a value of.
pub trait Plain {}
impl Plain for u8 {}
impl Plain for i32 {}
impl Plain for u32 {}
impl Plain for u64 {}
impl Plain for crate::native::Pen {}
