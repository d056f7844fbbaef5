//! Memory that slices are lent in: the heap, where each slice is a block of its own, or a place at the edge of a page that must
//! not be touched, so that reading or writing past the slice ends the process, and so does writing to one that is only read.

use std::alloc::{alloc, dealloc, Layout};

/// Where slices are lent.
#[derive(Clone, Copy, PartialEq, Eq)]
pub enum Place {
    /// A block of the heap, of just the slice's size.
    Heap,
    /// Directly before a page that must not be touched.
    BeforeGuard,
    /// Directly behind such a page.
    BehindGuard,
}

/// A slice in lent memory.
#[derive(Clone, Copy)]
pub struct Lent<T> {
    pub at: *mut T,
    pub len: usize,
}

impl<T: Copy> Lent<T> {
    /// What the slice holds now.
    pub fn read(self) -> Vec<T> {
        // SAFETY: `Memory::lend` made the slice, with all its elements, and it is given back only after the call's outcome is read.
        (0..self.len).map(|i| unsafe { self.at.add(i).read() }).collect()
    }
}

const PAGE: usize = 4096;
/// Bytes between the two guards, more than any slice of a case has.
const ROOM: usize = 1 << 24;

extern "C" {
    fn mmap(at: *mut u8, length: usize, protection: i32, flags: i32, file: i32, offset: i64) -> *mut u8;
    fn mprotect(at: *mut u8, length: usize, protection: i32) -> i32;
}

const PROT_NONE: i32 = 0;
const PROT_READ: i32 = 1;
const PROT_READ_WRITE: i32 = 3;
const MAP_PRIVATE_ANONYMOUS_NORESERVE: i32 = 0x4022;

/// The first byte of new memory of `ROOM` bytes, with a guard page before and one behind.
fn guarded() -> *mut u8 {
    // SAFETY: new memory at a place that the system chooses, of which the middle is opened for reading and writing.
    unsafe {
        let flags = MAP_PRIVATE_ANONYMOUS_NORESERVE;
        let all = mmap(std::ptr::null_mut(), ROOM + 2 * PAGE, PROT_NONE, flags, -1, 0);
        assert!(all as isize != -1, "no memory for guarded slices");
        let middle = all.add(PAGE);
        protect(middle, PROT_READ_WRITE);
        middle
    }
}

/// What may be done from now on with the room between two guards.
fn protect(room: *mut u8, protection: i32) {
    // SAFETY: `guarded` made the room, and slices in it are used as the protection allows, or the process is to end.
    let status = unsafe { mprotect(room, ROOM, protection) };
    assert_eq!(status, 0, "no protection for guarded slices");
}

/// Lends slices, and takes them all back at once.
pub struct Memory {
    place: Place,
    blocks: Vec<(*mut u8, Layout)>,
    guarded: Vec<*mut u8>,
    lent: usize,
    /// Rooms whose slice may only be read.
    read_only: Vec<*mut u8>,
}

impl Memory {
    pub fn new(place: Place) -> Self {
        Self { place, blocks: Vec::new(), guarded: Vec::new(), lent: 0, read_only: Vec::new() }
    }

    /// A copy of the slice.
    pub fn lend<T: Copy>(&mut self, slice: &[T]) -> Lent<T> {
        let size = std::mem::size_of_val(slice);
        let at = match self.place {
            Place::Heap => self.block(Layout::for_value(slice)),
            Place::BeforeGuard => self.room(size).wrapping_add(ROOM - size),
            Place::BehindGuard => self.room(size),
        };
        let at = at.cast::<T>();
        // SAFETY: the place has the slice's size and alignment, and nothing else lies there.
        unsafe { at.copy_from_nonoverlapping(slice.as_ptr(), slice.len()) };
        Lent { at, len: slice.len() }
    }

    /// A copy of the slice that may only be read: where there are guards, writing to it ends the process.
    pub fn lend_read<T: Copy>(&mut self, slice: &[T]) -> Lent<T> {
        let lent = self.lend(slice);
        if self.place != Place::Heap && !slice.is_empty() {
            let room = self.guarded[self.lent - 1];
            protect(room, PROT_READ);
            self.read_only.push(room);
        }
        lent
    }

    fn block(&mut self, layout: Layout) -> *mut u8 {
        if layout.size() == 0 {
            return layout.align() as *mut u8;
        }
        // SAFETY: the layout has a size.
        let at = unsafe { alloc(layout) };
        assert!(!at.is_null(), "no memory for a slice");
        self.blocks.push((at, layout));
        at
    }

    fn room(&mut self, size: usize) -> *mut u8 {
        assert!(size <= ROOM, "a slice of {size} bytes");
        if self.lent == self.guarded.len() {
            self.guarded.push(guarded());
        }
        self.lent += 1;
        self.guarded[self.lent - 1]
    }

    /// Ends the use of all slices lent so far.
    pub fn take_back(&mut self) {
        self.lent = 0;
        for room in self.read_only.drain(..) {
            protect(room, PROT_READ_WRITE);
        }
        for (at, layout) in self.blocks.drain(..) {
            // SAFETY: `block` allocated it with this layout.
            unsafe { dealloc(at, layout) };
        }
    }
}
