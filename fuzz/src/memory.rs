//! Memory lent to the library, placed so that what it does outside is found.

use std::{ptr, slice};

/// The guard bytes on either side of a buffer.
const GUARD_SIZE: usize = 64;

/// What the guard bytes hold.
const GUARD: [u8; GUARD_SIZE] = guard_bytes();

const fn guard_bytes() -> [u8; GUARD_SIZE] {
    let mut bytes = [0; GUARD_SIZE];
    let mut i = 0;
    while i < GUARD_SIZE {
        bytes[i] = (i as u8).wrapping_mul(29) ^ 0xA5;
        i += 1;
    }
    bytes
}

const PAGE_SIZE: usize = 4096;

/// How a buffer lies.
#[derive(Clone, Copy, Debug, PartialEq, Eq)]
pub enum Layout {
    /// Guard bytes on both sides; a write to them is found after the call.
    Guarded,
    /// The byte after it lies on a page without access: a read or write there ends the run.
    AtEnd,
    /// The byte before it lies on such a page.
    AtStart,
    /// An allocation of its own, of its very length, for valgrind.
    Heap,
}

extern "C" {
    fn mmap(at: *mut u8, size: usize, access: i32, kind: i32, file: i32, offset: i64) -> *mut u8;
    fn mprotect(at: *mut u8, size: usize, access: i32) -> i32;
    fn munmap(at: *mut u8, size: usize) -> i32;
}

const NO_ACCESS: i32 = 0;
const READ_AND_WRITE: i32 = 1 | 2;
/// Private, of no file, and with none of it set aside.
const NEW_MEMORY: i32 = 0x02 | 0x20 | 0x4000;

/// Memory of its own between two pages without access.
pub struct Mapping {
    at: *mut u8,
    size: usize,
}

impl Mapping {
    /// At least that many bytes, up to the end of a page, all 0. There is no memory behind them until they are touched.
    pub fn new(least: usize) -> Mapping {
        let size = least.next_multiple_of(PAGE_SIZE);
        // SAFETY: new memory is asked for, and what is handed back is used if it is there.
        unsafe {
            let whole = size + 2 * PAGE_SIZE;
            let from = mmap(ptr::null_mut(), whole, NO_ACCESS, NEW_MEMORY, -1, 0);
            assert!(from as isize != -1, "no room for a mapping of {size} bytes");
            let at = from.add(PAGE_SIZE);
            let access = mprotect(at, size, READ_AND_WRITE);
            assert_eq!(access, 0, "no access to a mapping of {size} bytes");
            Mapping { at, size }
        }
    }

    /// Writes these bytes over its first ones, and answers its address.
    pub fn begin_with(&mut self, bytes: &[u8]) -> *mut u8 {
        self.part_mut(0, bytes.len()).copy_from_slice(bytes);
        self.at
    }

    fn part(&self, at: usize, length: usize) -> &[u8] {
        debug_assert!(at + length <= self.size);
        // SAFETY: the part lies between the two pages.
        unsafe { slice::from_raw_parts(self.at.add(at), length) }
    }

    fn part_mut(&mut self, at: usize, length: usize) -> &mut [u8] {
        debug_assert!(at + length <= self.size);
        // SAFETY: as above, and the mapping is lent to be written.
        unsafe { slice::from_raw_parts_mut(self.at.add(at), length) }
    }
}

impl Drop for Mapping {
    fn drop(&mut self) {
        // SAFETY: it was mapped with this size, and nothing keeps a pointer to it.
        unsafe { munmap(self.at.sub(PAGE_SIZE), self.size + 2 * PAGE_SIZE) };
    }
}

/// Room for one buffer at a time.
pub struct Arena {
    mapping: Mapping,
    layout: Layout,
    /// Where in the mapping the buffer lies.
    at: usize,
    length: usize,
    heap: Box<[u8]>,
}

impl Arena {
    /// An arena for buffers of up to that length.
    pub fn new(longest: usize) -> Arena {
        Arena {
            mapping: Mapping::new(longest + 3 * GUARD_SIZE),
            layout: Layout::Guarded,
            at: GUARD_SIZE,
            length: 0,
            heap: Box::default(),
        }
    }

    /// Places a buffer with these bytes. The shift moves it by up to 15 bytes where it can, for other alignments.
    pub fn lend(&mut self, layout: Layout, shift: usize, bytes: &[u8]) {
        assert!(
            bytes.len() + 3 * GUARD_SIZE <= self.mapping.size,
            "too long for the arena"
        );
        self.layout = layout;
        self.length = bytes.len();
        self.at = match layout {
            Layout::Guarded => GUARD_SIZE + shift % 16,
            Layout::AtEnd => self.mapping.size - bytes.len(),
            Layout::AtStart => 0,
            Layout::Heap => {
                self.heap = bytes.into();
                return;
            }
        };
        for at in self.guards().into_iter().flatten() {
            self.mapping
                .part_mut(at, GUARD_SIZE)
                .copy_from_slice(&GUARD);
        }
        self.mapping
            .part_mut(self.at, bytes.len())
            .copy_from_slice(bytes);
    }

    /// The buffer's address. One of no bytes has NULL for every other shift, as the header allows.
    pub fn pointer(&self, shift: usize) -> *mut u8 {
        match self.layout {
            _ if self.length == 0 && shift % 2 == 1 => ptr::null_mut(),
            Layout::Heap => self.heap.as_ptr().cast_mut(),
            // SAFETY: at is at most the size.
            _ => unsafe { self.mapping.at.add(self.at) },
        }
    }

    pub fn length(&self) -> usize {
        self.length
    }

    /// The buffer's bytes.
    pub fn bytes(&self) -> &[u8] {
        match self.layout {
            Layout::Heap => &self.heap,
            _ => self.mapping.part(self.at, self.length),
        }
    }

    /// Where a guard byte was changed, counted from the buffer's first byte.
    pub fn changed_outside(&self) -> Option<isize> {
        if self.layout == Layout::Heap {
            return None;
        }
        self.guards().into_iter().flatten().find_map(|at| {
            let now = self.mapping.part(at, GUARD_SIZE);
            let place = now.iter().zip(&GUARD).position(|(now, was)| now != was)?;
            Some((at + place) as isize - self.at as isize)
        })
    }

    /// Where guard bytes begin, before the buffer and behind it.
    fn guards(&self) -> [Option<usize>; 2] {
        let (before, behind) = match self.layout {
            Layout::Guarded => (true, true),
            Layout::AtEnd => (true, false),
            Layout::AtStart => (false, true),
            Layout::Heap => (false, false),
        };
        [
            before.then(|| self.at - GUARD_SIZE),
            behind.then_some(self.at + self.length),
        ]
    }
}

#[cfg(test)]
mod tests {
    use super::*;

    const ALL: [Layout; 4] = [
        Layout::Guarded,
        Layout::AtEnd,
        Layout::AtStart,
        Layout::Heap,
    ];

    #[test]
    fn a_buffer_holds_its_bytes_in_every_layout() {
        let mut arena = Arena::new(5000);
        for layout in ALL {
            for length in [0, 1, 129, 5000] {
                for shift in [0, 7, 15] {
                    let bytes: Vec<u8> = (0..length).map(|i| i as u8).collect();
                    arena.lend(layout, shift, &bytes);
                    assert_eq!(arena.bytes(), bytes);
                    assert_eq!(arena.length(), length);
                    assert_eq!(arena.changed_outside(), None);
                }
            }
        }
    }

    #[test]
    fn every_guard_byte_is_looked_at() {
        let mut arena = Arena::new(129);
        for layout in [Layout::Guarded, Layout::AtEnd, Layout::AtStart] {
            let before = (-64..0).filter(|_| layout != Layout::AtStart);
            let behind = (129..129 + 64).filter(|_| layout != Layout::AtEnd);
            for place in before.chain(behind) {
                arena.lend(layout, 3, &[7; 129]);
                // SAFETY: the guard bytes are the arena's own.
                unsafe { *arena.pointer(3).offset(place) ^= 1 };
                assert_eq!(arena.changed_outside(), Some(place), "{layout:?}");
                assert_eq!(arena.bytes(), [7; 129]);
            }
        }
    }

    #[test]
    fn the_edges_are_pages() {
        let mut arena = Arena::new(100);
        arena.lend(Layout::AtEnd, 0, &[1; 100]);
        assert_eq!((arena.pointer(0) as usize + 100) % PAGE_SIZE, 0);
        arena.lend(Layout::AtStart, 0, &[1; 100]);
        assert_eq!(arena.pointer(0) as usize % PAGE_SIZE, 0);
    }

    #[test]
    fn no_bytes_may_have_no_address() {
        let mut arena = Arena::new(8);
        for layout in ALL {
            arena.lend(layout, 0, &[]);
            assert!(arena.pointer(1).is_null());
            assert!(!arena.pointer(0).is_null());
            arena.lend(layout, 1, &[1]);
            assert!(!arena.pointer(1).is_null());
        }
    }
}
