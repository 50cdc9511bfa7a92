//! Buffers as they are lent to the archive. Each lies in pages of its own
//! between two pages that can be neither read nor written, often right at one
//! of them, so that a call that reads or writes past the end stops the test.
//! What lies before and behind the lent part belongs to the comparison.

use std::cell::RefCell;
use std::ffi::{c_int, c_void};
use std::fmt;
use std::marker::PhantomData;
use std::mem::size_of;
use std::ptr;
use std::slice;

use crate::random::Random;

/// How many elements on each side of the lent part are compared.
pub const MARGIN: usize = 16;

const PAGE: usize = 4096;
/// The bytes between the two closed pages.
const ROOM: usize = 8 * PAGE;

pub const PROT_NONE: c_int = 0;
pub const PROT_READ_WRITE: c_int = 3;
pub const MAP_PRIVATE: c_int = 0x02;
pub const MAP_PRIVATE_ANONYMOUS: c_int = 0x22;

extern "C" {
    pub fn mmap(
        address: *mut c_void,
        length: usize,
        protection: c_int,
        flags: c_int,
        file: c_int,
        offset: i64,
    ) -> *mut c_void;
    fn mprotect(address: *mut c_void, length: usize, protection: c_int) -> c_int;
}

thread_local! {
    /// Rooms that no buffer lies in at the moment.
    static IDLE: RefCell<Vec<*mut u8>> = const { RefCell::new(Vec::new()) };
}

/// An element of a lent buffer, u8 or u32: any bits are a value.
pub trait Element: Copy + PartialEq + fmt::UpperHex {
    fn random(random: &mut Random) -> Self;
}

impl Element for u8 {
    fn random(random: &mut Random) -> Self {
        random.draw() as u8
    }
}

impl Element for u32 {
    fn random(random: &mut Random) -> Self {
        random.draw() as u32
    }
}

/// A lent buffer.
pub struct Lent<T: Element> {
    room: *mut u8,
    first: usize,
    length: usize,
    null: bool,
    elements: PhantomData<T>,
}

impl<T: Element> Lent<T> {
    /// A buffer of this length with random content.
    pub fn filled(random: &mut Random, length: usize) -> Self {
        let most = ROOM / size_of::<T>();
        assert!(length <= most, "{length} elements are too many to lend");
        let first = match random.below(4) {
            0 => 0,
            1 => (most - length) / 2,
            _ => most - length,
        };
        let mut lent = Lent {
            room: idle_room(),
            first,
            length,
            null: length == 0 && random.one_in(4),
            elements: PhantomData,
        };
        for element in lent.whole_mut() {
            *element = T::random(random);
        }
        lent
    }

    /// A buffer with this content.
    pub fn holding(random: &mut Random, content: &[T]) -> Self {
        let mut lent = Lent::filled(random, content.len());
        lent.part_mut().copy_from_slice(content);
        lent
    }

    pub fn length(&self) -> usize {
        self.length
    }

    /// What a C program would hand over; an empty buffer may be a null pointer.
    pub fn pointer(&self) -> *const T {
        if self.null {
            ptr::null()
        } else {
            self.start().wrapping_add(self.first)
        }
    }

    pub fn pointer_mut(&mut self) -> *mut T {
        if self.null {
            ptr::null_mut()
        } else {
            self.start().wrapping_add(self.first)
        }
    }

    /// The lent part.
    pub fn part(&self) -> &[T] {
        let from = self.first - self.margin_before();
        &self.whole()[self.first - from..][..self.length]
    }

    pub fn part_mut(&mut self) -> &mut [T] {
        let (before, length) = (self.margin_before(), self.length);
        &mut self.whole_mut()[before..][..length]
    }

    /// The lent part with its margins.
    pub fn whole(&self) -> &[T] {
        let (from, count) = self.extent();
        // SAFETY: the extent lies in the room, which is mapped, is this
        // buffer's alone while it lives, and was written when it was made.
        unsafe { slice::from_raw_parts(self.start().add(from), count) }
    }

    pub fn whole_mut(&mut self) -> &mut [T] {
        let (from, count) = self.extent();
        // SAFETY: as above, and the buffer is borrowed alone; the pages of a
        // fresh room are zero, so that they hold values before they are
        // written.
        unsafe { slice::from_raw_parts_mut(self.start().add(from), count) }
    }

    fn start(&self) -> *mut T {
        self.room.cast()
    }

    fn margin_before(&self) -> usize {
        self.first.min(MARGIN)
    }

    /// Where the whole starts in the room, and how many elements it has.
    fn extent(&self) -> (usize, usize) {
        let from = self.first - self.margin_before();
        let to = (self.first + self.length + MARGIN).min(ROOM / size_of::<T>());
        (from, to - from)
    }
}

impl<T: Element> Clone for Lent<T> {
    fn clone(&self) -> Self {
        let mut copy = Lent {
            room: idle_room(),
            ..*self
        };
        copy.whole_mut().copy_from_slice(self.whole());
        copy
    }
}

impl<T: Element> Drop for Lent<T> {
    fn drop(&mut self) {
        IDLE.with(|idle| idle.borrow_mut().push(self.room));
    }
}

impl<T: Element> PartialEq for Lent<T> {
    fn eq(&self, other: &Self) -> bool {
        self.first == other.first && self.whole() == other.whole()
    }
}

impl<T: Element> fmt::Debug for Lent<T> {
    /// Margin, lent part and margin in hex.
    fn fmt(&self, out: &mut fmt::Formatter<'_>) -> fmt::Result {
        let (before, rest) = self.whole().split_at(self.margin_before());
        let (part, behind) = rest.split_at(self.length);
        write!(out, "{} | {} | {}", hex(before), hex(part), hex(behind))
    }
}

/// Elements in hex, as the tests print them.
pub fn hex<T: fmt::UpperHex>(elements: &[T]) -> String {
    let digits = 2 * size_of::<T>();
    let words: Vec<String> = elements
        .iter()
        .map(|element| format!("{element:0digits$X}"))
        .collect();
    format!("[{}]", words.join(" "))
}

/// A room that no buffer lies in: one that was used before, or a fresh one.
fn idle_room() -> *mut u8 {
    let idle = IDLE.with(|idle| idle.borrow_mut().pop());
    idle.unwrap_or_else(fresh_room)
}

fn fresh_room() -> *mut u8 {
    // SAFETY: a fresh mapping of closed pages touches nothing of the program;
    // its inner pages are then opened. It stays until the program ends.
    unsafe {
        let length = ROOM + 2 * PAGE;
        let all = mmap(
            ptr::null_mut(),
            length,
            PROT_NONE,
            MAP_PRIVATE_ANONYMOUS,
            -1,
            0,
        );
        assert_ne!(all as isize, -1, "mmap refused");
        let room = all.cast::<u8>().add(PAGE);
        let opened = mprotect(room.cast(), ROOM, PROT_READ_WRITE);
        assert_eq!(opened, 0, "mprotect refused");
        room
    }
}
