//! Memory to lend, between two pages without access. A slice lies flush against one of them, so
//! that a read or write past that end stops the program; on its other side lies a band of known
//! bytes, which is looked at after every call. The sides take turns.

use std::ffi::c_void;
use std::marker::PhantomData;
use std::ptr::NonNull;

extern "C" {
    fn mmap(at: *mut c_void, length: usize, access: i32, flags: i32, file: i32, offset: i64) -> *mut c_void;
    fn mprotect(at: *mut c_void, length: usize, access: i32) -> i32;
    fn munmap(at: *mut c_void, length: usize) -> i32;
}

const NO_ACCESS: i32 = 0;
const READ_WRITE: i32 = 3;
const PRIVATE_ANONYMOUS: i32 = 0x22;
const PAGE: usize = 4_096;
/// Bytes of the band.
const BAND: usize = 64;
/// What the band holds.
const PATTERN: u8 = 0xb7;

/// Whole pages between two pages without access.
struct Pages {
    base: NonNull<u8>,
    length: usize,
}

impl Pages {
    fn new(least: usize) -> Pages {
        let length = least.div_ceil(PAGE) * PAGE;
        // SAFETY: new pages of our own; the inner ones are made accessible.
        unsafe {
            let all =
                mmap(std::ptr::null_mut(), length + 2 * PAGE, NO_ACCESS, PRIVATE_ANONYMOUS, -1, 0) as *mut u8;
            assert!(all as isize != -1, "no memory");
            let base = all.add(PAGE);
            assert!(mprotect(base as *mut c_void, length, READ_WRITE) == 0, "no memory");
            Pages { base: NonNull::new(base).expect("pages have an address"), length }
        }
    }

    fn bytes(&self) -> &[u8] {
        // SAFETY: the pages are ours and accessible.
        unsafe { std::slice::from_raw_parts(self.base.as_ptr(), self.length) }
    }

    fn bytes_mut(&mut self) -> &mut [u8] {
        // SAFETY: the pages are ours and accessible.
        unsafe { std::slice::from_raw_parts_mut(self.base.as_ptr(), self.length) }
    }
}

impl Drop for Pages {
    fn drop(&mut self) {
        // SAFETY: the pages are ours, and nobody holds them any more.
        unsafe { munmap(self.base.as_ptr().sub(PAGE) as *mut c_void, self.length + 2 * PAGE) };
    }
}

/// Types whose every bit pattern is a value.
pub trait Plain: Copy {}
impl Plain for u8 {}
impl Plain for u32 {}
impl Plain for i32 {}
impl Plain for u64 {}
impl Plain for f64 {}

/// One lent slice.
pub struct Lent<T> {
    pages: Pages,
    start: usize,
    length: usize,
    at_front: bool,
    kind: PhantomData<T>,
}

impl<T: Plain> Default for Lent<T> {
    fn default() -> Lent<T> {
        let mut lent = Lent { pages: Pages::new(1), start: 0, length: 0, at_front: false, kind: PhantomData };
        lent.lay(&[]);
        lent
    }
}

impl<T: Plain> Lent<T> {
    /// Lays `content` down, on the other side than last time.
    pub fn lay(&mut self, content: &[T]) {
        let bytes = std::mem::size_of_val(content);
        if self.pages.length < bytes + BAND {
            self.pages = Pages::new(2 * (bytes + BAND));
        }
        self.at_front = !self.at_front;
        self.length = content.len();
        self.start = if self.at_front { 0 } else { self.pages.length - bytes };
        let band = self.band();
        self.pages.bytes_mut()[band].fill(PATTERN);
        self.now_mut().copy_from_slice(content);
    }

    fn band(&self) -> std::ops::Range<usize> {
        let end = self.start + self.length * size_of::<T>();
        if self.at_front {
            end..end + BAND
        } else {
            self.start - BAND..self.start
        }
    }

    /// What it holds.
    pub fn now(&self) -> &[T] {
        // SAFETY: the slice lies within the pages, aligned, since pages and lengths are.
        unsafe { std::slice::from_raw_parts(self.at(), self.length) }
    }

    /// What it holds, to be written.
    pub fn now_mut(&mut self) -> &mut [T] {
        // SAFETY: as for `now`.
        unsafe { std::slice::from_raw_parts_mut(self.at(), self.length) }
    }

    /// What it holds, as an array.
    pub fn array<const N: usize>(&self) -> &[T; N] {
        self.now().try_into().expect("as many elements were laid down")
    }

    /// What it holds, as an array to be written.
    pub fn array_mut<const N: usize>(&mut self) -> &mut [T; N] {
        self.now_mut().try_into().expect("as many elements were laid down")
    }

    /// The one number that it holds, to be written.
    pub fn number_mut(&mut self) -> &mut T {
        let [number] = self.array_mut();
        number
    }

    /// Where it begins.
    fn at(&self) -> *mut T {
        // SAFETY: start is within the pages.
        unsafe { self.pages.base.as_ptr().add(self.start) as *mut T }
    }

    /// Whether the band is as it was.
    pub fn guarded(&self) -> bool {
        self.pages.bytes()[self.band()].iter().all(|byte| *byte == PATTERN)
    }
}
