//! Memory between two pages that nobody may touch. Everything that a call is lent stands in such a place, hard at one of the two pages, so that a read
//! or a write outside ends the program, which then names the case. On the other side stand marks, which `untouched` looks at.

use std::cell::RefCell;
use std::ffi::{c_int, c_void};
use std::ptr;
use std::sync::Mutex;

const PAGE: usize = 4096;
const NONE: c_int = 0;
const READ_WRITE: c_int = 3;
const PRIVATE_ANONYMOUS: c_int = 0x22;
const SEGMENTATION_FAULT: c_int = 11;
const BUS_ERROR: c_int = 7;

unsafe extern "C" {
    fn mmap(address: *mut c_void, length: usize, protection: c_int, flags: c_int, file: c_int, offset: i64) -> *mut c_void;
    fn mprotect(address: *mut c_void, length: usize, protection: c_int) -> c_int;
    fn munmap(address: *mut c_void, length: usize) -> c_int;
    fn signal(number: c_int, handler: extern "C" fn(c_int)) -> usize;
    fn _exit(status: c_int) -> !;
}

/// At which of the two pages the lists stand.
#[derive(Clone, Copy, PartialEq)]
pub enum Side {
    Before,
    After,
}

/// What is written beside a list, and how many of it are looked at.
const MARK: u8 = 0xa5;
const MARKS: usize = 64;

/// What stands in a list that a call is to write.
pub const FILL: u8 = 9;

/// One place: pages of its own, with a page before and a page after them that nobody may touch.
struct Fence {
    pages: *mut u8,
    capacity: usize,
    start: usize,
    length: usize,
    /// The bytes of a list that is only to be read.
    read_only: Option<Vec<u8>>,
}

impl Fence {
    fn new(bytes: usize) -> Fence {
        let capacity = (bytes + MARKS).next_multiple_of(PAGE);
        unsafe {
            let mapped = mmap(ptr::null_mut(), capacity + 2 * PAGE, NONE, PRIVATE_ANONYMOUS, -1, 0);
            assert!(mapped as isize != -1, "no memory");
            let pages = mapped.cast::<u8>().add(PAGE);
            assert_eq!(mprotect(pages.cast(), capacity, READ_WRITE), 0);
            Fence { pages, capacity, start: 0, length: 0, read_only: None }
        }
    }

    fn bytes(&mut self) -> &mut [u8] {
        unsafe { std::slice::from_raw_parts_mut(self.pages, self.capacity) }
    }

    fn place(&mut self, length: usize, side: Side) -> &mut [u8] {
        self.length = length;
        self.start = if side == Side::Before { 0 } else { self.capacity - length };
        let (start, marks) = (self.start, self.marks());
        self.bytes()[marks].fill(MARK);
        &mut self.bytes()[start..start + length]
    }

    /// The bytes beside the list, away from the page that it stands at.
    fn marks(&self) -> std::ops::Range<usize> {
        if self.start == 0 { self.length..self.length + MARKS } else { self.start - MARKS..self.start }
    }

    fn untouched(&mut self) -> bool {
        let (marks, list) = (self.marks(), self.start..self.start + self.length);
        let kept = self.read_only.take().is_none_or(|before| self.bytes()[list] == before[..]);
        kept && self.bytes()[marks].iter().all(|&byte| byte == MARK)
    }
}

impl Drop for Fence {
    fn drop(&mut self) {
        unsafe { munmap(self.pages.sub(PAGE).cast(), self.capacity + 2 * PAGE) };
    }
}

/// A list lent to a call: an address and a length.
#[derive(Clone, Copy)]
pub struct Lent<T> {
    pub at: *mut T,
    pub length: usize,
}

impl<T: Copy> Lent<T> {
    /// What stands there; before the places are used for another call.
    pub fn get(&self) -> &[T] {
        unsafe { std::slice::from_raw_parts(self.at, self.length) }
    }

    pub fn first(&self) -> T {
        self.get()[0]
    }
}

/// The places for the lists of one call after another.
pub struct Memory {
    side: Side,
    fences: Vec<Fence>,
    used: usize,
}

impl Memory {
    pub fn new(side: Side) -> Memory {
        Memory { side, fences: Vec::new(), used: 0 }
    }

    /// A list for a call to read.
    pub fn lend<T: Copy>(&mut self, contents: &[T]) -> Lent<T> {
        let bytes = unsafe { std::slice::from_raw_parts(contents.as_ptr().cast::<u8>(), size_of_val(contents)) };
        let side = self.side;
        let fence = self.next(bytes.len());
        let list = fence.place(bytes.len(), side);
        list.copy_from_slice(bytes);
        let at = list.as_mut_ptr().cast();
        fence.read_only = Some(bytes.to_vec());
        Lent { at, length: contents.len() }
    }

    /// A list of so many elements for a call to write, filled with FILL.
    pub fn room<T: Copy>(&mut self, length: usize) -> Lent<T> {
        let side = self.side;
        let list = self.next(length * size_of::<T>()).place(length * size_of::<T>(), side);
        list.fill(FILL);
        Lent { at: list.as_mut_ptr().cast(), length }
    }

    /// A list of these elements for a call to write.
    pub fn room_with<T: Copy>(&mut self, contents: &[T]) -> Lent<T> {
        let lent = self.lend(contents);
        self.fences[self.used - 1].read_only = None;
        lent
    }

    /// Whether the call just made left alone what it was to read, and all beside the lists. The places are then free for the next call.
    pub fn untouched(&mut self) -> bool {
        let used = std::mem::take(&mut self.used);
        let untouched: Vec<bool> = self.fences[..used].iter_mut().map(Fence::untouched).collect();
        !untouched.contains(&false)
    }

    fn next(&mut self, bytes: usize) -> &mut Fence {
        if self.used == self.fences.len() {
            let free = FREE.with_borrow_mut(Vec::pop);
            self.fences.push(free.unwrap_or_else(|| Fence::new(bytes)));
        }
        if self.fences[self.used].capacity < bytes + MARKS {
            self.fences[self.used] = Fence::new(bytes);
        }
        self.used += 1;
        &mut self.fences[self.used - 1]
    }
}

thread_local! {
    /// Places of earlier cases, to be used again.
    static FREE: RefCell<Vec<Fence>> = const { RefCell::new(Vec::new()) };
}

impl Drop for Memory {
    fn drop(&mut self) {
        FREE.with_borrow_mut(|free| free.append(&mut self.fences));
    }
}

/// The case that is being run.
static CASE: Mutex<(u64, &str, usize)> = Mutex::new((0, "", 0));

/// Says which case is run next, for a fault in it.
pub fn watch(seed: u64, part: &'static str, number: usize) {
    *CASE.lock().unwrap() = (seed, part, number);
}

/// From now on a fault names the case that it is in, and ends the program.
pub fn name_faults() {
    unsafe { signal(SEGMENTATION_FAULT, fault) };
    unsafe { signal(BUS_ERROR, fault) };
    std::panic::set_hook(Box::new(|panic| {
        eprintln!("{panic}");
        name_case();
    }));
}

extern "C" fn fault(_: c_int) {
    eprintln!("memory outside of the lists was touched");
    name_case();
    unsafe { _exit(2) };
}

fn name_case() {
    if let Ok(case) = CASE.try_lock() {
        let (seed, part, number) = *case;
        eprintln!("in {part} {number}; alone: compare/run --seed {seed} --alone {part} {number}");
    }
}
