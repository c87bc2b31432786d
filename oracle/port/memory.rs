//! Memory with pages that may not be touched, and the time used, from the C library.

use std::ffi::c_void;

extern "C" {
    fn mmap(at: *mut c_void, bytes: usize, protection: i32, flags: i32, file: i32, offset: i64) -> *mut c_void;
    fn mprotect(at: *mut c_void, bytes: usize, protection: i32) -> i32;
    fn sysconf(name: i32) -> i64;
    fn signal(number: i32, handler: usize) -> usize;
    fn fork() -> i32;
    fn waitpid(child: i32, status: *mut i32, options: i32) -> i32;
    fn _exit(status: i32) -> !;
    fn clock_gettime(clock: i32, time: *mut [i64; 2]) -> i32;
}

const NONE: i32 = 0;
const READ: i32 = 1;
const READ_WRITE: i32 = 3;
const PRIVATE_ANONYMOUS: i32 = 0x22;
const PAGE_SIZE: i32 = 30;
const SEGMENT_FAULT: i32 = 11;
const BUS_FAULT: i32 = 7;
const PROCESS_TIME: i32 = 2;

fn page() -> usize {
    unsafe { sysconf(PAGE_SIZE) as usize }
}

/// Where a list stands in its pages.
#[derive(Clone, Copy, PartialEq)]
pub enum Fence {
    /// Its first byte is the first after a page that may not be touched.
    Before,
    /// Its last byte is the last before a page that may not be touched.
    Behind,
}

/// Pages between two that may not be touched.
pub struct Fenced {
    start: *mut u8,
    bytes: usize,
}

impl Fenced {
    pub fn new(at_least: usize) -> Fenced {
        let page = page();
        let bytes = at_least.div_ceil(page) * page;
        unsafe {
            let all = mmap(std::ptr::null_mut(), bytes + 2 * page, NONE, PRIVATE_ANONYMOUS, -1, 0);
            assert!(all as isize != -1, "no memory");
            let start = (all as *mut u8).add(page);
            assert!(mprotect(start as *mut c_void, bytes, READ_WRITE) == 0, "no pages to write");
            Fenced { start, bytes }
        }
    }

    pub fn start(&self) -> *mut u8 {
        self.start
    }

    pub fn bytes(&self) -> usize {
        self.bytes
    }

    /// Where n of T stand.
    pub fn place<T>(&self, n: usize, fence: Fence) -> *mut T {
        let bytes = n * std::mem::size_of::<T>();
        assert!(bytes <= self.bytes, "too few pages");
        match fence {
            Fence::Before => self.start as *mut T,
            Fence::Behind => unsafe { self.start.add(self.bytes - bytes) as *mut T },
        }
    }

    /// The list put in its place; the rest of the pages holds anything.
    pub fn put<T: Copy>(&self, list: &[T], fence: Fence) -> *mut T {
        let place = self.place(list.len(), fence);
        unsafe { std::ptr::copy_nonoverlapping(list.as_ptr(), place, list.len()) };
        place
    }

    pub fn get<T: Copy>(&self, n: usize, fence: Fence) -> &[T] {
        unsafe { std::slice::from_raw_parts(self.place(n, fence), n) }
    }

    pub fn may_be_written(&self, written: bool) {
        let protection = if written { READ_WRITE } else { READ };
        assert!(unsafe { mprotect(self.start as *mut c_void, self.bytes, protection) } == 0, "no change of pages");
    }
}

/// The handler is called when a page is touched that may not be.
pub fn on_fault(handler: extern "C" fn(i32)) {
    unsafe {
        signal(SEGMENT_FAULT, handler as usize);
        signal(BUS_FAULT, handler as usize);
    }
}

pub fn leave(status: i32) -> ! {
    unsafe { _exit(status) }
}

/// Whether a child process that does this is stopped for touching a page.
pub fn stopped(touch: impl Fn()) -> bool {
    unsafe {
        let child = fork();
        if child == 0 {
            signal(SEGMENT_FAULT, 0);
            signal(BUS_FAULT, 0);
            touch();
            _exit(0)
        }
        let mut status = 0;
        child > 0 && waitpid(child, &mut status, 0) == child && matches!(status & 0x7f, SEGMENT_FAULT | BUS_FAULT)
    }
}

/// The processor's seconds that this process has used.
pub fn processor_seconds() -> f64 {
    let mut time = [0; 2];
    unsafe { clock_gettime(PROCESS_TIME, &mut time) };
    time[0] as f64 + 1e-9 * time[1] as f64
}
