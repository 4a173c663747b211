//! Limits of a run. A book can be small and make the Rust work without end; the programs then stop with exit status 3.

use std::alloc::{GlobalAlloc, Layout, System};
use std::sync::atomic::{AtomicUsize, Ordering::Relaxed};
use std::time::Duration;

/// Bytes in use at once; ORACLE_MEMORY_MIB sets another number of MiB.
pub const MEMORY_MIB: usize = 2048;
/// Wall-clock time; ORACLE_SECONDS sets another number.
pub const SECONDS: u64 = 60;
/// Stack of the thread that runs a book.
pub const STACK_MIB: usize = 1024;
/// 01's bound on nesting, looked at after each line: no book builds on a deeper state, so the stack suffices.
pub const NESTING: u32 = 256;

pub const STATUS: i32 = 3;

struct Counting;

static IN_USE: AtomicUsize = AtomicUsize::new(0);
static MOST: AtomicUsize = AtomicUsize::new(usize::MAX);

extern "C" {
    fn write(fd: i32, bytes: *const u8, count: usize) -> isize;
    fn _exit(status: i32) -> !;
}

// Neither allocates nor unwinds: it is called from within the allocator.
fn stop(message: &[u8]) -> ! {
    unsafe {
        write(2, message.as_ptr(), message.len());
        _exit(STATUS)
    }
}

fn count(bytes: usize) {
    if IN_USE.fetch_add(bytes, Relaxed).saturating_add(bytes) > MOST.load(Relaxed) {
        stop(b"limit: memory\n");
    }
}

unsafe impl GlobalAlloc for Counting {
    unsafe fn alloc(&self, layout: Layout) -> *mut u8 {
        count(layout.size());
        System.alloc(layout)
    }
    unsafe fn alloc_zeroed(&self, layout: Layout) -> *mut u8 {
        count(layout.size());
        System.alloc_zeroed(layout)
    }
    unsafe fn dealloc(&self, at: *mut u8, layout: Layout) {
        IN_USE.fetch_sub(layout.size(), Relaxed);
        System.dealloc(at, layout)
    }
    unsafe fn realloc(&self, at: *mut u8, layout: Layout, size: usize) -> *mut u8 {
        count(size);
        IN_USE.fetch_sub(layout.size(), Relaxed);
        System.realloc(at, layout, size)
    }
}

#[global_allocator]
static ALLOCATOR: Counting = Counting;

fn setting(name: &str, default: usize) -> usize {
    std::env::var(name).ok().and_then(|s| s.parse().ok()).unwrap_or(default)
}

/// Runs the work on a thread with a large stack, under the limits of memory and time.
pub fn run<T: Send + 'static>(work: impl FnOnce() -> T + Send + 'static) -> T {
    MOST.store(setting("ORACLE_MEMORY_MIB", MEMORY_MIB).saturating_mul(1 << 20), Relaxed);
    let seconds = setting("ORACLE_SECONDS", SECONDS as usize) as u64;
    std::thread::spawn(move || {
        std::thread::sleep(Duration::from_secs(seconds));
        stop(b"limit: time\n");
    });
    on_large_stack(work)
}

/// The same without the limits, for tests.
pub fn on_large_stack<T: Send + 'static>(work: impl FnOnce() -> T + Send + 'static) -> T {
    let thread = std::thread::Builder::new().stack_size(STACK_MIB << 20).spawn(work).expect("a thread");
    match thread.join() {
        Ok(value) => value,
        Err(cause) => std::panic::resume_unwind(cause),
    }
}
