//! Peak stack, by a painted thread stack, and peak heap, by a counting allocator.

use std::alloc::{GlobalAlloc, Layout, System};
use std::sync::atomic::{AtomicBool, AtomicUsize, Ordering::Relaxed};

static COUNTING: AtomicBool = AtomicBool::new(false);
static HELD: AtomicUsize = AtomicUsize::new(0);
static MOST: AtomicUsize = AtomicUsize::new(0);

/// The system's allocator; counts while it is asked to.
pub struct Counting;

// SAFETY: every call goes to the system's allocator unchanged.
unsafe impl GlobalAlloc for Counting {
    unsafe fn alloc(&self, layout: Layout) -> *mut u8 {
        if COUNTING.load(Relaxed) {
            let held = HELD.fetch_add(layout.size(), Relaxed) + layout.size();
            MOST.fetch_max(held, Relaxed);
        }
        System.alloc(layout)
    }

    unsafe fn dealloc(&self, pointer: *mut u8, layout: Layout) {
        if COUNTING.load(Relaxed) {
            HELD.fetch_sub(layout.size(), Relaxed);
        }
        System.dealloc(pointer, layout)
    }
}

/// The most bytes of heap that are held at once during a call, besides those held before.
pub fn peak_heap(call: impl FnOnce()) -> usize {
    HELD.store(0, Relaxed);
    MOST.store(0, Relaxed);
    COUNTING.store(true, Relaxed);
    call();
    COUNTING.store(false, Relaxed);
    MOST.load(Relaxed)
}

/// The thread's stack, and how much of it is painted.
const STACK: usize = 8 << 20;
const PAINTED: usize = 4 << 20;
/// Bytes next to the painter's own frame that are left alone.
const OWN: usize = 1024;
const PAINT: u8 = 0xA5;

/// The bytes of stack that a call uses, in a thread of its own.
pub fn peak_stack(call: impl FnOnce() + Send) -> usize {
    std::thread::scope(|scope| {
        let thread = std::thread::Builder::new().stack_size(STACK);
        let measured = thread.spawn_scoped(scope, || {
            paint();
            called(call);
            unpainted()
        });
        measured.expect("a thread").join().expect("the call ends")
    })
}

#[inline(never)]
fn called(call: impl FnOnce()) {
    call();
}

/// The lowest painted address, told from a frame at the same depth as the call's.
#[inline(never)]
fn lowest() -> *mut u8 {
    let mark = 0u8;
    let here = std::hint::black_box(&raw const mark) as *mut u8;
    here.wrapping_sub(OWN + PAINTED)
}

#[inline(never)]
fn paint() {
    let low = lowest();
    for place in 0..PAINTED {
        // SAFETY: the place lies on this thread's stack, below every frame in use.
        unsafe { low.add(place).write_volatile(PAINT) };
    }
}

/// How far down the paint is gone, from the caller's frame on.
#[inline(never)]
fn unpainted() -> usize {
    let low = lowest();
    // SAFETY: as in `paint`; what is read was written there or by the call.
    let painted = |place: usize| unsafe { low.add(place).read_volatile() == PAINT };
    let whole = (0..PAINTED).take_while(|&place| painted(place)).count();
    match PAINTED - whole {
        0 => 0,
        used => used + OWN,
    }
}
