//! The stack that a call takes, by painting: a thread gets a stack of known bytes, calls first an entry point that does
//! nothing and then the one that is measured, from the same place. How much further down bytes have changed is what the
//! call takes below its return address.

use crate::face::Face;
use crate::task::Task;
use std::ffi::{c_int, c_void};
use std::hint::black_box;
use std::ptr;

const STACK_BYTES: usize = 256 * 1024;
/// What the thread's own start has left dirty lies above this much.
const SKIPPED_BYTES: usize = 64 * 1024;
const PAINT: u8 = 0xA7;

#[repr(C, align(64))]
struct Attributes([u8; 256]);

extern "C" {
    fn pthread_attr_init(attributes: *mut Attributes) -> c_int;
    fn pthread_attr_setstack(attributes: *mut Attributes, low: *mut c_void, size: usize) -> c_int;
    fn pthread_attr_destroy(attributes: *mut Attributes) -> c_int;
    fn pthread_create(
        thread: *mut usize,
        attributes: *const Attributes,
        start: extern "C" fn(*mut c_void) -> *mut c_void,
        argument: *mut c_void,
    ) -> c_int;
    fn pthread_join(thread: usize, answer: *mut *mut c_void) -> c_int;
}

struct Errand<'a> {
    task: &'a mut dyn Task,
    face: Face,
    low: *const u8,
    taken: usize,
}

/// The most that the call has taken, of its stack's bytes.
pub fn taken(task: &mut dyn Task, face: &Face) -> usize {
    let layout = std::alloc::Layout::from_size_align(STACK_BYTES, 4096).expect("a sound layout");
    // SAFETY: the stack is owned here and outlives the thread; the thread alone uses it and the errand until it is joined.
    unsafe {
        let low = std::alloc::alloc(layout);
        assert!(!low.is_null(), "memory for a stack");
        ptr::write_bytes(low, PAINT, STACK_BYTES);
        let mut errand = Errand {
            task,
            face: *face,
            low,
            taken: 0,
        };
        let mut attributes = Attributes([0; 256]);
        let mut thread = 0;
        assert_eq!(pthread_attr_init(&mut attributes), 0);
        assert_eq!(
            pthread_attr_setstack(&mut attributes, low.cast(), STACK_BYTES),
            0
        );
        let argument = ptr::from_mut(&mut errand).cast();
        assert_eq!(
            pthread_create(&mut thread, &attributes, run, argument),
            0,
            "a thread on a painted stack"
        );
        assert_eq!(pthread_join(thread, ptr::null_mut()), 0);
        pthread_attr_destroy(&mut attributes);
        std::alloc::dealloc(low, layout);
        errand.taken
    }
}

extern "C" fn run(argument: *mut c_void) -> *mut c_void {
    // SAFETY: the creator lends the errand until the thread is joined.
    let errand = unsafe { &mut *argument.cast::<Errand>() };
    below_a_gap(errand);
    ptr::null_mut()
}

/// Goes down past everything that the thread's start has touched.
#[inline(never)]
fn below_a_gap(errand: &mut Errand) {
    let mut gap = std::mem::MaybeUninit::<[u8; SKIPPED_BYTES]>::uninit();
    black_box(gap.as_mut_ptr());
    compare(errand);
    black_box(gap.as_mut_ptr());
}

#[inline(never)]
fn compare(errand: &mut Errand) {
    let mut reached = [0; 2];
    for (index, face) in [IDLE, errand.face].iter().enumerate() {
        black_box(errand.task.call(black_box(face)));
        reached[index] = first_changed(errand.low);
    }
    errand.taken = reached[0] - reached[1];
}

/// How far from the stack's low end the first byte lies that isn't paint.
#[inline(always)]
fn first_changed(low: *const u8) -> usize {
    let mut index = 0;
    // SAFETY: the thread's own frames stand above, so the search ends inside the stack.
    while unsafe { ptr::read_volatile(low.add(index)) } == PAINT {
        index += 1;
    }
    index
}

unsafe extern "C" fn idle_execute(
    _: *const u8,
    _: usize,
    _: *const u8,
    _: usize,
    _: u64,
    _: u64,
    _: u64,
    _: u64,
    _: u32,
    _: u16,
    _: *mut u8,
    _: usize,
    _: *mut u8,
    _: usize,
    _: *mut u64,
    _: *mut u64,
) -> u32 {
    0
}

unsafe extern "C" fn idle_admission(
    _: *const u8,
    _: usize,
    _: *const u8,
    _: usize,
    _: u64,
    _: u64,
    _: u64,
    _: u64,
    _: u32,
    _: u16,
    _: u64,
    _: u64,
    _: *mut u64,
) -> u32 {
    0
}

unsafe extern "C" fn idle_write(
    _: u64,
    _: u64,
    _: u64,
    _: u64,
    _: u64,
    _: u32,
    _: *const u64,
    _: usize,
    _: *const u64,
    _: usize,
    _: *const u8,
    _: usize,
    _: *mut u8,
    _: usize,
    _: *mut u8,
    _: usize,
    _: *mut u64,
) -> u32 {
    0
}

const IDLE: Face = Face {
    execute: idle_execute,
    admission: idle_admission,
    write: idle_write,
};
