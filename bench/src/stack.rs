//! The stack that check and encode need, measured on the deepest files: a thread's stack is painted before, and looked at after.
use crate::deep;
use std::alloc::{alloc, dealloc, Layout};
use std::ffi::{c_int, c_void};
use std::hint::black_box;

/// A painted stack, in bytes.
const SIZE: usize = 1 << 21;

const PAINT: u8 = 0xa5;

/// `pthread_attr_t`, or more bytes.
#[repr(C, align(16))]
struct Attributes([u8; 256]);

/// `pthread_t`.
type Thread = usize;

extern "C" {
    fn pthread_attr_init(attributes: *mut Attributes) -> c_int;
    fn pthread_attr_setstack(attributes: *mut Attributes, stack: *mut c_void, size: usize) -> c_int;
    fn pthread_create(
        thread: *mut Thread,
        attributes: *const Attributes,
        run: extern "C" fn(*mut c_void) -> *mut c_void,
        argument: *mut c_void,
    ) -> c_int;
    fn pthread_join(thread: Thread, answer: *mut *mut c_void) -> c_int;
}

/// What a thread is to do.
struct Run<'a>(&'a mut dyn FnMut());

extern "C" fn run(argument: *mut c_void) -> *mut c_void {
    let run = unsafe { &mut *argument.cast::<Run>() };
    (run.0)();
    argument
}

/// The bytes of its stack that a thread uses, with what the system keeps there.
fn used(mut what: impl FnMut()) -> usize {
    let layout = Layout::from_size_align(SIZE, 1 << 16).unwrap();
    let mut attributes = Attributes([0; 256]);
    let (mut thread, mut argument) = (0, Run(&mut what));
    unsafe {
        let stack = alloc(layout);
        assert!(!stack.is_null());
        stack.write_bytes(PAINT, SIZE);
        let argument = (&raw mut argument).cast();
        assert_eq!(pthread_attr_init(&mut attributes), 0);
        assert_eq!(pthread_attr_setstack(&mut attributes, stack.cast(), SIZE), 0);
        assert_eq!(pthread_create(&mut thread, &attributes, run, argument), 0);
        assert_eq!(pthread_join(thread, std::ptr::null_mut()), 0);
        let painted = std::slice::from_raw_parts(stack, SIZE).iter().take_while(|&&b| b == PAINT).count();
        dealloc(stack, layout);
        SIZE - painted
    }
}

/// Prints what each file needs, and the most.
pub fn table() {
    let idle = used(|| ());
    let mut most = idle;
    println!("| file | bytes | check | encode |\n|---|---|---|---|");
    for (name, file) in deep::files() {
        let mut work = vec![0; sakyelbo::work_entries(&file)];
        let mut script = vec![0; 1 << 23];
        let check = used(|| sakyelbo::check_with(black_box(&file), &mut work).unwrap());
        let encode = used(|| {
            black_box(sakyelbo::encode_with(black_box(&file), &mut work, &mut script)).unwrap();
        });
        println!("| {name} | {} | {check} | {encode} |", file.len());
        most = most.max(check).max(encode);
    }
    println!(
        "\nA thread that does nothing uses {idle}, and these at most {most}; the header says {}.",
        sakyelbo::STACK
    );
}
