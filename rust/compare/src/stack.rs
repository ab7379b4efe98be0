//! How much of the stack a call takes: it is made on a stack whose every byte is looked at afterwards. What the header,
//! the wrapper and the pages say of it.
use crate::guarded::{Flush, Room};
use std::ffi::c_void;
use std::path::Path;
use std::{fs, ptr};

/// The thread calls of the C library.
mod ffi {
    use std::ffi::{c_int, c_void};

    /// The attributes of a thread, with room to spare.
    #[repr(C, align(16))]
    pub struct Attributes(pub [u8; 256]);

    extern "C" {
        pub fn pthread_attr_init(attributes: *mut Attributes) -> c_int;
        pub fn pthread_attr_setstack(
            attributes: *mut Attributes,
            stack: *mut c_void,
            len: usize,
        ) -> c_int;
        pub fn pthread_attr_destroy(attributes: *mut Attributes) -> c_int;
        pub fn pthread_create(
            thread: *mut usize,
            attributes: *const Attributes,
            run: extern "C" fn(*mut c_void) -> *mut c_void,
            argument: *mut c_void,
        ) -> c_int;
        pub fn pthread_join(thread: usize, value: *mut *mut c_void) -> c_int;
    }
}

/// The length of the stack.
const STACK: usize = 1 << 18;
/// What stands in it before.
const FILL: u8 = 0xa5;

/// A call to be made, with its number and a place on the caller's stack.
struct Made<F> {
    call: F,
    number: u64,
    caller: usize,
}

/// Makes the call.
extern "C" fn make<F: FnMut() -> u64>(made: *mut c_void) -> *mut c_void {
    // SAFETY: `taken_by` hands over a call that nothing else holds until the thread has ended.
    let made = unsafe { &mut *made.cast::<Made<F>>() };
    let place = 0_u8;
    made.caller = (&raw const place).addr();
    made.number = (made.call)();
    ptr::null_mut()
}

/// A stack that calls are made on, one after another.
pub struct Stack(Room);

impl Default for Stack {
    fn default() -> Self {
        Stack(Room::new(STACK))
    }
}

impl Stack {
    /// The bytes of the stack that a call takes below its caller's, and its number.
    pub fn taken_by<F: FnMut() -> u64>(&mut self, call: F) -> (usize, u64) {
        let stack = self.0.buffer(STACK, Flush::Start);
        stack.fill(FILL);
        let mut made = Made {
            call,
            number: 0,
            caller: 0,
        };
        let mut attributes = ffi::Attributes([0; 256]);
        let mut thread = 0;
        // SAFETY: the thread has the stack and the call to itself, and has ended before they are looked at.
        let done = unsafe {
            let stack = stack.as_mut_ptr().cast();
            let made = (&raw mut made).cast();
            [
                ffi::pthread_attr_init(&mut attributes),
                ffi::pthread_attr_setstack(&mut attributes, stack, STACK),
                ffi::pthread_create(&mut thread, &attributes, make::<F>, made),
                ffi::pthread_join(thread, ptr::null_mut()),
                ffi::pthread_attr_destroy(&mut attributes),
            ]
        };
        assert_eq!(done, [0; 5], "the thread runs");
        let first = stack.iter().position(|&byte| byte != FILL);
        let lowest = stack.as_ptr().addr() + first.expect("a call writes to its stack");
        (made.caller - lowest, made.number)
    }
}

/// The bytes of which the header, the wrapper or a page says that a call takes less: in the one sentence on them that has
/// all of these words, of the paragraphs with `at`. A comment and the declaration below it are one paragraph.
pub fn said_by(path: &str, at: &str, words: &[&str]) -> usize {
    let path = Path::new(env!("CARGO_MANIFEST_DIR"))
        .join("../..")
        .join(path);
    let text = fs::read_to_string(&path).expect("the source is there");
    let mut said = Vec::new();
    for paragraph in text.split("\n\n").filter(|part| part.contains(at)) {
        let plain: Vec<_> = paragraph
            .split_whitespace()
            .filter(|word| !["*", "///"].contains(word))
            .collect();
        let plain = plain.join(" ");
        let sentences = plain.split(". ");
        let these = sentences.filter(|sentence| words.iter().all(|word| sentence.contains(word)));
        said.extend(these.filter_map(bytes_in));
    }
    assert_eq!(said.len(), 1, "{} at {at:?}: {said:?}", path.display());
    said[0]
}

/// The bytes of which a sentence says that a call takes less.
fn bytes_in(sentence: &str) -> Option<usize> {
    let (_, after) = sentence.split_once(" less than ")?;
    let (number, _) = after.split_once(" bytes of ")?;
    number.replace(',', "").parse().ok()
}
