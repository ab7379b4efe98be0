//! Buffers between two pages that fault: who reads or writes a byte beside one ends the process with
//! SIGSEGV, and so does who writes to one that is only lent to be read. The calls of the tests are made on such
//! copies too, flush with their ends and with their starts. And buffers whose lengths no machine holds. Buffers are of
//! bytes, or lists of 16-bit numbers.
use std::array;
use std::cell::RefCell;
use std::ffi::{c_int, c_void};
use std::fmt::Debug;
use std::ops::Range;
use std::ptr::{self, NonNull};
use std::slice;

/// The memory calls of the C library, with their numbers on Linux.
mod ffi {
    use std::ffi::{c_char, c_int, c_uint, c_void};

    pub const PROT_NONE: c_int = 0;
    pub const PROT_READ: c_int = 1;
    pub const PROT_READ_WRITE: c_int = 1 | 2;
    pub const MAP_SHARED: c_int = 0x01;
    pub const MAP_FIXED: c_int = 0x10;
    pub const MAP_PRIVATE_ANONYMOUS: c_int = 0x02 | 0x20;
    pub const MAP_NORESERVE: c_int = 0x4000;

    extern "C" {
        pub fn mmap(
            at: *mut c_void,
            len: usize,
            protection: c_int,
            flags: c_int,
            file: c_int,
            offset: i64,
        ) -> *mut c_void;
        pub fn mprotect(at: *mut c_void, len: usize, protection: c_int) -> c_int;
        pub fn munmap(at: *mut c_void, len: usize) -> c_int;
        pub fn memfd_create(name: *const c_char, flags: c_uint) -> c_int;
        pub fn ftruncate(file: c_int, len: i64) -> c_int;
        pub fn close(file: c_int) -> c_int;
    }
}

/// A whole number of pages.
const PAGES: usize = 1 << 16;
/// The bytes on each side of a room, all of which fault.
const GUARD: usize = 1 << 20;

/// What a buffer is a list of.
///
/// # Safety
/// Any bytes are such numbers, and no page begins or ends within one.
pub unsafe trait Number: Copy + PartialEq + Debug + From<u8> {}

// SAFETY: each bit of them is free, and their lengths are powers of two.
unsafe impl Number for u8 {}
unsafe impl Number for u16 {}

/// Where a buffer stands in its room.
#[derive(Clone, Copy, Debug, PartialEq, Eq)]
pub enum Flush {
    /// Its last byte is right before a page that faults.
    End,
    /// Its first byte is right past a page that faults.
    Start,
}

impl Flush {
    pub const BOTH: [Flush; 2] = [Flush::End, Flush::Start];
}

impl Flush {
    /// Where a buffer of so many numbers stands in a room of so many bytes.
    fn place<N: Number>(self, len: usize, room: usize) -> Range<usize> {
        let len = len * size_of::<N>();
        match self {
            Flush::End => room - len..room,
            Flush::Start => 0..len,
        }
    }
}

/// Maps memory, at this place if one is given; the rest is as `mmap` has it.
///
/// # Safety
/// A place that is given is of a mapping of the caller's, of which nothing is borrowed.
unsafe fn map(at: *mut u8, len: usize, protection: c_int, flags: c_int, file: c_int) -> *mut u8 {
    let first = ffi::mmap(at.cast(), len, protection, flags, file, 0);
    assert!(first.addr() != usize::MAX, "mmap gives no memory");
    first.cast()
}

/// Bytes between two pages that fault; they fault too until a room has them mapped or opened.
struct Guarded {
    bytes: NonNull<[u8]>,
}

impl Guarded {
    /// As many bytes as buffers of at most this length need.
    fn new(most: usize) -> Self {
        let len = most.next_multiple_of(PAGES).max(PAGES);
        let flags = ffi::MAP_PRIVATE_ANONYMOUS;
        // SAFETY: a new mapping, which goes on for GUARD bytes on both sides.
        let bytes = unsafe {
            let all = map(ptr::null_mut(), len + 2 * GUARD, ffi::PROT_NONE, flags, -1);
            NonNull::new(ptr::slice_from_raw_parts_mut(all.add(GUARD), len))
        };
        Guarded {
            bytes: bytes.expect("a mapping is not at 0"),
        }
    }

    fn first(&self) -> *mut u8 {
        self.bytes.as_ptr().cast()
    }
}

impl Drop for Guarded {
    fn drop(&mut self) {
        // SAFETY: the mapping that `new` made, which nothing borrows any more.
        unsafe {
            let all = self.first().sub(GUARD).cast::<c_void>();
            ffi::munmap(all, self.bytes.len() + 2 * GUARD);
        }
    }
}

/// Memory between two pages that fault.
pub struct Room(Guarded);

impl Room {
    /// A room for buffers of at most this length.
    pub fn new(most: usize) -> Self {
        let guarded = Guarded::new(most);
        let (first, len) = (guarded.first().cast(), guarded.bytes.len());
        // SAFETY: the pages are those of the room.
        let opened = unsafe { ffi::mprotect(first, len, ffi::PROT_READ_WRITE) };
        assert_eq!(opened, 0, "mprotect refuses");
        Room(guarded)
    }

    /// A buffer of so many numbers in the room; it holds what was there.
    pub fn buffer<N: Number>(&mut self, len: usize, flush: Flush) -> &mut [N] {
        let place = flush.place::<N>(len, self.0.bytes.len());
        // SAFETY: the bytes are of this room's mapping, which lives as long as the room.
        unsafe {
            let bytes = &mut self.0.bytes.as_mut()[place];
            slice::from_raw_parts_mut(bytes.as_mut_ptr().cast(), len)
        }
    }

    /// A buffer that holds these numbers.
    fn holding<N: Number>(&mut self, numbers: &[N], flush: Flush) -> &mut [N] {
        let buffer = self.buffer(numbers.len(), flush);
        buffer.copy_from_slice(numbers);
        buffer
    }
}

/// Memory between two pages that fault, which faults itself where it is written to. It is filled at another place,
/// where the same memory is mapped a second time.
pub struct ReadRoom {
    guarded: Guarded,
    filled: *mut u8,
}

impl ReadRoom {
    /// A room for buffers of at most this length.
    pub fn new(most: usize) -> Self {
        let guarded = Guarded::new(most);
        let (first, len) = (guarded.first(), guarded.bytes.len());
        // SAFETY: a new file in memory, mapped in the room's own pages and at a place of its own.
        let filled = unsafe {
            let file = ffi::memfd_create(c"room".as_ptr(), 0);
            assert!(file >= 0, "memfd_create gives no file");
            assert_eq!(ffi::ftruncate(file, len as i64), 0, "ftruncate refuses");
            let fixed = ffi::MAP_SHARED | ffi::MAP_FIXED;
            map(first, len, ffi::PROT_READ, fixed, file);
            let (both, shared) = (ffi::PROT_READ_WRITE, ffi::MAP_SHARED);
            let filled = map(ptr::null_mut(), len, both, shared, file);
            ffi::close(file);
            filled
        };
        ReadRoom { guarded, filled }
    }

    /// A buffer that holds these numbers.
    pub fn holding<N: Number>(&mut self, numbers: &[N], flush: Flush) -> &[N] {
        let place = flush.place::<N>(numbers.len(), self.guarded.bytes.len());
        // SAFETY: both mappings are as long, live as long as the room, and nothing of the room is borrowed.
        unsafe {
            let filled = self.filled.add(place.start).cast();
            ptr::copy_nonoverlapping(numbers.as_ptr(), filled, numbers.len());
            let bytes = &self.guarded.bytes.as_ref()[place];
            slice::from_raw_parts(bytes.as_ptr().cast(), numbers.len())
        }
    }
}

impl Drop for ReadRoom {
    fn drop(&mut self) {
        // SAFETY: the second mapping that `new` made, which nothing borrows.
        unsafe {
            ffi::munmap(self.filled.cast(), self.guarded.bytes.len());
        }
    }
}

/// Memory that is mapped and takes no room where it is not touched, of any length that there are addresses for.
struct Unreserved(NonNull<[u8]>);

impl Unreserved {
    /// So many bytes, all of them zero; nothing where they cannot be mapped.
    fn new(len: usize) -> Option<Self> {
        let flags = ffi::MAP_PRIVATE_ANONYMOUS | ffi::MAP_NORESERVE;
        // SAFETY: a new mapping.
        let first = unsafe { ffi::mmap(ptr::null_mut(), len, ffi::PROT_READ_WRITE, flags, -1, 0) };
        let bytes = ptr::slice_from_raw_parts_mut(first.cast(), len);
        let is_mapped = first.addr() != usize::MAX;
        is_mapped.then(|| Unreserved(NonNull::new(bytes).expect("a mapping is not at 0")))
    }

    fn numbers<N: Number>(&mut self) -> &mut [N] {
        let len = self.0.len() / size_of::<N>();
        // SAFETY: the bytes are of this mapping, which lives as long as it is borrowed.
        unsafe { slice::from_raw_parts_mut(self.0.as_ptr().cast(), len) }
    }
}

impl Drop for Unreserved {
    fn drop(&mut self) {
        // SAFETY: the mapping that `new` made, which nothing borrows any more.
        unsafe {
            ffi::munmap(self.0.as_ptr().cast(), self.0.len());
        }
    }
}

/// The bits of a length that are tried: fewer than those of an address, for several threads at once.
const MOST_BITS: u32 = 44;
/// A length of so many bits is mapped on every machine.
const LEAST_BITS: u32 = 24;

/// Makes a call on buffers that begin with these numbers, are zero past them, and are longer than them by 2^b numbers for
/// each b from `first` on. A call that looks at the length alone touches none of it. Panics if one leaves others in a
/// buffer's first or last places. Tells the lengths that cannot be mapped; those up to 2^24 bytes can.
pub fn lend_longer<N: Number>(numbers: &[N], first: u32, mut call: impl FnMut(&mut [N])) {
    const LOOKED_AT: usize = 4_096;
    for bits in first..=MOST_BITS - size_of::<N>().ilog2() {
        let len = (1 << bits) + numbers.len();
        let Some(mut longer) = Unreserved::new(len * size_of::<N>()) else {
            println!("{len} numbers are not tried: they cannot be mapped");
            assert!(bits > LEAST_BITS, "{len} numbers cannot be mapped");
            continue;
        };
        let longer = longer.numbers::<N>();
        longer[..numbers.len()].copy_from_slice(numbers);
        call(longer);
        let (start, past) = longer.split_at(numbers.len());
        assert_eq!(start, numbers, "of {len} numbers the first");
        let ends = [
            &past[..LOOKED_AT.min(past.len())],
            &past[past.len().saturating_sub(LOOKED_AT)..],
        ];
        let is_zero = ends.concat().iter().all(|&number| number == N::from(0));
        assert!(is_zero, "of {len} numbers one past the first");
    }
}

/// The rooms of a thread for the buffers of one call.
#[derive(Default)]
struct Rooms {
    read: Vec<ReadRoom>,
    written: Vec<Room>,
}

impl Rooms {
    /// Makes rooms for buffers of these lengths, one for each, where there is none or one that is too small.
    fn fit<N: Number>(&mut self, read: &[&[N]], written: &[&mut [N]]) {
        for (place, len) in read.iter().map(|list| size_of_val(*list)).enumerate() {
            match self.read.get_mut(place) {
                None => self.read.push(ReadRoom::new(len)),
                Some(room) if room.guarded.bytes.len() < len => *room = ReadRoom::new(len),
                Some(_) => {}
            }
        }
        for (place, len) in written.iter().map(|list| size_of_val(*list)).enumerate() {
            match self.written.get_mut(place) {
                None => self.written.push(Room::new(len)),
                Some(room) if room.0.bytes.len() < len => *room = Room::new(len),
                Some(_) => {}
            }
        }
    }
}

thread_local! {
    /// Rooms for the buffers flush with their ends, and for those flush with their starts.
    static ROOMS: RefCell<[Rooms; 2]> = RefCell::default();
}

/// Makes a call on these buffers, and again on two guarded copies of them. Gives its answer, and panics
/// if one of the copies gets another or is left with other numbers. A copy of a buffer of `read` faults where it is
/// written to.
pub fn lend<const R: usize, const W: usize, N: Number, T: PartialEq + Debug>(
    read: [&[N]; R],
    mut written: [&mut [N]; W],
    call: impl Fn([&[N]; R], [&mut [N]; W]) -> T,
) -> T {
    ROOMS.with_borrow_mut(|rooms| {
        let answers = array::from_fn::<T, 2, _>(|side| {
            let flush = Flush::BOTH[side];
            rooms[side].fit(&read, &written);
            let Rooms {
                read: for_read,
                written: for_written,
            } = &mut rooms[side];
            let (mut for_read, mut for_written) = (for_read.iter_mut(), for_written.iter_mut());
            let read = read.map(|numbers| {
                let room = for_read.next().expect("a room for each");
                room.holding(numbers, flush)
            });
            let written = array::from_fn(|place| {
                let room = for_written.next().expect("a room for each");
                room.holding(&*written[place], flush)
            });
            call(read, written)
        });
        let answer = call(read, written.each_mut().map(|list| &mut **list));
        for (side, copy) in answers.into_iter().enumerate() {
            let flush = Flush::BOTH[side];
            assert_eq!(copy, answer, "on buffers flush with their {flush:?}");
            let left = rooms[side].written.iter_mut();
            for (place, (left, wanted)) in left.zip(&written).enumerate() {
                assert!(
                    left.buffer::<N>(wanted.len(), flush) == *wanted,
                    "after {answer:?} buffer {place}, flush with its {flush:?}, has other numbers"
                );
            }
        }
        answer
    })
}
