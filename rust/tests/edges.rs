//! Calls that end right at memory which may not be touched, and lengths of 0.

#![cfg(target_os = "linux")]

mod common;

use std::{ffi::c_void, ptr};

use common::{Random, scaled, walk::Walk};
use ghindulza::sys;

const PAGE: usize = 4096;
const PAGES: usize = 64;

unsafe extern "C" {
    fn mmap(
        at: *mut c_void,
        length: usize,
        rights: i32,
        flags: i32,
        file: i32,
        from: i64,
    ) -> *mut c_void;
    fn mprotect(at: *mut c_void, length: usize, rights: i32) -> i32;
    fn munmap(at: *mut c_void, length: usize) -> i32;
}

/// Memory with a page before and a page behind it that nobody may touch.
struct Fenced(*mut u8);

impl Fenced {
    fn new() -> Fenced {
        const NONE: i32 = 0;
        const READ_WRITE: i32 = 3;
        const PRIVATE_ANONYMOUS: i32 = 0x22;
        // SAFETY: a new mapping at an address of the system's choice.
        unsafe {
            let whole = (PAGES + 2) * PAGE;
            let start = mmap(ptr::null_mut(), whole, NONE, PRIVATE_ANONYMOUS, -1, 0);
            assert_ne!(start as isize, -1, "no memory");
            let open = start.cast::<u8>().add(PAGE);
            assert_eq!(mprotect(open.cast(), PAGES * PAGE, READ_WRITE), 0);
            Fenced(open)
        }
    }

    /// Room for `length` elements that ends right before the last fence.
    fn at_the_end<T>(&self, length: usize) -> *mut T {
        let bytes = length * size_of::<T>();
        assert!(bytes <= PAGES * PAGE);
        // SAFETY: within the open pages.
        unsafe { self.0.add(PAGES * PAGE - bytes).cast() }
    }

    /// Room that begins right behind the first fence.
    fn at_the_start<T>(&self) -> *mut T {
        self.0.cast()
    }
}

impl Drop for Fenced {
    fn drop(&mut self) {
        // SAFETY: the mapping made in `new`.
        unsafe { munmap(self.0.sub(PAGE).cast(), (PAGES + 2) * PAGE) };
    }
}

/// Runs, with trace and report against either fence; a stray access ends the test.
#[test]
fn runs_between_fences() {
    let mut random = Random::new(0xED6E_0001);
    let mut walk = Walk::new();
    let (trace_memory, report_memory) = (Fenced::new(), Fenced::new());
    for _ in 0..scaled(60_000) {
        walk.begin(&mut random);
        let length = random.below(40);
        walk.go_on(&mut random, length);
        if random.once_in(2) {
            walk.gamble(&mut random);
        }
        let kept = random.below(walk.bytes.len() as u64 + 1) as usize;
        let bytes = if random.once_in(3) { &walk.bytes[..kept] } else { &walk.bytes[..] };
        let room = random.one_of(&[4 * walk.n(), 4 * walk.n() + 3, 4 * walk.n() - 1, 0, 128]);
        let mut wanted_report = vec![7; room];
        let wanted = independent::run(bytes, &mut wanted_report);
        for end in [true, false] {
            let (trace, report): (*mut u8, *mut u32) = match end {
                true => (trace_memory.at_the_end(bytes.len()), report_memory.at_the_end(room)),
                false => (trace_memory.at_the_start(), report_memory.at_the_start()),
            };
            let mut record = 99;
            // SAFETY: both areas are open pages of at least these lengths.
            let (number, found) = unsafe {
                ptr::copy_nonoverlapping(bytes.as_ptr(), trace, bytes.len());
                for index in 0..room {
                    report.add(index).write(7);
                }
                let number = sys::ghindulza_run(trace, bytes.len(), report, room, &mut record);
                (number, std::slice::from_raw_parts(report, room).to_vec())
            };
            assert!(
                (number, record) == wanted && found == wanted_report,
                "run differs\ninput {}\nlibrary: {number} {record} {found:?}\nplain: {wanted:?} {wanted_report:?}",
                common::hex(bytes)
            );
        }
    }
}

/// Readers and writers against the fences, at every short length.
#[test]
fn records_between_fences() {
    let memory = Fenced::new();
    let mut random = Random::new(0xED6E_0002);
    for kind in 1..=3_u32 {
        for n in 1..=32_usize {
            let starts = vec![1; n];
            let mut setup = vec![0; 8 + n];
            independent::write_setup(&mut setup, kind, 2, 500, &starts).unwrap();
            setup.extend((0..8).map(|_| random.byte()));
            for length in 0..=setup.len() {
                let area = memory.at_the_end::<u8>(length);
                let (mut fields, mut out, mut rest) = ([9; 5], [9; 32], [9; 2]);
                // SAFETY: the area holds `length` bytes, the others are the sizes asked for.
                let number = unsafe {
                    ptr::copy_nonoverlapping(setup.as_ptr(), area, length);
                    sys::ghindulza_read_setup(area, length, &mut fields, &mut out, &mut rest)
                };
                let wanted = independent::read_setup(&setup[..length]);
                assert_eq!(number, wanted.map_or_else(|refusal| refusal.number(), |_| 0));

                let mut written = 9;
                let mut buffer = vec![0; length];
                // SAFETY: as above.
                let number = unsafe {
                    ptr::write_bytes(area, 0, length);
                    sys::ghindulza_write_setup(
                        area,
                        length,
                        kind,
                        2,
                        500,
                        starts.as_ptr(),
                        n,
                        &mut written,
                    )
                };
                let wanted = independent::write_setup(&mut buffer, kind, 2, 500, &starts);
                assert_eq!(number, wanted.map_or_else(|refusal| refusal.number(), |_| 0));
                // SAFETY: as above.
                let found = unsafe { std::slice::from_raw_parts(area, length) };
                assert_eq!(found, buffer);
            }
        }
    }
    for length in 0..=9 {
        let area = memory.at_the_end::<u8>(length);
        let mut written = 9;
        let mut fields = [9; 3];
        // SAFETY: the area holds `length` bytes.
        let (write, read) = unsafe {
            (
                sys::ghindulza_write_step(area, length, 32, 1, 5, &mut written),
                sys::ghindulza_read_step(area, length, &mut fields),
            )
        };
        assert_eq!((write, read), if length < 8 { (19, 9) } else { (0, 0) });
    }
}

/// A length of 0 may come with any pointer.
#[test]
fn nothing_lent() {
    let odd: *mut u8 = ptr::without_provenance_mut(1);
    let (mut record, mut length) = (9, 9);
    let (mut fields, mut starts, mut rest) = ([9; 5], [9; 32], [9; 2]);
    let mut step = [9; 3];
    for pointer in [ptr::null_mut(), odd] {
        // SAFETY: nothing is lent with a length of 0; the others have the sizes asked for.
        unsafe {
            (record, length) = (9, 9);
            assert_eq!(sys::ghindulza_run(pointer, 0, pointer.cast(), 0, &mut record), 1);
            assert_eq!(record, 0);
            let setup = [0x4F, 0x53, 1, 1, 1, 0, 0, 0, 0];
            record = 9;
            assert_eq!(sys::ghindulza_run(setup.as_ptr(), 9, pointer.cast(), 0, &mut record), 7);
            assert_eq!(record, 0);
            let number = sys::ghindulza_read_setup(pointer, 0, &mut fields, &mut starts, &mut rest);
            assert_eq!((number, fields, starts, rest), (1, [0; 5], [0; 32], [0; 2]));
            assert_eq!(sys::ghindulza_read_step(pointer, 0, &mut step), 9);
            assert_eq!(step, [0; 3]);
            assert_eq!(sys::ghindulza_write_step(pointer, 0, 1, 0, 0, &mut length), 19);
            assert_eq!(length, 0);
            length = 9;
            let number = sys::ghindulza_write_setup(pointer, 0, 1, 1, 0, pointer, 0, &mut length);
            assert_eq!((number, length), (4, 0));
        }
        (fields, starts, rest, step) = ([9; 5], [9; 32], [9; 2], [9; 3]);
    }
    assert_eq!((record, length), (0, 0));
}
