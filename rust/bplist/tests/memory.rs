//! Refused memory is an error, and does not end the process.

use bplist::{Error, Plist};
use std::alloc::{GlobalAlloc, Layout, System};
use std::ptr;
use std::sync::atomic::{AtomicUsize, Ordering};

/// The number of objects of the files: what is as long as they are is refused, and nothing that the tests need besides.
const OBJECTS: u16 = 20_000;

/// The longest memory that is given.
static MOST: AtomicUsize = AtomicUsize::new(usize::MAX);

struct Refusing;

// SAFETY: all memory is that of the system.
unsafe impl GlobalAlloc for Refusing {
    unsafe fn alloc(&self, layout: Layout) -> *mut u8 {
        if layout.size() > MOST.load(Ordering::SeqCst) {
            return ptr::null_mut();
        }
        System.alloc(layout)
    }

    unsafe fn dealloc(&self, at: *mut u8, layout: Layout) {
        System.dealloc(at, layout)
    }
}

#[global_allocator]
static MEMORY: Refusing = Refusing;

/// An array in an array and so on. The last one has `last` as its only member.
fn chain(last: u16) -> Vec<u8> {
    let mut file = b"bplist00".to_vec();
    for next in 1..=OBJECTS {
        let member = if next == OBJECTS { last } else { next };
        file.push(0xa1);
        file.extend_from_slice(&member.to_be_bytes());
    }
    file.push(0x09);
    let table = file.len() as u64;
    for object in 0..=OBJECTS {
        file.extend_from_slice(&(8 + 3 * object).to_be_bytes());
    }
    file.extend_from_slice(&[0, 0, 0, 0, 0, 0, 2, 2]);
    for number in [u64::from(OBJECTS) + 1, 0, table] {
        file.extend_from_slice(&number.to_be_bytes());
    }
    file
}

/// What a call returns while long memory is refused.
fn refusing<T>(call: impl FnOnce() -> T) -> T {
    MOST.store(2 * usize::from(OBJECTS), Ordering::SeqCst);
    let answer = call();
    MOST.store(usize::MAX, Ordering::SeqCst);
    answer
}

#[test]
fn refused() {
    let ring = chain(0);
    assert_eq!(
        refusing(|| Plist::open(&ring)).err(),
        Some(Error::OutOfMemory)
    );
    match Plist::open(&ring) {
        Err(Error::Refused(fault)) => assert_eq!(fault.circle().len(), usize::from(OBJECTS)),
        other => panic!("{other:?}"),
    }

    let sound = chain(OBJECTS);
    let plist = Plist::open(&sound).unwrap();
    assert_eq!(refusing(|| plist.certificate()), Err(Error::OutOfMemory));
    assert!(plist.certificate().is_ok());
}
