//! Declares the calls of the C library as `bplist.h` does, and wraps each in a safe function.
//!
//! This is the only module with unsafe code, and it ensures what `bplist.h` requires of a caller. Slices give pointers
//! that are not null, with the right lengths. What a call writes to is borrowed by that call alone. A [`Session`] holds
//! the bytes that its handle was opened with, and nobody changes them while they are borrowed.

use std::cell::UnsafeCell;
use std::ffi::c_void;
use std::ptr;
use std::slice;

/// The status that a call returns.
#[derive(Clone, Copy, Debug, PartialEq, Eq)]
#[repr(transparent)]
pub(crate) struct Status(u32);

impl Status {
    pub(crate) const OK: Status = Status(0);
    pub(crate) const FAULT: Status = Status(1);
    pub(crate) const MEMORY: Status = Status(2);
    pub(crate) const OTHER_FILE: Status = Status(5);
    pub(crate) const NO_OBJECT: Status = Status(6);
    pub(crate) const NO_KEY: Status = Status(9);
    pub(crate) const NO_INDEX: Status = Status(10);
    pub(crate) const NOT_STEPPABLE: Status = Status(11);
    pub(crate) const PATH_TEXT: Status = Status(12);
    pub(crate) const SHORT: Status = Status(14);

    /// Returns what the status means, as one sentence.
    pub(crate) fn sentence(self) -> String {
        sentence(bplist_status_text, self.0)
    }
}

/// The numbers of kinds, as in [`Body::kind`].
pub(crate) mod kind {
    pub(crate) const NULL: u32 = 1;
    pub(crate) const FALSE: u32 = 2;
    pub(crate) const TRUE: u32 = 3;
    pub(crate) const INT: u32 = 4;
    pub(crate) const REAL: u32 = 5;
    pub(crate) const DATE: u32 = 6;
    pub(crate) const DATA: u32 = 7;
    pub(crate) const ASCII: u32 = 8;
    pub(crate) const WIDE: u32 = 9;
    pub(crate) const UID: u32 = 10;
    pub(crate) const ARRAY: u32 = 11;
    pub(crate) const SET: u32 = 12;
    pub(crate) const DICT: u32 = 13;
}

#[repr(C)]
struct Handle {
    at: *mut c_void,
    length: u64,
}

/// The verdict on a file.
#[derive(Clone, Copy, Default)]
#[repr(C)]
pub(crate) struct Verdict {
    pub(crate) rule: u32,
    pub(crate) has_object: u32,
    pub(crate) object: u32,
    pub(crate) top: u32,
    pub(crate) top_kind: u32,
    pub(crate) height: u32,
    pub(crate) place: u64,
    pub(crate) circle: u64,
    pub(crate) objects: u64,
    pub(crate) reached: u64,
    pub(crate) references: u64,
}

/// The object that a path leads to, or where the path fails.
#[derive(Default)]
#[repr(C)]
pub(crate) struct Found {
    pub(crate) object: u32,
    pub(crate) step: u64,
}

/// The kind of an object, and its body.
#[derive(Default)]
#[repr(C)]
pub(crate) struct Body {
    pub(crate) kind: u32,
    pub(crate) count: u64,
    pub(crate) place: u64,
    pub(crate) length: u64,
}

#[derive(Default)]
#[repr(C)]
struct Integer {
    low: u64,
    high: u64,
}

/// The size of a value.
#[derive(Default)]
#[repr(C)]
pub(crate) struct Sizes {
    pub(crate) nodes: u64,
    pub(crate) text: u64,
    pub(crate) has_text: u32,
}

/// A call that gives one thing about an object.
type Tells<T> = unsafe extern "C" fn(*mut Handle, *const u8, usize, u32, *mut T) -> Status;

/// A call that writes a name or a sentence.
type Writes = unsafe extern "C" fn(u32, *mut u8, usize, *mut u64) -> Status;

extern "C" {
    fn bplist_lint(file: *const u8, length: usize, out: *mut Verdict) -> Status;
    fn bplist_circle(
        file: *const u8,
        length: usize,
        objects: *mut u32,
        room: usize,
        count: *mut u64,
    ) -> Status;
    fn bplist_looks_like(
        file: *const u8,
        length: usize,
        words: *mut u8,
        room: usize,
        count: *mut u64,
    ) -> Status;
    fn bplist_rule_name(rule: u32, name: *mut u8, room: usize, count: *mut u64) -> Status;
    fn bplist_rule_text(rule: u32, text: *mut u8, room: usize, count: *mut u64) -> Status;
    fn bplist_status_text(status: u32, text: *mut u8, room: usize, count: *mut u64) -> Status;
    fn bplist_version() -> u32;
    fn bplist_open(
        handle: *mut Handle,
        file: *const u8,
        length: usize,
        sorted: bool,
        out: *mut Verdict,
    ) -> Status;
    fn bplist_open_certified(
        handle: *mut Handle,
        file: *const u8,
        length: usize,
        certificate: *const u8,
        certificate_length: usize,
        sorted: bool,
        out: *mut Verdict,
    ) -> Status;
    fn bplist_close(handle: *mut Handle) -> Status;
    fn bplist_certificate(
        handle: *mut Handle,
        buffer: *mut u8,
        room: usize,
        count: *mut u64,
    ) -> Status;
    fn bplist_find(
        handle: *mut Handle,
        file: *const u8,
        length: usize,
        path: *const u8,
        path_length: usize,
        out: *mut Found,
    ) -> Status;
    fn bplist_find_key(
        handle: *mut Handle,
        file: *const u8,
        length: usize,
        object: u32,
        units: *const u16,
        count: usize,
        out: *mut u32,
    ) -> Status;
    fn bplist_face(
        handle: *mut Handle,
        file: *const u8,
        length: usize,
        object: u32,
        out: *mut Body,
    ) -> Status;
    fn bplist_int(
        handle: *mut Handle,
        file: *const u8,
        length: usize,
        object: u32,
        out: *mut Integer,
    ) -> Status;
    fn bplist_uid(
        handle: *mut Handle,
        file: *const u8,
        length: usize,
        object: u32,
        out: *mut u32,
    ) -> Status;
    fn bplist_size(
        handle: *mut Handle,
        file: *const u8,
        length: usize,
        object: u32,
        out: *mut Sizes,
    ) -> Status;
    fn bplist_members(
        handle: *mut Handle,
        file: *const u8,
        length: usize,
        object: u32,
        from: u64,
        objects: *mut u32,
        room: usize,
        count: *mut u64,
    ) -> Status;
}

/// Returns the answer of a call if its status is `OK`.
fn answer<T>(status: Status, found: T) -> Result<T, Status> {
    match status {
        Status::OK => Ok(found),
        other => Err(other),
    }
}

/// Returns a name or a sentence.
fn sentence(call: Writes, number: u32) -> String {
    text_by(|text, room, count| {
        // SAFETY: `text_by` gives the bytes and the number.
        unsafe { call(number, text, room, count) }
    })
}

/// Returns what a file looks like, in words, or an empty text.
pub(crate) fn looks_like(file: &[u8]) -> String {
    text_by(|text, room, count| {
        // SAFETY: `text_by` gives the bytes and the number.
        unsafe { bplist_looks_like(file.as_ptr(), file.len(), text, room, count) }
    })
}

/// Returns the text that a call writes. All are ASCII, of at most 200 bytes.
fn text_by(call: impl FnOnce(*mut u8, usize, *mut u64) -> Status) -> String {
    let mut text = [0; 200];
    let mut count = 0;
    let status = call(text.as_mut_ptr(), text.len(), &mut count);
    match answer(status, count as usize) {
        Ok(count) => String::from_utf8_lossy(&text[..count]).into_owned(),
        Err(_) => String::new(),
    }
}

/// Returns the name of a rule, 1 to 32.
pub(crate) fn rule_name(rule: u32) -> String {
    sentence(bplist_rule_name, rule)
}

/// Returns what a rule, 1 to 32, requires.
pub(crate) fn rule_text(rule: u32) -> String {
    sentence(bplist_rule_text, rule)
}

/// Returns the version of the linked library: major, minor and patch number, with eight bits each.
pub(crate) fn version() -> u32 {
    // SAFETY: the call has no parameters.
    unsafe { bplist_version() }
}

/// Lints a file.
pub(crate) fn lint(file: &[u8]) -> (Status, Verdict) {
    let mut verdict = Verdict::default();
    // SAFETY: `verdict` is local to this function.
    let status = unsafe { bplist_lint(file.as_ptr(), file.len(), &mut verdict) };
    (status, verdict)
}

/// Makes the buffer longer, with zeros. A circle or a certificate is as long as a hostile file likes, so refused memory
/// is a status and does not end the process.
fn grow<T: Clone + Default>(buffer: &mut Vec<T>, length: u64) -> Result<(), Status> {
    let length = usize::try_from(length).map_err(|_| Status::MEMORY)?;
    buffer
        .try_reserve_exact(length.saturating_sub(buffer.len()))
        .map_err(|_| Status::MEMORY)?;
    buffer.resize(length, T::default());
    Ok(())
}

/// Returns the objects of the circle for which a file is refused.
pub(crate) fn circle(file: &[u8], length: u64) -> Result<Vec<u32>, Status> {
    let mut objects = Vec::new();
    grow(&mut objects, length)?;
    let mut count = 0;
    // SAFETY: `objects` and `count` are local to this function.
    let status = unsafe {
        bplist_circle(
            file.as_ptr(),
            file.len(),
            objects.as_mut_ptr(),
            objects.len(),
            &mut count,
        )
    };
    answer(status, objects)
}

/// Bytes, and what borrows from them.
pub(crate) struct Owned<T> {
    // Dropped before the bytes.
    held: T,
    octets: Vec<u8>,
}

impl<T> Owned<T> {
    /// Makes what borrows from the bytes. Nothing but the result of `make` may keep the loan that it is given.
    pub(crate) fn make<E>(
        octets: Vec<u8>,
        make: impl FnOnce(&'static [u8]) -> Result<T, E>,
    ) -> Result<Owned<T>, E> {
        // SAFETY: the bytes stay at this place until they are dropped, and nobody changes them. `held` is dropped
        // before them, and is handed out only by `held`, for no longer than the loan of `self`.
        let lent = unsafe { slice::from_raw_parts(octets.as_ptr(), octets.len()) };
        Ok(Owned {
            held: make(lent)?,
            octets,
        })
    }

    /// Lends what borrows from the bytes. Its callers give it to others with the lifetime of this loan.
    pub(crate) fn held(&self) -> &T {
        &self.held
    }

    pub(crate) fn into_octets(self) -> Vec<u8> {
        let Owned { held, octets } = self;
        drop(held);
        octets
    }
}

/// A file, and the handle that was opened with it.
pub(crate) struct Session<'f> {
    // Each call writes to the handle while it runs. Two calls never overlap, because the cell is not `Sync` and no call
    // calls back.
    handle: UnsafeCell<Handle>,
    file: &'f [u8],
}

// SAFETY: `bplist.h` allows passing a handle to another thread like other memory.
unsafe impl Send for Session<'_> {}

impl Drop for Session<'_> {
    fn drop(&mut self) {
        // SAFETY: the handle is open or all zeros, and is not used again.
        unsafe { bplist_close(self.handle.get()) };
    }
}

impl<'f> Session<'f> {
    /// Opens a file, with a certificate if there is one.
    pub(crate) fn open(
        file: &'f [u8],
        certificate: Option<&[u8]>,
        sorted: bool,
    ) -> Result<(Session<'f>, Verdict), (Status, Verdict)> {
        let session = Session {
            handle: UnsafeCell::new(Handle {
                at: ptr::null_mut(),
                length: 0,
            }),
            file,
        };
        let handle = session.handle.get();
        let mut verdict = Verdict::default();
        let status = match certificate {
            // SAFETY: the handle is all zeros, and `verdict` is local to this function.
            None => unsafe { bplist_open(handle, file.as_ptr(), file.len(), sorted, &mut verdict) },
            // SAFETY: the same.
            Some(octets) => unsafe {
                bplist_open_certified(
                    handle,
                    file.as_ptr(),
                    file.len(),
                    octets.as_ptr(),
                    octets.len(),
                    sorted,
                    &mut verdict,
                )
            },
        };
        match status {
            Status::OK => Ok((session, verdict)),
            other => Err((other, verdict)),
        }
    }

    /// Returns the bytes of the file.
    pub(crate) fn file(&self) -> &'f [u8] {
        self.file
    }

    /// Returns what a call gives about an object.
    fn told<T: Default>(&self, call: Tells<T>, object: u32) -> Result<T, Status> {
        let mut found = T::default();
        // SAFETY: the file is the one of the handle, and `found` is local to this function.
        let status = unsafe {
            call(
                self.handle.get(),
                self.file.as_ptr(),
                self.file.len(),
                object,
                &mut found,
            )
        };
        answer(status, found)
    }

    /// Returns the kind of an object, and the count, place and length of its body.
    pub(crate) fn face(&self, object: u32) -> Result<Body, Status> {
        self.told(bplist_face, object)
    }

    /// Returns the value of an integer.
    pub(crate) fn int(&self, object: u32) -> Result<i128, Status> {
        let Integer { low, high } = self.told(bplist_int, object)?;
        Ok(((high as u128) << 64 | low as u128) as i128)
    }

    /// Returns the value of a UID.
    pub(crate) fn uid(&self, object: u32) -> Result<u32, Status> {
        self.told(bplist_uid, object)
    }

    /// Returns the size of the value of an object.
    pub(crate) fn size(&self, object: u32) -> Result<Sizes, Status> {
        self.told(bplist_size, object)
    }

    /// Writes the objects of the members from number `from` on to the front of `into`. Returns how many it wrote.
    pub(crate) fn members(
        &self,
        object: u32,
        from: u64,
        into: &mut [u32],
    ) -> Result<usize, Status> {
        let mut count = 0;
        // SAFETY: the file is the one of the handle, and `into` and `count` are borrowed by this call alone.
        let status = unsafe {
            bplist_members(
                self.handle.get(),
                self.file.as_ptr(),
                self.file.len(),
                object,
                from,
                into.as_mut_ptr(),
                into.len(),
                &mut count,
            )
        };
        answer(status, count as usize)
    }

    /// Follows a path from the top.
    pub(crate) fn find(&self, path: &str) -> (Status, Found) {
        let mut found = Found::default();
        // SAFETY: the file is the one of the handle, and `found` is local to this function.
        let status = unsafe {
            bplist_find(
                self.handle.get(),
                self.file.as_ptr(),
                self.file.len(),
                path.as_ptr(),
                path.len(),
                &mut found,
            )
        };
        (status, found)
    }

    /// Returns the object that one step leads to.
    pub(crate) fn find_key(&self, object: u32, units: &[u16]) -> Result<u32, Status> {
        let mut found = 0;
        // SAFETY: the file is the one of the handle, and `found` is local to this function.
        let status = unsafe {
            bplist_find_key(
                self.handle.get(),
                self.file.as_ptr(),
                self.file.len(),
                object,
                units.as_ptr(),
                units.len(),
                &mut found,
            )
        };
        answer(status, found)
    }

    /// Returns the bytes of the certificate.
    pub(crate) fn certificate(&self) -> Result<Vec<u8>, Status> {
        let mut octets = Vec::new();
        loop {
            let mut count = 0;
            // SAFETY: `octets` and `count` are local to this function.
            let status = unsafe {
                bplist_certificate(
                    self.handle.get(),
                    octets.as_mut_ptr(),
                    octets.len(),
                    &mut count,
                )
            };
            match status {
                Status::SHORT => grow(&mut octets, count)?,
                other => return answer(other, octets),
            }
        }
    }
}
