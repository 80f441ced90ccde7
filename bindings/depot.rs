//! Depot in a Rust process, over the static library: what bindings/depot.h declares, and a node that is safe to use.
use std::alloc::{Layout, alloc, dealloc, handle_alloc_error};

#[repr(C)]
#[derive(Debug, PartialEq, Eq)]
pub struct Judged {
    pub status: u32,
    pub node: u32,
    pub kind: u32,
}

unsafe extern "C" {
    fn depot_c_judge(roster: *const u8, roster_length: usize, proof: *const u8, proof_length: usize) -> Judged;
    fn depot_c_size() -> usize;
    fn depot_c_align() -> usize;
    fn depot_c_init(room: *mut u8);
    fn depot_c_call(
        handle: *mut u8,
        operation: u32,
        number: u64,
        input: *const u8,
        input_length: usize,
        output: *mut u8,
        output_length: usize,
    ) -> u64;
}

/// The operations, as in the header.
#[allow(dead_code)]
#[derive(Clone, Copy)]
pub enum Op {
    Length = 0,
    Copy = 1,
    RecordsLength = 2,
    RecordsCopy = 3,
    Roster = 4,
    Key = 5,
    Start = 6,
    End = 7,
    Clear = 8,
    Message = 9,
    Records = 10,
}

/// Judges the text of a proof under the text of a roster.
#[allow(dead_code)]
pub fn judge(roster: &[u8], proof: &[u8]) -> Judged {
    // Both are whole, nothing changes them meanwhile, and a slice's pointer is never null.
    unsafe { depot_c_judge(roster.as_ptr(), roster.len(), proof.as_ptr(), proof.len()) }
}

/// Why a call wasn't done: its status, and why in words.
#[derive(Debug)]
pub struct Refused(#[allow(dead_code)] pub u64, #[allow(dead_code)] pub String);

/// A handle. It has a raw pointer, so that it stays on the thread that made it; `&mut` makes it one call at a time.
#[allow(dead_code)]
pub struct Handle {
    at: *mut u8,
}

#[allow(dead_code)]
impl Handle {
    fn layout() -> Layout {
        // These two take nothing and read nothing.
        Layout::from_size_align(unsafe { depot_c_size() }, unsafe { depot_c_align() }).expect("the size of a handle")
    }

    pub fn new() -> Handle {
        let layout = Handle::layout();
        // The room has the size and the alignment that the library asks for.
        let at = unsafe { alloc(layout) };
        if at.is_null() {
            handle_alloc_error(layout);
        }
        unsafe { depot_c_init(at) };
        Handle { at }
    }

    fn call(&mut self, op: Op, number: u64, input: &[u8], output: &mut [u8]) -> u64 {
        // The handle was made by depot_c_init and isn't cleared yet; the slices are whole and apart from it.
        unsafe { depot_c_call(self.at, op as u32, number, input.as_ptr(), input.len(), output.as_mut_ptr(), output.len()) }
    }

    /// The bytes of the last answer, or those of the records that are lent.
    fn lent(&mut self, length: Op, copy: Op) -> Vec<u8> {
        let mut bytes = vec![0; self.call(length, 0, &[], &mut []) as usize];
        self.call(copy, 0, &[], &mut bytes);
        bytes
    }

    /// What a call answers: bytes, or why it is refused.
    pub fn ask(&mut self, op: Op, number: u64, input: &[u8]) -> Result<Vec<u8>, Refused> {
        let status = self.call(op, number, input, &mut []);
        let bytes = self.lent(Op::Length, Op::Copy);
        if status == 0 { Ok(bytes) } else { Err(Refused(status, String::from_utf8_lossy(&bytes).into_owned())) }
    }

    /// The body of the message that answers one. Its records are to be kept before it is used.
    pub fn message(&mut self, body: &[u8]) -> Result<Vec<u8>, Refused> {
        self.ask(Op::Message, 0, body).map(|answer| answer[4..].to_vec())
    }

    /// The records of its node from a place on, each as 01, its length in four bytes, and its text.
    pub fn records(&mut self, place: u64) -> Result<Vec<u8>, Refused> {
        match self.call(Op::Records, place, &[], &mut []) {
            0 => Ok(self.lent(Op::RecordsLength, Op::RecordsCopy)),
            status => Err(Refused(status, String::new())),
        }
    }
}

impl Drop for Handle {
    fn drop(&mut self) {
        self.call(Op::Clear, 0, &[], &mut []);
        unsafe { dealloc(self.at, Handle::layout()) };
    }
}
