//! The functions of the library for C, as bindings/c/filterset.h declares them.

use std::marker::PhantomData;
use std::os::raw::c_void;

pub const OK: u8 = 0;
pub const OUT_OF_MEMORY: u8 = 1;
pub const REJECTED: u8 = 4;

/// One word, null if the handle is empty.
#[repr(C)]
pub struct RawHandle {
    held: *mut c_void,
}

// No two handles share anything, so each may go to another thread.
unsafe impl Send for RawHandle {}

impl RawHandle {
    pub const fn empty() -> RawHandle {
        RawHandle { held: std::ptr::null_mut() }
    }
}

/// A text. A `str` has a pointer that is not null, also if it is empty.
#[repr(C)]
#[derive(Clone, Copy)]
pub struct Text<'a> {
    bytes: *const u8,
    length: usize,
    of: PhantomData<&'a str>,
}

impl<'a> From<&'a str> for Text<'a> {
    fn from(text: &'a str) -> Text<'a> {
        Text { bytes: text.as_ptr(), length: text.len(), of: PhantomData }
    }
}

#[repr(C)]
pub struct Binary<'a> {
    pub package_id: Text<'a>,
    pub binary_id: Text<'a>,
    pub name: Text<'a>,
    pub kind: Text<'a>,
    pub platform: u8,
}

#[repr(C)]
pub struct Test<'a> {
    pub name: Text<'a>,
    pub group: Text<'a>,
}

#[repr(C)]
#[derive(Clone, Copy, Default)]
pub struct Span {
    pub offset: usize,
    pub length: usize,
}

extern "C" {
    pub fn filterset_version() -> u32;
    pub fn filterset_workspace_from_cargo_metadata(metadata: *const u8, length: usize, workspace: *mut RawHandle) -> u8;
    pub fn filterset_workspace_from_record(json: *const u8, length: usize, workspace: *mut RawHandle) -> u8;
    pub fn filterset_workspace_set_groups(workspace: *mut RawHandle, names: *const Text<'_>, count: usize) -> u8;
    pub fn filterset_workspace_set_depth(workspace: *mut RawHandle, levels: usize) -> u8;
    pub fn filterset_workspace_set_default_filter(
        workspace: *mut RawHandle,
        text: *const u8,
        length: usize,
        faults: *mut RawHandle,
    ) -> u8;
    pub fn filterset_parse(
        workspace: *mut RawHandle,
        text: *const u8,
        length: usize,
        kind: u8,
        parsed: *mut RawHandle,
    ) -> u8;
    pub fn filterset_matches_binary(parsed: *mut RawHandle, binary: *const Binary<'_>, answer: *mut u8) -> u8;
    pub fn filterset_matches_test(
        parsed: *mut RawHandle,
        binary: *const Binary<'_>,
        test: *const Test<'_>,
        answer: *mut u8,
    ) -> u8;
    pub fn filterset_matches_tests(
        parsed: *mut RawHandle,
        binary: *const Binary<'_>,
        tests: *const Test<'_>,
        test_count: usize,
        answers: *mut u8,
        answer_count: usize,
    ) -> u8;
    pub fn filterset_needs_groups(parsed: *mut RawHandle, answer: *mut u8) -> u8;
    pub fn filterset_print(parsed: *mut RawHandle, room: *mut u8, size: usize, length: *mut usize) -> u8;
    pub fn filterset_free(parsed: *mut RawHandle);
    pub fn filterset_fault_count(faults: *mut RawHandle) -> usize;
    pub fn filterset_fault_span(faults: *mut RawHandle, index: usize, span: *mut Span) -> u8;
    pub fn filterset_fault_text(
        faults: *mut RawHandle,
        index: usize,
        part: u8,
        room: *mut u8,
        size: usize,
        length: *mut usize,
    ) -> u8;
}
