//! The C face, as include/holmweder.h has it, and the same face for every contestant: each is called through pointers of
//! the same types, so that a call costs each the same.

pub type Execute = unsafe extern "C" fn(
    cdb: *const u8,
    cdb_len: usize,
    out: *const u8,
    out_len: usize,
    partition: u64,
    object: u64,
    length: u64,
    maximum: u64,
    tag: u32,
    epoch: u16,
    slice: *mut u8,
    slice_len: usize,
    input: *mut u8,
    input_len: usize,
    count: *mut u64,
    next_length: *mut u64,
) -> u32;

pub type Admission = unsafe extern "C" fn(
    cdb: *const u8,
    cdb_len: usize,
    out: *const u8,
    out_len: usize,
    partition: u64,
    object: u64,
    length: u64,
    maximum: u64,
    tag: u32,
    epoch: u16,
    start: u64,
    size: u64,
    offset: *mut u64,
) -> u32;

pub type Write = unsafe extern "C" fn(
    action: u64,
    partition: u64,
    object: u64,
    start: u64,
    size: u64,
    listed: u32,
    offsets: *const u64,
    offsets_len: usize,
    lengths: *const u64,
    lengths_len: usize,
    capabilities: *const u8,
    capabilities_len: usize,
    cdb: *mut u8,
    cdb_len: usize,
    segment: *mut u8,
    segment_len: usize,
    segment_length: *mut u64,
) -> u32;

/// One contestant's three entry points.
#[derive(Clone, Copy)]
pub struct Face {
    pub execute: Execute,
    pub admission: Admission,
    pub write: Write,
}

mod archive {
    extern "C" {
        pub fn holmweder_execute(
            cdb: *const u8,
            cdb_len: usize,
            out: *const u8,
            out_len: usize,
            partition: u64,
            object: u64,
            length: u64,
            maximum: u64,
            tag: u32,
            epoch: u16,
            slice: *mut u8,
            slice_len: usize,
            input: *mut u8,
            input_len: usize,
            count: *mut u64,
            next_length: *mut u64,
        ) -> u32;

        pub fn holmweder_admission(
            cdb: *const u8,
            cdb_len: usize,
            out: *const u8,
            out_len: usize,
            partition: u64,
            object: u64,
            length: u64,
            maximum: u64,
            tag: u32,
            epoch: u16,
            start: u64,
            size: u64,
            offset: *mut u64,
        ) -> u32;

        pub fn holmweder_write(
            action: u64,
            partition: u64,
            object: u64,
            start: u64,
            size: u64,
            listed: u32,
            offsets: *const u64,
            offsets_len: usize,
            lengths: *const u64,
            lengths_len: usize,
            capabilities: *const u8,
            capabilities_len: usize,
            cdb: *mut u8,
            cdb_len: usize,
            segment: *mut u8,
            segment_len: usize,
            segment_length: *mut u64,
        ) -> u32;
    }
}

/// The proved engine.
pub const PROVED: Face = Face {
    execute: archive::holmweder_execute,
    admission: archive::holmweder_admission,
    write: archive::holmweder_write,
};
