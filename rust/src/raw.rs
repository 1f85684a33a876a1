//! `include/noonhaggle.h` in Rust. What it asks of a caller, slices give: valid pointers, and no overlap of what is written.
#[repr(C)]
pub struct Lookup {
    pub number: u32,
    pub version: u32,
    pub epoch: u32,
    pub digests: u32,
    pub key_start: usize,
    pub key_length: usize,
}

#[repr(C)]
pub struct History {
    pub number: u32,
    pub versions: u32,
    pub epoch: u32,
    pub digests: u32,
}

#[repr(C)]
pub struct Audit {
    pub number: u32,
    pub old_epoch: u32,
    pub new_epoch: u32,
    pub digests: u32,
}

#[repr(C)]
pub struct Digest {
    pub bytes: [u8; 32],
}

#[repr(C)]
pub struct Published {
    pub number: u32,
    pub count: u32,
    pub epoch: u32,
}

#[repr(C)]
pub struct Written {
    pub number: u32,
    pub count: u32,
    pub epoch: u32,
    pub length: usize,
}

/// Where each field lies: the places of the header, which the archive has.
macro_rules! laid_out {
    ($type:ident, $($field:ident $place:literal)*, $size:literal) => {
        const _: () = assert!($(std::mem::offset_of!($type, $field) == $place &&)* std::mem::size_of::<$type>() == $size);
    };
}

laid_out!(Lookup, number 0 version 4 epoch 8 digests 12 key_start 16 key_length 24, 32);
laid_out!(History, number 0 versions 4 epoch 8 digests 12, 16);
laid_out!(Audit, number 0 old_epoch 4 new_epoch 8 digests 12, 16);
laid_out!(Digest, bytes 0, 32);
laid_out!(Published, number 0 count 4 epoch 8, 12);
laid_out!(Written, number 0 count 4 epoch 8 length 16, 24);

extern "C" {
    pub fn noonhaggle_check_lookup(head: *const u8, head_length: usize, name: *const u8, name_length: usize, proof: *const u8, proof_length: usize) -> Lookup;
    pub fn noonhaggle_check_history(head: *const u8, head_length: usize, name: *const u8, name_length: usize, proof: *const u8, proof_length: usize) -> History;
    pub fn noonhaggle_check_audit(old_head: *const u8, old_head_length: usize, new_head: *const u8, new_head_length: usize, proof: *const u8, proof_length: usize) -> Audit;
    pub fn noonhaggle_sha256(bytes: *const u8, length: usize) -> Digest;
    pub fn noonhaggle_start(heads: *mut u8, heads_length: usize) -> Published;
    pub fn noonhaggle_publish(records: *mut u8, records_length: usize, heads: *mut u8, heads_length: usize, count: u32, epoch: u32, batch: *const u8, batch_length: usize) -> Published;
    pub fn noonhaggle_write_lookup(
        records: *const u8, records_length: usize, heads: *const u8, heads_length: usize, count: u32, epoch: u32,
        name: *const u8, name_length: usize, at: u32, out: *mut u8, out_length: usize,
    ) -> Written;
    pub fn noonhaggle_write_history(
        records: *const u8, records_length: usize, heads: *const u8, heads_length: usize, count: u32, epoch: u32,
        name: *const u8, name_length: usize, at: u32, out: *mut u8, out_length: usize,
    ) -> Written;
    pub fn noonhaggle_write_audit(
        records: *const u8, records_length: usize, heads: *const u8, heads_length: usize, count: u32, epoch: u32,
        at: u32, out: *mut u8, out_length: usize,
    ) -> Written;
}
