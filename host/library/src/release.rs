//! What the library is, and a checksum for self-tests.

/// The library's version and the hash of its sources.
#[repr(C)]
#[derive(Clone, Copy, Debug, PartialEq, Eq)]
pub struct Identity {
    /// The version's first number.
    pub major: u32,
    /// Its second.
    pub minor: u32,
    /// Its third.
    pub patch: u32,
    /// The sha256 of the list of the sources.
    pub source: [u8; 32],
}

extern "C" {
    fn wayramesh_identity() -> Identity;
    fn wayramesh_checksum(bytes: *const u8, bytes_len: usize) -> u32;
}

/// What the library is that is linked.
pub fn identity() -> Identity {
    // SAFETY: it takes nothing and answers plain numbers.
    unsafe { wayramesh_identity() }
}

/// The CRC-32 of bytes, as of a picture.
pub fn checksum(bytes: &[u8]) -> u32 {
    // SAFETY: the pointer comes with its slice's length; it is only read.
    unsafe { wayramesh_checksum(bytes.as_ptr(), bytes.len()) }
}
