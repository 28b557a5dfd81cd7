//! "Little-endian 32-bit numbers, unsigned but for a deadwood volume."

/// The unsigned number at a byte offset. The caller has checked the length.
pub fn unsigned_at(file: &[u8], at: usize) -> u32 {
    u32::from_le_bytes([file[at], file[at + 1], file[at + 2], file[at + 3]])
}

/// The signed number at a byte offset. The caller has checked the length.
pub fn signed_at(file: &[u8], at: usize) -> i32 {
    i32::from_le_bytes([file[at], file[at + 1], file[at + 2], file[at + 3]])
}
