//! FNV-1a of 32 bits, over bytes.

pub fn fnv(bytes: &[u8]) -> u32 {
    bytes.iter().fold(0x811c9dc5, |hash, &byte| (hash ^ byte as u32).wrapping_mul(0x01000193))
}
