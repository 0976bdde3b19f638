//! FNV-1a of 32 bits and the bucket of a key.

const OFFSET_BASIS: u32 = 2_166_136_261;
const PRIME: u32 = 16_777_619;

/// FNV-1a hash of 32 bits.
pub fn fnv1a(bytes: &[u8]) -> u32 {
    bytes.iter().fold(OFFSET_BASIS, |hash, &byte| {
        (hash ^ u32::from(byte)).wrapping_mul(PRIME)
    })
}

/// The bucket of `key` where there are `buckets` of them.
pub fn bucket_of(key: &[u8], buckets: usize) -> usize {
    (fnv1a(key) % buckets as u32) as usize
}
