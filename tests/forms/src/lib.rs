//! The proved hash, bucket and datagram code, linked from its static libraries. Each
//! exported function is wrapped in a safe one: a slice is passed as pointer
//! and length, and no function keeps a pointer.

/// The key hash (crates/hash).
pub mod hash {
    mod exported {
        #[link(name = "hash", kind = "static")]
        extern "C" {
            pub fn fnv1a(key: *const u8, key_len: usize) -> u32;
            pub fn bucket_of(key: *const u8, key_len: usize, buckets: u32) -> u32;
        }
    }

    pub fn fnv1a(key: &[u8]) -> u32 {
        unsafe { exported::fnv1a(key.as_ptr(), key.len()) }
    }

    pub fn bucket_of(key: &[u8], buckets: u32) -> u32 {
        unsafe { exported::bucket_of(key.as_ptr(), key.len(), buckets) }
    }
}

/// Calls on bucket bytes (crates/bucket_c), which says what their numbers are.
pub mod bucket {
    mod exported {
        #[link(name = "bucket_c", kind = "static")]
        extern "C" {
            pub fn bucket_read(bucket: *const u8, bucket_len: usize) -> u32;
            pub fn bucket_write(
                count: usize,
                lengths: *const u8,
                lengths_len: usize,
                bytes: *const u8,
                bytes_len: usize,
                out: *mut u8,
                out_len: usize,
            ) -> u32;
            pub fn bucket_get(
                bucket: *const u8,
                bucket_len: usize,
                key: *const u8,
                key_len: usize,
                out: *mut u8,
                out_len: usize,
            ) -> u32;
            pub fn bucket_put(
                bucket: *mut u8,
                bucket_len: usize,
                key: *const u8,
                key_len: usize,
                value: *const u8,
                value_len: usize,
            ) -> u32;
            pub fn bucket_remove(
                bucket: *mut u8,
                bucket_len: usize,
                key: *const u8,
                key_len: usize,
            ) -> u32;
            pub fn bucket_keys(
                bucket: *const u8,
                bucket_len: usize,
                out: *mut u8,
                out_len: usize,
            ) -> u32;
        }
    }

    pub fn read(bucket: &[u8]) -> u32 {
        unsafe { exported::bucket_read(bucket.as_ptr(), bucket.len()) }
    }

    pub fn write(count: usize, lengths: &[u8], bytes: &[u8], out: &mut [u8]) -> u32 {
        unsafe {
            exported::bucket_write(
                count,
                lengths.as_ptr(),
                lengths.len(),
                bytes.as_ptr(),
                bytes.len(),
                out.as_mut_ptr(),
                out.len(),
            )
        }
    }

    pub fn get(bucket: &[u8], key: &[u8], out: &mut [u8]) -> u32 {
        unsafe {
            exported::bucket_get(
                bucket.as_ptr(),
                bucket.len(),
                key.as_ptr(),
                key.len(),
                out.as_mut_ptr(),
                out.len(),
            )
        }
    }

    pub fn put(bucket: &mut [u8], key: &[u8], value: &[u8]) -> u32 {
        unsafe {
            exported::bucket_put(
                bucket.as_mut_ptr(),
                bucket.len(),
                key.as_ptr(),
                key.len(),
                value.as_ptr(),
                value.len(),
            )
        }
    }

    pub fn remove(bucket: &mut [u8], key: &[u8]) -> u32 {
        unsafe {
            exported::bucket_remove(bucket.as_mut_ptr(), bucket.len(), key.as_ptr(), key.len())
        }
    }

    pub fn keys(bucket: &[u8], out: &mut [u8]) -> u32 {
        unsafe { exported::bucket_keys(bucket.as_ptr(), bucket.len(), out.as_mut_ptr(), out.len()) }
    }
}

/// Calls on datagrams (crates/datagram_c).
pub mod datagram {
    use reference::datagram::Header;

    mod exported {
        #[link(name = "datagram_c", kind = "static")]
        extern "C" {
            pub fn datagram_read(bytes: *const u8, bytes_len: usize) -> u32;
            pub fn datagram_rewrite(
                bytes: *const u8,
                bytes_len: usize,
                out: *mut u8,
                out_len: usize,
            ) -> u32;
            pub fn datagram_write(
                kind: u8,
                from: u8,
                to: u8,
                bucket: u8,
                election: u16,
                round: u32,
                number: u16,
                counter: u32,
                count: usize,
                lengths: *const u8,
                lengths_len: usize,
                bytes: *const u8,
                bytes_len: usize,
                out: *mut u8,
                out_len: usize,
            ) -> u32;
        }
    }

    pub fn read(bytes: &[u8]) -> u32 {
        unsafe { exported::datagram_read(bytes.as_ptr(), bytes.len()) }
    }

    pub fn rewrite(bytes: &[u8], out: &mut [u8]) -> u32 {
        unsafe {
            exported::datagram_rewrite(bytes.as_ptr(), bytes.len(), out.as_mut_ptr(), out.len())
        }
    }

    /// The table is handed over as to `bucket::write`.
    pub fn write(
        header: &Header,
        count: usize,
        lengths: &[u8],
        bytes: &[u8],
        out: &mut [u8],
    ) -> u32 {
        unsafe {
            exported::datagram_write(
                header.kind,
                header.from,
                header.to,
                header.bucket,
                header.number,
                header.round,
                header.version.number,
                header.version.counter,
                count,
                lengths.as_ptr(),
                lengths.len(),
                bytes.as_ptr(),
                bytes.len(),
                out.as_mut_ptr(),
                out.len(),
            )
        }
    }
}
