//! Stand-in for the hash that the storage source names. No call of document 01
//! reaches it, so it refuses to pretend that it is Blake3.

pub fn hash_blake3_bytes(_bytes: &[u8]) -> [u8; 32] {
    unimplemented!("no call that is compared here needs a hash")
}
