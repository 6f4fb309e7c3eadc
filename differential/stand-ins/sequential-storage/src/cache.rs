//! The cache types the flash source names. It asks for no caching, and the
//! stand-in has none.

use core::marker::PhantomData;

pub struct Uncached;

pub struct Cache<A, B, C, K>(PhantomData<(A, B, C, K)>);

impl<K> Cache<Uncached, Uncached, Uncached, K> {
    pub fn new_uncached() -> Self {
        Cache(PhantomData)
    }
}
