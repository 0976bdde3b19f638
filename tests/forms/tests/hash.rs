//! The proved key hash against the independent one.

mod common;

use common::any_bytes;
use forms::hash::{bucket_of, fnv1a};
use reference::scripts::Random;

#[test]
fn hashes_agree() {
    let mut random = Random::new(1);
    for _ in 0..20_000 {
        let length = random.below(20);
        let key = any_bytes(&mut random, length);
        assert_eq!(fnv1a(&key), reference::hash::fnv1a(&key), "{key:?}");
    }
    let long = any_bytes(&mut random, 5000);
    assert_eq!(fnv1a(&long), reference::hash::fnv1a(&long));
}

#[test]
fn buckets_of_keys_agree() {
    let mut random = Random::new(2);
    for _ in 0..5_000 {
        let length = random.within(1, 8);
        let key = any_bytes(&mut random, length);
        for buckets in 1..=8 {
            let expected = reference::hash::bucket_of(&key, buckets);
            assert_eq!(bucket_of(&key, buckets as u32), expected as u32, "{key:?}");
        }
        assert_eq!(bucket_of(&key, 0), 0);
    }
}
