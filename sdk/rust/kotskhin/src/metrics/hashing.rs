//! How sets of attributes are hashed where a recording looks its number up.
//!
//! std's hasher takes most of such a recording. This one multiplies a word at a time, under keys that each provider draws anew: so who
//! picks attributes can't pick those that collide.
use std::hash::{BuildHasher, Hasher, RandomState};

/// An odd number whose bits are of no order: that of the golden section.
pub(super) const MIXER: u64 = 0x9e37_79b9_7f4a_7c15;

/// Makes hashers of one pair of keys.
#[derive(Clone)]
pub(super) struct Keyed {
    first: u64,
    second: u64,
}

impl Default for Keyed {
    fn default() -> Keyed {
        let drawn = RandomState::new();
        Keyed {
            first: drawn.hash_one(0_u8),
            second: drawn.hash_one(1_u8) | 1,
        }
    }
}

impl BuildHasher for Keyed {
    type Hasher = Folded;

    #[inline]
    fn build_hasher(&self) -> Folded {
        Folded {
            state: self.first,
            key: self.second,
        }
    }
}

/// What was hashed so far.
pub(super) struct Folded {
    state: u64,
    key: u64,
}

/// Both halves of a product, as one.
#[inline]
fn fold(one: u64, other: u64) -> u64 {
    let product = u128::from(one) * u128::from(other);
    (product >> 64) as u64 ^ product as u64
}

/// All bytes of a text of at most 16, as two numbers: of other texts of its length these are others.
#[inline]
fn words(bytes: &[u8]) -> (u64, u64) {
    if let (Some(first), Some(last)) = (bytes.first_chunk(), bytes.last_chunk()) {
        return (u64::from_le_bytes(*first), u64::from_le_bytes(*last));
    }
    if let (Some(first), Some(last)) = (bytes.first_chunk(), bytes.last_chunk()) {
        return (
            u32::from_le_bytes(*first).into(),
            u32::from_le_bytes(*last).into(),
        );
    }
    let mut few = bytes.iter().copied();
    let mut next = || u64::from(few.next().unwrap_or(0));
    (next() | next() << 8, next())
}

impl Hasher for Folded {
    #[inline]
    fn write(&mut self, bytes: &[u8]) {
        let mut rest = bytes;
        while rest.len() > 16 {
            let (piece, more) = rest.split_at(16);
            let (one, other) = words(piece);
            self.state = fold(self.state ^ one, self.key ^ other);
            rest = more;
        }
        // (the length, so that no zeros stand for bytes that are none)
        let length = (bytes.len() as u64).wrapping_mul(MIXER);
        let (one, other) = words(rest);
        self.state = fold(self.state ^ one, self.key ^ other ^ length);
    }

    #[inline]
    fn write_u8(&mut self, byte: u8) {
        self.write_u64(byte.into());
    }

    /// What is written next is multiplied with it, and so is the end.
    #[inline]
    fn write_u64(&mut self, word: u64) {
        self.state = (self.state ^ word).wrapping_mul(MIXER);
    }

    #[inline]
    fn write_usize(&mut self, word: usize) {
        self.write_u64(word as u64);
    }

    #[inline]
    fn write_isize(&mut self, word: isize) {
        self.write_u64(word as u64);
    }

    #[inline]
    fn write_i64(&mut self, word: i64) {
        self.write_u64(word as u64);
    }

    #[inline]
    fn finish(&self) -> u64 {
        fold(self.state ^ MIXER, self.key)
    }
}

#[cfg(test)]
mod tests {
    use super::super::key_value::KeyValue;
    use super::Keyed;
    use std::collections::HashSet;
    use std::hash::BuildHasher;

    #[test]
    fn few_sets_share_a_hash_and_each_provider_has_hashes_of_its_own() {
        let (one, other) = (Keyed::default(), Keyed::default());
        let (mut seen, mut buckets) = (HashSet::new(), HashSet::new());
        for number in 0..10_000_i64 {
            let set = [
                KeyValue::new("route", format!("/{number}")),
                KeyValue::new("status", number % 7),
            ];
            let hash = one.hash_one(&set[..]);
            assert_ne!(hash, other.hash_one(&set[..]));
            seen.insert(hash);
            buckets.insert(hash % 16_384);
        }
        assert_eq!(seen.len(), 10_000);
        // (so many of as many buckets have one of 10,000 where hashes are drawn: 7,500)
        assert!(buckets.len() > 7_000, "{} buckets", buckets.len());
        assert_ne!(one.hash_one("ab"), one.hash_one("ab\0"));
        for longer in 0..40 {
            // (each byte of a text counts, at each length)
            let text: Vec<u8> = (0..longer).collect();
            for at in 0..text.len() {
                let mut other = text.clone();
                other[at] ^= 1;
                assert_ne!(one.hash_one(&text[..]), one.hash_one(&other[..]));
            }
        }
    }
}
