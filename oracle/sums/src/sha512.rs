//! SHA-512, section by section as FIPS 180-4 has it. The constants are computed from what the standard says they are.

use std::sync::OnceLock;

/// 6.4: the digest of a message.
pub fn sha512(message: &[u8]) -> [u8; 64] {
    let constants = Constants::get();
    let mut hash = constants.start;
    for block in padded(message).chunks(128) {
        let added = compress(&hash, block, &constants.rounds);
        hash = std::array::from_fn(|i| hash[i].wrapping_add(added[i]));
    }
    let mut digest = [0; 64];
    for (bytes, word) in digest.chunks_mut(8).zip(hash) {
        bytes.copy_from_slice(&word.to_be_bytes());
    }
    digest
}

/// 5.1.2: a bit 1, zeros up to 896 modulo 1024 bits, and the length in bits as 128 bits.
fn padded(message: &[u8]) -> Vec<u8> {
    let mut bytes = message.to_vec();
    bytes.push(0x80);
    while bytes.len() % 128 != 112 {
        bytes.push(0);
    }
    bytes.extend_from_slice(&(8 * message.len() as u128).to_be_bytes());
    bytes
}

/// 6.4.2, steps 1 to 3: what a block adds to the hash value.
fn compress(hash: &[u64; 8], block: &[u8], k: &[u64; 80]) -> [u64; 8] {
    let mut w = [0u64; 80];
    for (word, bytes) in w.iter_mut().zip(block.chunks(8)) {
        *word = u64::from_be_bytes(bytes.try_into().expect("eight bytes"));
    }
    for t in 16..80 {
        let small_1 = w[t - 2].rotate_right(19) ^ w[t - 2].rotate_right(61) ^ (w[t - 2] >> 6);
        let small_0 = w[t - 15].rotate_right(1) ^ w[t - 15].rotate_right(8) ^ (w[t - 15] >> 7);
        w[t] = sum(&[small_1, w[t - 7], small_0, w[t - 16]]);
    }
    let [mut a, mut b, mut c, mut d, mut e, mut f, mut g, mut h] = *hash;
    for t in 0..80 {
        let big_1 = e.rotate_right(14) ^ e.rotate_right(18) ^ e.rotate_right(41);
        let big_0 = a.rotate_right(28) ^ a.rotate_right(34) ^ a.rotate_right(39);
        let choice = (e & f) ^ (!e & g);
        let majority = (a & b) ^ (a & c) ^ (b & c);
        let first = sum(&[h, big_1, choice, k[t], w[t]]);
        let second = sum(&[big_0, majority]);
        (h, g, f, e) = (g, f, e, sum(&[d, first]));
        (d, c, b, a) = (c, b, a, sum(&[first, second]));
    }
    [a, b, c, d, e, f, g, h]
}

/// Sums of words are modulo 2^64.
fn sum(words: &[u64]) -> u64 {
    words.iter().fold(0, |all, word| all.wrapping_add(*word))
}

/// 4.2.3 and 5.3.5: the first 64 bits behind the point of the cube roots of the first eighty primes, and of the square roots of the
/// first eight.
struct Constants {
    rounds: [u64; 80],
    start: [u64; 8],
}

impl Constants {
    fn get() -> &'static Constants {
        static FOUND: OnceLock<Constants> = OnceLock::new();
        FOUND.get_or_init(|| {
            let prime = |n: &u32| (2..*n).all(|d| !n.is_multiple_of(d));
            let primes: Vec<u32> = (2..).filter(prime).take(80).collect();
            Constants {
                rounds: std::array::from_fn(|i| behind_the_point(primes[i], 3)),
                start: std::array::from_fn(|i| behind_the_point(primes[i], 2)),
            }
        })
    }
}

/// The largest x with x^power at most number * 2^(64 * power) is the root times 2^64; its low 64 bits.
fn behind_the_point(number: u32, power: usize) -> u64 {
    let mut most = vec![0; 2 * power];
    most.push(number);
    let mut root = 0u128;
    for place in (0..69).rev() {
        let more = root | 1 << place;
        let raised = (0..power).fold(vec![1], |all, _| product(&all, more));
        if !exceeds(&raised, &most) {
            root = more;
        }
    }
    root as u64
}

/// Whole numbers as digits of 32 bits, lowest first.
fn product(a: &[u32], b: u128) -> Vec<u32> {
    let mut digits = vec![0; a.len() + 4];
    for (i, x) in a.iter().enumerate() {
        let mut carry = 0u64;
        for j in 0..4 {
            let y = (b >> (32 * j)) as u32;
            carry += u64::from(digits[i + j]) + u64::from(*x) * u64::from(y);
            digits[i + j] = carry as u32;
            carry >>= 32;
        }
        digits[i + 4] = carry as u32;
    }
    digits
}

fn exceeds(a: &[u32], b: &[u32]) -> bool {
    let digit = |n: &[u32], i: usize| n.get(i).copied().unwrap_or(0);
    let places = (0..a.len().max(b.len())).rev();
    places
        .map(|i| digit(a, i).cmp(&digit(b, i)))
        .find(|order| order.is_ne())
        .is_some_and(|order| order.is_gt())
}

#[cfg(test)]
mod tests {
    use super::*;
    use crate::programs::{answers, hex, messages, printed};

    /// Of each table its first and last words, as the standard prints them.
    #[test]
    fn the_constants() {
        let Constants { rounds, start } = Constants::get();
        assert_eq!((rounds[0], rounds[1]), (0x428a_2f98_d728_ae22, 0x7137_4491_23ef_65cd));
        assert_eq!((rounds[78], rounds[79]), (0x5fcb_6fab_3ad6_faec, 0x6c44_198c_4a47_5817));
        assert_eq!((start[0], start[7]), (0x6a09_e667_f3bc_c908, 0x5be0_cd19_137e_2179));
    }

    #[test]
    fn the_published_digests() {
        let long = b"abcdefghbcdefghicdefghijdefghijkefghijklfghijklmghijklmnhijklmnoijklmnopjklmnopqklmnopqrlmnopqrsmnopqrstnopqrstu";
        let million = vec![b'a'; 1_000_000];
        let vectors: [(&[u8], &str); 4] = [
            (
                b"",
                "cf83e1357eefb8bdf1542850d66d8007d620e4050b5715dc83f4a921d36ce9ce47d0d13c5d85f2b0ff8318d2877eec2f63b931bd47417a81a538327af927da3e",
            ),
            (
                b"abc",
                "ddaf35a193617abacc417349ae20413112e6fa4e89a97ea20a9eeee64b55d39a2192992a274fc1a836ba3c23a3feebbd454d4423643ce80e2a9ac94fa54ca49f",
            ),
            (
                long,
                "8e959b75dae313da8cf4f72814fc143f8f7779c6eb9f7fa17299aeadb6889018501d289e4900f7e4331b99dec4b5433ac7d329eeb6dd26545e96e55b874be909",
            ),
            (
                &million,
                "e718483d0ce769644e2e42c7bc15b4638e1f98b13b2044285632a803afa973ebde0ff244877ea60a4cb0432ce577c31beb009c5c2c49aa2e4eadb217ad8cc09b",
            ),
        ];
        for (message, digest) in vectors {
            assert_eq!(hex(&sha512(message)), digest);
        }
    }

    /// sha512sum, and hashlib's as python3 has it: every length up to 300, with the edges of the blocks, and some longer ones.
    #[test]
    fn two_other_programs() {
        let messages = messages();
        if let Some(digests) = answers("hashlib.sha512(m).hexdigest()", &messages) {
            for (message, digest) in messages.iter().zip(digests) {
                assert_eq!(hex(&sha512(message)), digest, "{} bytes", message.len());
            }
        }
        for message in &messages {
            let Some(text) = printed("sha512sum", &[], message.clone()) else { return };
            assert_eq!(format!("{}  -\n", hex(&sha512(message))), text, "{} bytes", message.len());
        }
    }
}
