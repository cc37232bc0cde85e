//! The frame check sequence of IEEE 802.3, by its text: the message as a polynomial, divided bit by bit.

/// x^26 + x^23 + x^22 + x^16 + x^12 + x^11 + x^10 + x^8 + x^7 + x^5 + x^4 + x^2 + x + 1, without its x^32.
const GENERATOR: u32 = 0x04C1_1DB7;

/// The remainder of the message times x^32, with the first 32 bits complemented, and complemented itself. The bits of a byte come
/// lowest first, and so do those of the sum: bit 0 of the number is the coefficient of x^31.
pub fn crc32(message: &[u8]) -> u32 {
    // to begin with ones is to complement the first 32 bits
    let mut remainder = u32::MAX;
    for byte in message {
        for place in 0..8 {
            let next = u32::from(byte >> place) & 1;
            let carry = (remainder >> 31) ^ next;
            remainder = (remainder << 1) ^ (carry * GENERATOR);
        }
    }
    !remainder.reverse_bits()
}

#[cfg(test)]
mod tests {
    use super::*;
    use crate::programs::{answers, messages};

    #[test]
    fn the_published_values() {
        assert_eq!(crc32(b"123456789"), 0xCBF4_3926);
        assert_eq!(crc32(b""), 0);
        assert_eq!(crc32(b"a"), 0xE8B7_BE43);
        assert_eq!(crc32(b"abc"), 0x3524_41C2);
        assert_eq!(crc32(&[0; 4]), 0x2144_DF1C);
        assert_eq!(crc32(&[0xFF; 4]), 0xFFFF_FFFF);
    }

    /// zlib's, as python3 has it.
    #[test]
    fn a_second_program() {
        let messages = messages();
        let Some(sums) = answers("zlib.crc32(m).to_bytes(4, 'big').hex()", &messages) else { return };
        for (message, sum) in messages.iter().zip(sums) {
            assert_eq!(format!("{:08x}", crc32(message)), sum, "{} bytes", message.len());
        }
    }
}
