//! A stand-in for the crate `bit_field`: what the original uses of it.

/// A number as a row of bits, the lowest at 0.
pub trait BitField {
    fn get_bit(&self, bit: usize) -> bool;
    fn set_bit(&mut self, bit: usize, value: bool) -> &mut Self;
}

impl BitField for u8 {
    fn get_bit(&self, bit: usize) -> bool {
        assert!(bit < 8);
        self & (1 << bit) != 0
    }

    fn set_bit(&mut self, bit: usize, value: bool) -> &mut u8 {
        assert!(bit < 8);
        *self = (*self & !(1 << bit)) | (u8::from(value) << bit);
        self
    }
}

#[cfg(test)]
mod tests {
    use super::BitField;

    #[test]
    fn one_bit_and_no_other() {
        let mut byte = 0b1000_0001;
        assert!(byte.get_bit(0) && byte.get_bit(7) && !byte.get_bit(1));
        byte.set_bit(1, true).set_bit(7, false).set_bit(6, false);
        assert_eq!(byte, 0b0000_0011);
    }
}
