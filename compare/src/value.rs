//! The values that pass through the interface: drawn at random, packed little-endian, shown in hex.

use crate::rng::Rng;

pub trait Value: Copy + PartialEq {
    fn random(rng: &mut Rng) -> Self;
    fn packed(self) -> Vec<u8>;
}

macro_rules! number {
    ($($number:ty)*) => {$(
        impl Value for $number {
            fn random(rng: &mut Rng) -> Self {
                rng.any() as $number
            }

            fn packed(self) -> Vec<u8> {
                self.to_le_bytes().to_vec()
            }
        }
    )*};
}

number!(u8 u16 u32 u64 usize);

impl<const N: usize> Value for [u8; N] {
    fn random(rng: &mut Rng) -> Self {
        let mut array = [0; N];
        rng.fill(&mut array);
        array
    }

    fn packed(self) -> Vec<u8> {
        self.to_vec()
    }
}

impl<const N: usize> Value for [u64; N] {
    fn random(rng: &mut Rng) -> Self {
        std::array::from_fn(|_| rng.next())
    }

    fn packed(self) -> Vec<u8> {
        self.iter().flat_map(|number| number.to_le_bytes()).collect()
    }
}

/// Lower-case hex, `-` for no bytes.
pub fn hex(bytes: &[u8]) -> String {
    if bytes.is_empty() {
        return "-".to_string();
    }
    bytes.iter().map(|byte| format!("{byte:02x}")).collect()
}
