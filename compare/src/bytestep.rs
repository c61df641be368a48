//! The checksum a byte a step over one table: for the benchmark only.

static TABLE: [u32; 256] = table();

const fn table() -> [u32; 256] {
    let mut table = [0; 256];
    let mut byte = 0;
    while byte < 256 {
        let mut word = byte as u32;
        let mut bit = 0;
        while bit < 8 {
            word = (word >> 1) ^ if word & 1 == 1 { 0x82f6_3b78 } else { 0 };
            bit += 1;
        }
        table[byte] = word;
        byte += 1;
    }
    table
}

pub fn crc32c(bytes: &[u8]) -> u32 {
    crc32c_append(0, bytes)
}

pub fn crc32c_append(crc: u32, bytes: &[u8]) -> u32 {
    let step = |register: u32, byte: &u8| (register >> 8) ^ TABLE[usize::from(register as u8 ^ byte)];
    !bytes.iter().fold(!crc, step)
}
