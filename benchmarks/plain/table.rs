// The CRC as it is ordinarily written, by a table.
static TABLE: [u8; 256] = table();

const fn table() -> [u8; 256] {
    let mut table = [0; 256];
    let mut i = 0;
    while i < 256 {
        let mut r = i as u8;
        let mut bit = 0;
        while bit < 8 {
            r = if r & 1 == 1 { (r >> 1) ^ 0x8C } else { r >> 1 };
            bit += 1;
        }
        table[i] = r;
        i += 1;
    }
    table
}

pub fn crc_of(bytes: &[u8]) -> u8 {
    bytes.iter().fold(0, |r, b| TABLE[(r ^ b) as usize])
}
