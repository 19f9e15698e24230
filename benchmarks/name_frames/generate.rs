// Writes a recording of about as many bytes as its argument says: sound lines of all names, mixed with
// damaged ones, from a fixed seed.
use std::io::{self, BufWriter, Write};

struct Random(u64);

impl Random {
    fn next(&mut self) -> u64 {
        self.0 ^= self.0 << 13;
        self.0 ^= self.0 >> 7;
        self.0 ^= self.0 << 17;
        self.0
    }

    fn below(&mut self, n: u64) -> u64 {
        (self.next() >> 16) % n
    }
}

fn crc(bytes: &[u8]) -> u8 {
    let mut register = 0u8;
    for byte in bytes {
        let mut left = *byte;
        for _ in 0..8 {
            let low = (register ^ left) & 1;
            register = (register >> 1) ^ if low == 1 { 0x8C } else { 0 };
            left >>= 1;
        }
    }
    register
}

fn sound_code(r: &mut Random) -> u64 {
    let family = if r.below(2) == 0 { 0x28 } else { 0x10 };
    let mut bytes = (r.next() << 8 | family).to_le_bytes();
    bytes[7] = crc(&bytes[..7]);
    u64::from_le_bytes(bytes)
}

fn line(presence: u8, count: usize, bytes: &[u8]) -> Vec<u8> {
    let mut text = format!("{:02X}{:04X}", presence, count).into_bytes();
    for byte in bytes {
        text.extend(format!("{:02X}", byte).into_bytes());
    }
    text
}

fn pass(r: &mut Random, command: u8) -> Vec<u8> {
    let code = sound_code(r);
    let mut bytes = [0u8; 25];
    bytes[0] = command;
    let mut put = |i: usize, bit: bool| bytes[i / 8] |= (bit as u8) << (i % 8);
    for i in 0..64 {
        let bit = code >> i & 1 == 1;
        let conflict = r.below(16) == 0;
        put(8 + 3 * i, bit && !conflict);
        put(9 + 3 * i, !bit && !conflict);
        put(10 + 3 * i, bit);
    }
    line(1, 200, &bytes)
}

fn pad(r: &mut Random) -> Vec<u8> {
    let code = sound_code(r);
    let half = code & 255 == 0x10;
    let reading = if half { r.below(361) as i16 - 110 } else { r.below(2881) as i16 - 880 };
    let configuration = if half { 0xFF } else { (r.below(4) as u8) << 5 | 0x1F };
    let mut bytes = vec![0x55];
    bytes.extend(code.to_le_bytes());
    bytes.push(0xBE);
    bytes.extend(reading.to_le_bytes());
    bytes.extend([r.below(256) as u8, r.below(256) as u8, configuration, 0xFF, 0x0C, 0x10]);
    let check = crc(&bytes[10..18]);
    bytes.push(check);
    line(1, 152, &bytes)
}

fn other(r: &mut Random) -> Vec<u8> {
    let count = r.below(513) as usize;
    let mut bytes: Vec<u8> = (0..(count + 7) / 8).map(|_| r.below(256) as u8).collect();
    if count % 8 != 0 {
        *bytes.last_mut().unwrap() &= (1 << (count % 8)) - 1;
    }
    line(1, count, &bytes)
}

fn damaged(r: &mut Random) -> Vec<u8> {
    let mut text = match r.below(3) {
        0 => pass(r, 0xF0),
        1 => pad(r),
        _ => other(r),
    };
    let at = r.below(text.len() as u64) as usize;
    match r.below(4) {
        0 => text[at] = b"0123456789ABCDEF"[r.below(16) as usize],
        1 => text[at] = r.below(256) as u8,
        2 => text.truncate(at),
        _ => text.extend(vec![b'0'; r.below(300) as usize]),
    }
    text
}

fn main() -> io::Result<()> {
    let wanted: usize = std::env::args().nth(1).and_then(|n| n.parse().ok()).expect("how many bytes");
    let mut out = BufWriter::new(io::stdout().lock());
    let mut r = Random(0x1E28);
    let mut written = 0;
    while written < wanted {
        let text = match r.below(20) {
            0..=6 => pass(&mut r, 0xF0),
            7..=8 => pass(&mut r, 0xEC),
            9..=14 => pad(&mut r),
            15 => b"000000".to_vec(),
            16 => b"01000AEC03".to_vec(),
            17 => other(&mut r),
            _ => damaged(&mut r),
        };
        out.write_all(&text)?;
        out.write_all(b"\n")?;
        written += text.len() + 1;
    }
    out.flush()
}
