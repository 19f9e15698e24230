//! A second implementation of the CRC, the temperature registers, code soundness and the naming of
//! recorded lines, written from the scope and the data sheets in plain Rust and sharing nothing with
//! the proved crates. `tests/second_program` runs both on the same input.
//!
//!     second tables            the registers of every count from -880 to 2000, and their numbers
//!     second name              names the recording on standard input
//!     second lines SEED N      N generated lines, sound and damaged

use std::io::{self, BufWriter, Read, Write};

const POLYNOMIAL: u8 = 0b1000_1100;

fn crc8(bytes: &[u8]) -> u8 {
    bytes.iter().fold(0u8, |crc, &byte| {
        (0..8).fold(crc, |c, bit| {
            let mix = (c ^ (byte >> bit)) & 1;
            (c >> 1) ^ (mix * POLYNOMIAL)
        })
    })
}

// ---- Temperatures

// Half degrees, to the nearest, from a quarter up.
fn register_s(count: i32) -> i16 {
    (count + 4).div_euclid(8) as i16
}

// What COUNT_REMAIN must be, so that TEMP_READ - 1/4 + (16 - COUNT_REMAIN) / 16 is the count.
fn remain_s(count: i32) -> i32 {
    16 * (register_s(count) as i32).div_euclid(2) - 4 + 16 - count
}

fn register_b(count: i32, resolution: u32) -> i16 {
    let step = 8 >> resolution;
    (count.div_euclid(step) * step) as i16
}

fn tables(out: &mut impl Write) -> io::Result<()> {
    for count in -880..=2000 {
        let half = register_s(count);
        write!(out, "{count} {:04x} {half} {}", half as u16, remain_s(count))?;
        for register in (0..4).map(|resolution| register_b(count, resolution)) {
            write!(out, " {:04x} {register}", register as u16)?;
        }
        writeln!(out)?;
    }
    Ok(())
}

// ---- Lines

enum Verdict {
    Text(String),
    Refused(u8),
}

struct Frame {
    presence: bool,
    bits: Vec<bool>,
}

fn hex_value(c: u8) -> Option<u8> {
    match c {
        b'0'..=b'9' => Some(c - b'0'),
        b'A'..=b'F' => Some(c - b'A' + 10),
        _ => None,
    }
}

fn parse(line: &[u8], fed: bool) -> Result<Frame, u8> {
    if line.len() > 134 {
        return Err(3);
    }
    let digits: Option<Vec<u8>> = line.iter().map(|&c| hex_value(c)).collect();
    let digits = match digits {
        Some(d) if fed => d,
        _ => return Err(2),
    };
    if digits.len() < 6 || digits.len() % 2 == 1 {
        return Err(3);
    }
    let bytes: Vec<u8> = digits.chunks(2).map(|p| p[0] * 16 + p[1]).collect();
    let presence = match bytes[0] {
        0 => false,
        1 => true,
        _ => return Err(3),
    };
    let count = bytes[1] as usize * 256 + bytes[2] as usize;
    let data = &bytes[3..];
    if count > 512 || data.len() != (count + 7) / 8 || (!presence && count > 0) {
        return Err(3);
    }
    let all: Vec<bool> = data.iter().flat_map(|b| (0..8).map(move |i| b >> i & 1 == 1)).collect();
    if all[count..].iter().any(|&b| b) {
        return Err(3);
    }
    Ok(Frame { presence, bits: all[..count].to_vec() })
}

fn number(bits: &[bool]) -> u64 {
    bits.iter().enumerate().map(|(i, &b)| (b as u64) << i).sum()
}

fn known(family: u8) -> bool {
    family == 0x10 || family == 0x28 || family == 0x3B
}

fn code_crc_right(code: u64) -> bool {
    let bytes = code.to_le_bytes();
    crc8(&bytes[..7]) == bytes[7]
}

fn name_search(word: &str, bits: &[bool]) -> Verdict {
    let mut code = 0u64;
    for (i, t) in bits[8..].chunks(3).enumerate() {
        match (t[0], t[1], t[2]) {
            (false, false, _) | (false, true, false) | (true, false, true) => {}
            _ => return Verdict::Refused(14),
        }
        code |= (t[2] as u64) << i;
    }
    if !code_crc_right(code) {
        Verdict::Refused(5)
    } else if !known(code as u8) {
        Verdict::Refused(7)
    } else {
        Verdict::Text(format!("{} {:016X}", word, code))
    }
}

fn name_pad(bits: &[bool]) -> Verdict {
    let code = number(&bits[8..72]);
    let pad: Vec<u8> = bits[80..].chunks(8).map(|b| number(b) as u8).collect();
    if !code_crc_right(code) || crc8(&pad[..8]) != pad[8] {
        return Verdict::Refused(5);
    }
    if pad.iter().all(|&b| b == 0) {
        return Verdict::Refused(6);
    }
    let family = code as u8;
    let kind_right = match family {
        0x28 => pad[4] == (pad[4] & 0x60) + 0x1F,
        // A DS1825 has its pins in the low four bits.
        0x3B => pad[4] & 0x90 == 0x10,
        _ => known(family),
    };
    if !kind_right {
        return Verdict::Refused(7);
    }
    let raw = i16::from_le_bytes([pad[0], pad[1]]);
    // But of S the bits below the resolution are undefined, and are cleared for the test; printed they are as they stand.
    let in_range = match (family, pad[4] >> 5 & 3) {
        (0x10, _) => (-110..=250).contains(&raw),
        (_, 0) => (-880..=2000).contains(&(raw & !7)),
        (_, 1) => (-880..=2000).contains(&(raw & !3)),
        (_, 2) => (-880..=2000).contains(&(raw & !1)),
        _ => (-880..=2000).contains(&raw),
    };
    if !in_range {
        return Verdict::Refused(11);
    }
    if family == 0x10 && (pad[7] == 0 || pad[6] > pad[7]) {
        return Verdict::Refused(20);
    }
    Verdict::Text(format!("PAD {:016X} {:04X}", code, raw as u16))
}

fn name_frame(f: &Frame) -> Verdict {
    if !f.presence {
        return Verdict::Text("EMPTY".into());
    }
    let first = if f.bits.len() >= 8 { Some(number(&f.bits[..8]) as u8) } else { None };
    match (f.bits.len(), first) {
        (200, Some(0xF0)) => name_search("SEARCH", &f.bits),
        (200, Some(0xEC)) => name_search("ALARM", &f.bits),
        (10, Some(0xF0)) | (10, Some(0xEC)) if f.bits[8] && f.bits[9] => Verdict::Text("NOBODY".into()),
        (152, Some(0x55)) if number(&f.bits[72..80]) == 0xBE => name_pad(&f.bits),
        _ => Verdict::Text("OTHER".into()),
    }
}

fn name_all(input: &[u8], out: &mut impl Write) -> io::Result<()> {
    let mut rest = input;
    while !rest.is_empty() {
        let (line, fed, next) = match rest.iter().position(|&c| c == b'\n') {
            Some(i) => (&rest[..i], true, &rest[i + 1..]),
            None => (rest, false, &rest[rest.len()..]),
        };
        rest = next;
        let verdict = match parse(line, fed) {
            Err(n) => Verdict::Refused(n),
            Ok(f) => name_frame(&f),
        };
        match verdict {
            Verdict::Text(t) => writeln!(out, "{}", t)?,
            Verdict::Refused(n) => writeln!(out, "REFUSED {}", n)?,
        }
    }
    Ok(())
}

// ---- Generated lines

struct Random(u64);

impl Random {
    fn next(&mut self) -> u64 {
        self.0 ^= self.0 << 13;
        self.0 ^= self.0 >> 7;
        self.0 ^= self.0 << 17;
        self.0
    }

    fn below(&mut self, n: u64) -> u64 {
        (self.next() >> 11) % n
    }
}

fn line_of(presence: u8, count: usize, bits: &[bool]) -> Vec<u8> {
    let mut text = format!("{:02X}{:04X}", presence, count);
    for byte in bits.chunks(8) {
        text.push_str(&format!("{:02X}", number(byte)));
    }
    text.into_bytes()
}

fn bits_of(value: u64, n: usize) -> Vec<bool> {
    (0..n).map(|i| value >> i & 1 == 1).collect()
}

fn some_code(r: &mut Random) -> u64 {
    let family = [0x28u64, 0x10, 0x3B, 0x22, r.below(256)][r.below(5) as usize];
    let low = family | (r.next() & 0x0000_FFFF_FFFF_FFFF) << 8;
    let crc = crc8(&low.to_le_bytes()[..7]) as u64;
    let code = (low & 0x00FF_FFFF_FFFF_FFFF) | crc << 56;
    if r.below(8) == 0 { code ^ 1 << r.below(64) } else { code }
}

fn search_line(r: &mut Random) -> Vec<u8> {
    let command = if r.below(2) == 0 { 0xF0 } else { 0xEC };
    let code = some_code(r);
    let mut bits = bits_of(command, 8);
    for bit in bits_of(code, 64) {
        let conflict = r.below(5) == 0;
        bits.extend([bit && !conflict, !bit && !conflict, bit]);
    }
    if r.below(6) == 0 {
        let at = r.below(200) as usize;
        bits[at] = !bits[at];
    }
    line_of(1, 200, &bits)
}

fn pad_line(r: &mut Random) -> Vec<u8> {
    let code = some_code(r);
    let mut pad = [0u8; 9];
    for b in pad.iter_mut().take(8) {
        *b = r.next() as u8;
    }
    let raw = match r.below(3) {
        0 => r.below(4000) as i16 - 1500,
        1 => [-881, -880, 2000, 2001, -111, -110, 250, 251][r.below(8) as usize],
        _ => r.below(500) as i16 - 200,
    };
    pad[..2].copy_from_slice(&raw.to_le_bytes());
    match r.below(8) {
        0..=3 => pad[4] = (pad[4] & 0x60) + 0x1F,
        4..=5 => pad[4] = pad[4] & 0x6F | 0x10,
        _ => {}
    }
    match r.below(4) {
        0 => pad[7] = 0,
        1 => pad[6] = pad[7],
        2 => pad[6] = pad[7].wrapping_add(1),
        _ => {}
    }
    if r.below(10) == 0 {
        pad = [0; 9];
    }
    pad[8] = crc8(&pad[..8]);
    if r.below(8) == 0 {
        pad[r.below(9) as usize] ^= 1 << r.below(8);
    }
    let command = if r.below(12) == 0 { 0x4E } else { 0xBE };
    let mut bits = bits_of(0x55, 8);
    bits.extend(bits_of(code, 64));
    bits.extend(bits_of(command, 8));
    for b in pad {
        bits.extend(bits_of(b as u64, 8));
    }
    line_of(1, 152, &bits)
}

fn other_line(r: &mut Random) -> Vec<u8> {
    match r.below(5) {
        0 => line_of(0, 0, &[]),
        1 => line_of(1, 10, &{
            let mut b = bits_of(if r.below(2) == 0 { 0xF0 } else { 0xEC }, 8);
            b.extend(bits_of(r.below(4), 2));
            b
        }),
        2 => line_of(r.below(3) as u8, r.below(3) as usize, &[]),
        _ => {
            let n = [0, 1, 7, 8, 9, 151, 152, 153, 199, 200, 201, 511, 512, 513, r.below(600)][r.below(15) as usize] as usize;
            let bits: Vec<bool> = (0..n).map(|_| r.below(2) == 1).collect();
            line_of(1, n, &bits)
        }
    }
}

fn damage(r: &mut Random, line: &mut Vec<u8>) {
    match r.below(9) {
        0 => line.push(b"0F\r \0\xFFz"[r.below(7) as usize]),
        1 => {
            line.pop();
        }
        2 if !line.is_empty() => {
            let at = r.below(line.len() as u64) as usize;
            line[at] = line[at].to_ascii_lowercase();
        }
        3 if !line.is_empty() => {
            let at = r.below(line.len() as u64) as usize;
            line[at] = (r.next() as u8).max(b'\n' + 1);
        }
        4 => {
            let n = r.below(300);
            line.extend((0..n).map(|_| b'0'));
        }
        5 => line.clear(),
        6 => line.truncate(r.below(8) as usize),
        _ => {
            let n = line.len();
            if n > 0 {
                line[n - 1] = b"0123456789ABCDEF"[r.below(16) as usize];
            }
        }
    }
}

fn lines(seed: u64, n: u64, out: &mut impl Write) -> io::Result<()> {
    let mut r = Random(seed | 1);
    for i in 0..n {
        let mut line = match r.below(4) {
            0 => other_line(&mut r),
            1 => pad_line(&mut r),
            _ => search_line(&mut r),
        };
        if r.below(3) == 0 {
            damage(&mut r, &mut line);
        }
        out.write_all(&line)?;
        if i + 1 < n || seed % 2 == 0 {
            out.write_all(b"\n")?;
        }
    }
    Ok(())
}

fn main() -> io::Result<()> {
    let args: Vec<String> = std::env::args().skip(1).collect();
    let words: Vec<&str> = args.iter().map(|s| s.as_str()).collect();
    let mut out = BufWriter::new(io::stdout().lock());
    match words[..] {
        ["tables"] => tables(&mut out)?,
        ["name"] => {
            let mut input = Vec::new();
            io::stdin().lock().read_to_end(&mut input)?;
            name_all(&input, &mut out)?;
        }
        ["lines", seed, n] => lines(seed.parse().unwrap_or(1), n.parse().unwrap_or(0), &mut out)?,
        _ => {
            eprintln!("usage: second tables | name | lines SEED N");
            std::process::exit(2);
        }
    }
    out.flush()
}
