// The same work in plain Rust: reads a recording from standard input and prints one line for each of its
// lines. Written as one would without proofs, with the standard library's buffered reader and writer.
use std::io::{self, BufRead, BufReader, BufWriter, Write};

#[path = "../plain/table.rs"]
mod table;
use table::crc_of;

const LONGEST: usize = 134;

struct Frame {
    presence: bool,
    count: usize,
    bytes: [u8; 64],
}

enum Named {
    Empty,
    Search(u64),
    Alarm(u64),
    Nobody,
    Pad(u64, u16),
    Other,
}

fn value(c: u8) -> Option<u8> {
    match c {
        b'0'..=b'9' => Some(c - b'0'),
        b'A'..=b'F' => Some(c - b'A' + 10),
        _ => None,
    }
}

fn read(line: &[u8], fed: bool) -> Result<Frame, u8> {
    if line.len() > LONGEST {
        return Err(3);
    }
    if !fed {
        return Err(2);
    }
    let mut digits = [0u8; LONGEST];
    for (to, &c) in digits.iter_mut().zip(line) {
        *to = value(c).ok_or(2)?;
    }
    if line.len() < 6 {
        return Err(3);
    }
    let byte = |k: usize| 16 * digits[2 * k] + digits[2 * k + 1];
    let presence = byte(0);
    let count = 256 * byte(1) as usize + byte(2) as usize;
    let taken = (count + 7) / 8;
    if presence > 1 || count > 512 || line.len() != 6 + 2 * taken || (presence == 0 && count != 0) {
        return Err(3);
    }
    let mut bytes = [0u8; 64];
    for k in 0..taken {
        bytes[k] = byte(3 + k);
    }
    if count % 8 != 0 && bytes[taken - 1] >> (count % 8) != 0 {
        return Err(3);
    }
    Ok(Frame { presence: presence == 1, count, bytes })
}

fn known(family: u8) -> bool {
    family == 0x10 || family == 0x28 || family == 0x3B
}

fn pass_code(f: &Frame) -> Result<u64, u8> {
    let bit = |i: usize| (f.bytes[i / 8] >> (i % 8)) & 1;
    let mut code = 0u64;
    for i in 0..64 {
        let at = 8 + 3 * i;
        match (bit(at), bit(at + 1), bit(at + 2)) {
            (0, 0, taken) => code |= (taken as u64) << i,
            (0, 1, 0) => {}
            (1, 0, 1) => code |= 1 << i,
            _ => return Err(14),
        }
    }
    let bytes = code.to_le_bytes();
    if crc_of(&bytes[..7]) != bytes[7] {
        return Err(5);
    }
    if !known(bytes[0]) {
        return Err(7);
    }
    Ok(code)
}

fn pad_reading(f: &Frame) -> Result<(u64, u16), u8> {
    let code_bytes = &f.bytes[1..9];
    let pad = &f.bytes[10..19];
    if crc_of(&code_bytes[..7]) != code_bytes[7] || crc_of(&pad[..8]) != pad[8] {
        return Err(5);
    }
    if pad.iter().all(|&b| b == 0) {
        return Err(6);
    }
    let family = code_bytes[0];
    // A DS1825 has its pins in the low four bits.
    let form = if family == 0x3B { 0x90 } else { 0x9F };
    if !known(family) || (family != 0x10 && pad[4] & form != 0x1F & form) {
        return Err(7);
    }
    let raw = u16::from_le_bytes([pad[0], pad[1]]);
    let (low, high) = if family != 0x10 { (-880, 2000) } else { (-110, 250) };
    let undefined = if family != 0x10 { 7 >> (pad[4] >> 5 & 3) } else { 0 };
    let reading = raw as i16 & !undefined;
    if reading < low || reading > high {
        return Err(11);
    }
    if family == 0x10 && (pad[7] == 0 || pad[6] > pad[7]) {
        return Err(20);
    }
    Ok((u64::from_le_bytes(code_bytes.try_into().unwrap()), raw))
}

fn name(f: &Frame) -> Result<Named, u8> {
    if !f.presence {
        return Ok(Named::Empty);
    }
    let command = f.bytes[0];
    let searches = command == 0xF0 || command == 0xEC;
    if f.count == 200 && command == 0xF0 {
        return pass_code(f).map(Named::Search);
    }
    if f.count == 200 && command == 0xEC {
        return pass_code(f).map(Named::Alarm);
    }
    if f.count == 10 && searches && f.bytes[1] & 3 == 3 {
        return Ok(Named::Nobody);
    }
    if f.count == 152 && command == 0x55 && f.bytes[9] == 0xBE {
        return pad_reading(f).map(|(code, raw)| Named::Pad(code, raw));
    }
    Ok(Named::Other)
}

fn print(out: &mut impl Write, line: &[u8], fed: bool) -> io::Result<()> {
    match read(line, fed).and_then(|f| name(&f)) {
        Ok(Named::Empty) => out.write_all(b"EMPTY\n"),
        Ok(Named::Search(code)) => writeln!(out, "SEARCH {:016X}", code),
        Ok(Named::Alarm(code)) => writeln!(out, "ALARM {:016X}", code),
        Ok(Named::Nobody) => out.write_all(b"NOBODY\n"),
        Ok(Named::Pad(code, raw)) => writeln!(out, "PAD {:016X} {:04X}", code, raw),
        Ok(Named::Other) => out.write_all(b"OTHER\n"),
        Err(number) => writeln!(out, "REFUSED {}", number),
    }
}

fn main() -> io::Result<()> {
    let mut input = BufReader::with_capacity(65536, io::stdin().lock());
    let mut out = BufWriter::with_capacity(65536, io::stdout().lock());
    let mut line = Vec::new();
    loop {
        line.clear();
        if input.read_until(b'\n', &mut line)? == 0 {
            return out.flush();
        }
        let fed = line.last() == Some(&b'\n');
        if fed {
            line.pop();
        }
        print(&mut out, &line, fed)?;
    }
}
