//! The master: search, alarm search, reading and writing at a code, address pins.

use crate::bench::{Answer, Bench};
use crate::code::{crc, family_of, Family};
use crate::device::stored;

pub const PLACES: usize = 32;
pub const BYTES: usize = 1824;
pub const SEARCH: u8 = 0xF0;
pub const ALARM: u8 = 0xEC;

#[derive(Default)]
pub struct Found {
    pub codes: Vec<u64>,
    pub passes: usize,
    pub slots: usize,
    pub recording: String,
}

/// What one pass gave: the line's bits, the bits of the code if somebody answered to the end, and the
/// last conflict at which 0 was taken.
#[derive(Default)]
struct Pass {
    frame: Vec<bool>,
    code: Vec<bool>,
    last_zero: Option<usize>,
}

fn number(bits: &[bool]) -> u64 {
    bits.iter().rev().fold(0, |n, &bit| n * 2 + bit as u64)
}

/// A search with F0h or ECh, over a list and a recording of these lengths.
pub fn search(bench: &mut Bench, command: u8, places: usize, bytes: usize) -> Answer<Found> {
    if places < PLACES || bytes < BYTES {
        return Err(1);
    }
    let mut found = Found::default();
    // The choices that the next pass repeats; the last of them departs from the pass before.
    let mut path = Vec::new();
    loop {
        if !bench.reset()? {
            found.recording.push_str("000000\n");
            return Ok(found);
        }
        let pass = search_pass(bench, command, &path)?;
        found.passes += 1;
        found.slots += pass.frame.len();
        found.recording.push_str(&line_of(&pass.frame));
        if pass.code.len() == 64 {
            found.codes.push(number(&pass.code));
        }
        let Some(place) = pass.last_zero else { return Ok(found) };
        path = pass.code[..place].to_vec();
        path.push(true);
    }
}

fn search_pass(bench: &mut Bench, command: u8, path: &[bool]) -> Answer<Pass> {
    let mut pass = Pass::default();
    for place in 0..8 {
        pass.frame.push(bench.slot(command >> place & 1 == 1)?);
    }
    for place in 0..64 {
        let bit = bench.slot(true)?;
        let complement = bench.slot(true)?;
        pass.frame.extend([bit, complement]);
        let choice = match (bit, complement) {
            (true, true) => break,
            (false, false) => path.get(place).copied().unwrap_or(false),
            _ => bit,
        };
        if !bit && !complement && !choice {
            pass.last_zero = Some(place);
        }
        pass.frame.push(bench.slot(choice)?);
        pass.code.push(choice);
    }
    Ok(pass)
}

/// The line of a frame with presence.
fn line_of(frame: &[bool]) -> String {
    let mut line = format!("01{:04X}", frame.len());
    for byte in frame.chunks(8) {
        line.push_str(&format!("{:02X}", number(byte)));
    }
    line.push('\n');
    line
}

fn send(bench: &mut Bench, byte: u8) -> Answer<()> {
    for place in 0..8 {
        bench.slot(byte >> place & 1 == 1)?;
    }
    Ok(())
}

/// Reset, 55h and the code.
fn select(bench: &mut Bench, code: u64) -> Answer<()> {
    if !bench.reset()? {
        return Err(4);
    }
    send(bench, 0x55)?;
    for byte in code.to_le_bytes() {
        send(bench, byte)?;
    }
    Ok(())
}

pub fn read(bench: &mut Bench, code: u64) -> Answer<[u8; 9]> {
    let family = family_of(code)?;
    select(bench, code)?;
    send(bench, 0xBE)?;
    let mut pad = [0; 9];
    for byte in &mut pad {
        for place in 0..8 {
            *byte |= (bench.slot(true)? as u8) << place;
        }
    }
    judge(family, &pad)?;
    Ok(pad)
}

/// The refusals of nine bytes: 5, 6, 7, 11, 20.
fn judge(family: Family, pad: &[u8; 9]) -> Answer<()> {
    let count = i16::from_le_bytes([pad[0], pad[1]]);
    let (range, kind_right) = match family {
        Family::S => (-110..=250, true),
        Family::B => (-880..=2000, pad[4] == stored(pad[4], 15)),
        Family::Pinned => (-880..=2000, pad[4] & 0x90 == 0x10),
    };
    if crc(&pad[..8]) != pad[8] {
        Err(5)
    } else if pad == &[0; 9] {
        Err(6)
    } else if !kind_right {
        Err(7)
    } else if !range.contains(&count) {
        Err(11)
    } else if family == Family::S && (pad[7] == 0 || pad[6] > pad[7]) {
        Err(20)
    } else {
        Ok(())
    }
}

/// A code with address pins, and the pin number that its scratchpad shows.
pub struct Pin {
    pub code: u64,
    pub number: u8,
}

/// A search over a list of this length, then a read at each code of a DS1825.
pub fn pins(bench: &mut Bench, places: usize) -> Answer<Vec<Pin>> {
    // Nothing is recorded, so that bytes are never short.
    let found = search(bench, SEARCH, places, BYTES)?;
    let mut pins = Vec::new();
    for code in found.codes {
        if family_of(code) != Ok(Family::Pinned) {
            continue;
        }
        // A refused reply shows no pins.
        if let Ok(pad) = read(bench, code) {
            pins.push(Pin { code, number: pad[4] & 15 });
        }
    }
    Ok(pins)
}

/// The lowest pin number that two of these have.
pub fn shared(pins: &[Pin]) -> Option<u8> {
    (0..16).find(|&number| pins.iter().filter(|pin| pin.number == number).count() >= 2)
}

pub fn write(bench: &mut Bench, code: u64, asked: [u8; 3]) -> Answer<[u8; 9]> {
    let family = family_of(code)?;
    let settings = if family == Family::S { 2 } else { 3 };
    select(bench, code)?;
    send(bench, 0x4E)?;
    for &byte in &asked[..settings] {
        send(bench, byte)?;
    }
    let pad = read(bench, code)?;
    let configuration_right = match family {
        Family::S => true,
        Family::B => pad[4] == stored(asked[2], 15),
        // The pins are the device's own affair.
        Family::Pinned => pad[4] >> 4 == stored(asked[2], 0) >> 4,
    };
    if pad[2..4] == asked[..2] && configuration_right { Ok(pad) } else { Err(13) }
}
