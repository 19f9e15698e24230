// The work of `measure_search`: an ordinary Rust model of the bench, changed in place, and a search on it.
// It has what resets and slots need: every command of the three families, the refusal while a line-powered
// device is busy, and what a busy device obeys. Nothing ends a conversion or a copy, and so no device has
// a page.
use std::io::Read;

mod table;
use table::crc_of;

const SEARCHES: u32 = 100;
const SLOTS: u32 = 500_000;
const ROUND: u32 = 152;

#[derive(Clone, Copy, PartialEq)]
enum Power {
    Line,
    External,
}

#[derive(Clone, Copy, Default)]
struct Settings {
    high: u8,
    low: u8,
    configuration: u8,
}

#[derive(Clone, Copy)]
enum Activity {
    Idle,
    Converting,
    #[allow(dead_code)]
    Copying(Settings),
}

#[derive(Clone, Copy)]
enum Phase {
    SendBit,
    SendComplement,
    TakeBit,
}

#[derive(Clone, Copy)]
enum Stage {
    AwaitRom { shift: u8, count: u8 },
    SendRom(u8),
    Match(u8),
    Search { bit: u8, phase: Phase },
    AwaitFunction { shift: u8, count: u8 },
    TakeSettings { place: u8, shift: u8, count: u8 },
    SendScratchpad { byte: u8, bit: u8 },
    SendStatus,
    SendPower,
    Quiet,
}

struct Device {
    code: u64,
    power: Power,
    stage: Stage,
    activity: Activity,
    scratchpad: [u8; 8],
    eeprom: Settings,
    alarm: bool,
    pins: u8,
}

const LISTEN: Stage = Stage::AwaitFunction { shift: 0, count: 0 };

fn shift_in(shift: u8, line: bool) -> u8 {
    shift >> 1 | (line as u8) << 7
}

impl Device {
    fn new(code: u64, power: Power, eeprom: Settings) -> Device {
        let mut d = Device {
            code,
            power,
            stage: Stage::Quiet,
            activity: Activity::Idle,
            scratchpad: match code as u8 {
                0x10 => [0xAA, 0x00, 0, 0, 0xFF, 0xFF, 0x0C, 0x10],
                _ => [0x50, 0x05, 0, 0, 0x7F, 0xFF, 0x0C, 0x10],
            },
            eeprom,
            alarm: false,
            pins: 0,
        };
        d.recall();
        d
    }

    fn configurable(&self) -> bool {
        matches!(self.code as u8, 0x28 | 0x3B)
    }

    fn kept(&self, configuration: u8) -> u8 {
        let low = if self.code as u8 == 0x28 { 0x0F } else { self.pins };
        configuration & 0x60 | 0x10 | low
    }

    fn recall(&mut self) {
        self.scratchpad[2] = self.eeprom.high;
        self.scratchpad[3] = self.eeprom.low;
        if self.configurable() {
            self.scratchpad[4] = self.kept(self.eeprom.configuration);
        }
    }

    fn bit(&self, place: u8) -> bool {
        self.code >> place & 1 == 1
    }

    fn is_busy(&self) -> bool {
        !matches!(self.activity, Activity::Idle)
    }

    fn offer(&self) -> bool {
        match self.stage {
            Stage::SendRom(i) => self.bit(i),
            Stage::Search { bit, phase } => match phase {
                Phase::SendBit => self.bit(bit),
                Phase::SendComplement => !self.bit(bit),
                Phase::TakeBit => true,
            },
            Stage::SendScratchpad { byte: 8, bit } => crc_of(&self.scratchpad) >> bit & 1 == 1,
            Stage::SendScratchpad { byte, bit } => self.scratchpad[byte as usize] >> bit & 1 == 1,
            Stage::SendStatus => !self.is_busy(),
            Stage::SendPower => self.power == Power::External,
            _ => true,
        }
    }

    fn hear(&mut self, line: bool) {
        self.stage = match self.stage {
            Stage::AwaitRom { shift, count } => {
                let shift = shift_in(shift, line);
                if count < 7 {
                    Stage::AwaitRom { shift, count: count + 1 }
                } else {
                    self.rom_command(shift)
                }
            }
            Stage::SendRom(63) => LISTEN,
            Stage::SendRom(i) => Stage::SendRom(i + 1),
            Stage::Match(i) if self.bit(i) != line => Stage::Quiet,
            Stage::Match(63) => LISTEN,
            Stage::Match(i) => Stage::Match(i + 1),
            Stage::Search { bit, phase } => match phase {
                Phase::SendBit => Stage::Search { bit, phase: Phase::SendComplement },
                Phase::SendComplement => Stage::Search { bit, phase: Phase::TakeBit },
                Phase::TakeBit if self.bit(bit) != line => Stage::Quiet,
                Phase::TakeBit if bit == 63 => LISTEN,
                Phase::TakeBit => Stage::Search { bit: bit + 1, phase: Phase::SendBit },
            },
            Stage::AwaitFunction { shift, count } => {
                let shift = shift_in(shift, line);
                if count < 7 {
                    Stage::AwaitFunction { shift, count: count + 1 }
                } else {
                    self.function_command(shift)
                }
            }
            Stage::TakeSettings { place, shift, count } => {
                let shift = shift_in(shift, line);
                if count < 7 {
                    Stage::TakeSettings { place, shift, count: count + 1 }
                } else {
                    self.store_setting(place, shift)
                }
            }
            Stage::SendScratchpad { byte: 8, bit: 7 } => Stage::Quiet,
            Stage::SendScratchpad { byte, bit: 7 } => Stage::SendScratchpad { byte: byte + 1, bit: 0 },
            Stage::SendScratchpad { byte, bit } => Stage::SendScratchpad { byte, bit: bit + 1 },
            same => same,
        }
    }

    fn rom_command(&self, command: u8) -> Stage {
        let searching = Stage::Search { bit: 0, phase: Phase::SendBit };
        match command {
            0x33 => Stage::SendRom(0),
            0x55 => Stage::Match(0),
            0xCC => LISTEN,
            0xF0 => searching,
            0xEC if self.alarm => searching,
            _ => Stage::Quiet,
        }
    }

    fn function_command(&mut self, command: u8) -> Stage {
        match command {
            0xBE => Stage::SendScratchpad { byte: 0, bit: 0 },
            0xB4 => Stage::SendPower,
            _ if self.is_busy() => Stage::Quiet,
            0x44 => {
                self.activity = Activity::Converting;
                Stage::SendStatus
            }
            0x4E => Stage::TakeSettings { place: 0, shift: 0, count: 0 },
            0x48 => {
                self.activity = Activity::Copying(Settings {
                    high: self.scratchpad[2],
                    low: self.scratchpad[3],
                    configuration: if self.configurable() { self.scratchpad[4] } else { 0 },
                });
                Stage::SendStatus
            }
            0xB8 => {
                self.recall();
                Stage::Quiet
            }
            _ => Stage::Quiet,
        }
    }

    fn store_setting(&mut self, place: u8, byte: u8) -> Stage {
        let last = if self.configurable() { 2 } else { 1 };
        self.scratchpad[2 + place as usize] = if place == 2 { self.kept(byte) } else { byte };
        if place < last {
            Stage::TakeSettings { place: place + 1, shift: 0, count: 0 }
        } else {
            Stage::Quiet
        }
    }
}

struct Bench {
    devices: Vec<Device>,
}

impl Bench {
    fn is_free(&self) -> bool {
        !self.devices.iter().any(|d| d.power == Power::Line && d.is_busy())
    }

    // Presence, or nothing where a line-powered device is busy.
    fn reset(&mut self) -> Option<bool> {
        if !self.is_free() {
            return None;
        }
        for d in &mut self.devices {
            d.stage = Stage::AwaitRom { shift: 0, count: 0 };
        }
        Some(!self.devices.is_empty())
    }

    fn slot(&mut self, bit: bool) -> Option<bool> {
        if !self.is_free() {
            return None;
        }
        let line = self.devices.iter().fold(bit, |line, d| line & d.offer());
        for d in &mut self.devices {
            d.hear(line);
        }
        Some(line)
    }
}

#[derive(Default)]
struct Found {
    codes: Vec<u64>,
    passes: u64,
    slots: u64,
    recording: Vec<u8>,
}

// The frame of one pass, as the recording has it.
struct Frame {
    count: u16,
    bits: [u8; 64],
}

impl Frame {
    fn push(&mut self, bit: bool) {
        self.bits[self.count as usize / 8] |= (bit as u8) << (self.count % 8);
        self.count += 1;
    }

    fn write(&self, out: &mut Vec<u8>) {
        const DIGITS: &[u8; 16] = b"0123456789ABCDEF";
        let used = (self.count as usize).div_ceil(8);
        let head = [1, (self.count >> 8) as u8, self.count as u8];
        for byte in head.iter().chain(&self.bits[..used]) {
            out.push(DIGITS[(byte >> 4) as usize]);
            out.push(DIGITS[(byte & 15) as usize]);
        }
        out.push(b'\n');
    }
}

// One pass: the code, and the last place at which 0 was taken at a conflict.
fn pass(b: &mut Bench, f: &mut Frame, previous: u64, departure: u8) -> Option<(u64, u8)> {
    b.reset()?;
    for i in 0..8 {
        let line = b.slot(0xF0 >> i & 1 == 1)?;
        f.push(line);
    }
    let (mut code, mut last) = (0, 64);
    for place in 0..64 {
        let bit = b.slot(true)?;
        f.push(bit);
        let complement = b.slot(true)?;
        f.push(complement);
        let take = match (bit, complement) {
            (true, true) => return None,
            (true, false) => true,
            (false, true) => false,
            (false, false) if place < departure => previous >> place & 1 == 1,
            (false, false) => place == departure,
        };
        if !bit && !complement && !take {
            last = place;
        }
        let line = b.slot(take)?;
        f.push(line);
        code |= (take as u64) << place;
    }
    Some((code, last))
}

fn search(b: &mut Bench) -> Found {
    let mut found = Found::default();
    let (mut previous, mut departure) = (0, 64);
    for _ in 0..32 {
        let mut f = Frame { count: 0, bits: [0; 64] };
        let outcome = pass(b, &mut f, previous, departure);
        found.passes += 1;
        found.slots += f.count as u64;
        f.write(&mut found.recording);
        let Some((code, last)) = outcome else { break };
        found.codes.push(code);
        (previous, departure) = (code, last);
        if last == 64 {
            break;
        }
    }
    found
}

fn code_of(serial: u64) -> u64 {
    let low = serial << 8 | 0x28;
    low | (crc_of(&low.to_le_bytes()[..7]) as u64) << 56
}

fn bench_of(devices: u8) -> Bench {
    let eeprom = Settings { high: 25, low: 0, configuration: 0x7F };
    Bench { devices: (0..devices as u64).map(|n| Device::new(code_of(n), Power::External, eeprom)).collect() }
}

fn search_often(b: &mut Bench) {
    let (mut codes, mut passes, mut slots, mut bytes) = (0, 0, 0, 0);
    let mut last = Found::default();
    for _ in 0..SEARCHES {
        last = search(b);
        codes += last.codes.len();
        passes += last.passes;
        slots += last.slots;
        bytes += last.recording.len();
    }
    // as on our side, where the list and the recording are lent at their full length
    last.codes.resize(32, 0);
    last.recording.resize(1824, 0);
    println!("codes {codes}\npasses {passes}\nslots {slots}\nbytes {bytes}");
    println!("list {}", last.codes.iter().fold(0, |mixed, &c| mixed / 2 ^ c));
    println!("recording {}", crc_of(&last.recording));
}

fn bit_at(place: u32) -> bool {
    match place {
        0..8 => 0x33 >> place & 1 == 1,
        72..80 => 0xBE >> (place - 72) & 1 == 1,
        _ => true,
    }
}

fn read_often(b: &mut Bench) {
    let mut ones = 0;
    for i in 0..SLOTS {
        if i % ROUND == 0 {
            b.reset();
        }
        if b.slot(bit_at(i % ROUND)) == Some(true) {
            ones += 1;
        }
    }
    println!("ones {ones}");
}

fn main() {
    let mut asked = Vec::new();
    std::io::stdin().read_to_end(&mut asked).expect("standard input");
    let devices = *asked.get(1).unwrap_or(&32);
    let mut b = bench_of(devices);
    match asked.first() {
        None => {
            search_often(&mut b);
            read_often(&mut bench_of(devices));
        }
        Some(b's') => search_often(&mut b),
        Some(_) => read_often(&mut b),
    }
}
