//! Random scripts of calls. The generator sees the model's bench, so that it can aim: at devices that
//! are there, at those that are busy, at counts near their limits.

use crate::bench::Bench;
use crate::console::Desk;
use crate::code::{bit_of, code_of};
use crate::device::{Device, Work};
use crate::random::Random;

/// One line of a script, without its feed.
pub type Line = Vec<u8>;

pub struct Generator {
    random: Random,
    /// The codes that this script speaks of.
    codes: Vec<u64>,
    /// Among how many devices one is line-powered.
    line_powered_in: usize,
    /// Address pins are mostly below this: with few numbers probes share them, with all many do not.
    pin_numbers: usize,
    /// The devices that are added at the start, and the codes whose settings are.
    first: usize,
    first_settings: usize,
}

const SETTINGS: [u8; 10] = [0x00, 0x01, 0x10, 0x19, 0x1F, 0x60, 0x7F, 0x80, 0xF0, 0xFF];
const COUNTS: [i32; 16] = [-32768, -881, -880, -401, -16, -9, -8, -1, 0, 1, 7, 8, 400, 2000, 2001, 32767];

impl Generator {
    pub fn new(seed: u64) -> Generator {
        let mut random = Random::new(seed);
        let size = random.of(&[1, 2, 2, 3, 3, 4, 6, 10, 34, 36]);
        let codes = some_codes(&mut random, size);
        let line_powered_in = random.of(&[1, 2, 4, 1000]);
        let pin_numbers = random.of(&[2, 5, 16]);
        let first = if random.once_in(6) { 0 } else { size };
        let first_settings = if random.once_in(2) { 0 } else { size };
        Generator { random, codes, line_powered_in, pin_numbers, first, first_settings }
    }

    /// The calls of the next move.
    pub fn calls(&mut self, desk: &Desk) -> Vec<Line> {
        let bench = &desk.bench;
        if self.first > 0 {
            self.first -= 1;
            return vec![self.adding(self.codes[self.first])];
        }
        if self.first_settings > 0 {
            self.first_settings -= 1;
            return vec![self.settings_of(self.codes[self.first_settings])];
        }
        if bench.is_held() && self.random.once_in(3) {
            return vec![self.finish(bench)];
        }
        match self.random.below(31) {
            0 => vec![self.add()],
            1 => vec![self.cycle()],
            2..=4 => vec![self.finish(bench)],
            5 => vec![self.search("search")],
            6 => vec![self.search("alarm")],
            7..=8 => vec![self.read()],
            9..=11 => vec![self.write(bench)],
            12 => vec![self.malformed(desk)],
            13..=14 => vec![self.show()],
            15 => self.loose_slots(),
            16..=17 => vec![self.why()],
            18 => self.pins_and_slots(),
            19..=22 => vec![self.settings_call(desk)],
            _ => self.command(desk),
        }
    }

    /// The calls at the end of a script: everything that can be seen of the bench.
    pub fn last_look(&self) -> Vec<Line> {
        let mut lines = Vec::new();
        for code in &self.codes {
            lines.push(format!("show {code:016X}").into_bytes());
            lines.push(format!("read {code:016X}").into_bytes());
            lines.push(format!("why {code:016X}").into_bytes());
            lines.push(format!("settings read {code:016X}").into_bytes());
        }
        lines.extend([b"alarm".to_vec(), b"search".to_vec(), b"pins".to_vec()]);
        lines
    }

    /// A code of the script, mostly one that stands on the bench.
    fn code(&mut self) -> u64 {
        match self.random.below(40) {
            0 => 0,
            1 => self.random.next(),
            2 => self.random.of(&self.codes) ^ 1 << self.random.below(64),
            3 => code_of(0x22, self.random.next()),
            _ => self.random.of(&self.codes),
        }
    }

    fn setting(&mut self) -> u8 {
        if self.random.once_in(3) { self.random.next() as u8 } else { self.random.of(&SETTINGS) }
    }

    fn settings(&mut self) -> String {
        format!("{:02X} {:02X} {:02X}", self.setting(), self.setting(), self.setting())
    }

    fn add(&mut self) -> Line {
        let code = self.code();
        self.adding(code)
    }

    fn adding(&mut self, code: u64) -> Line {
        let power = if self.random.once_in(self.line_powered_in) { "line" } else { "external" };
        let few = self.random.below(self.pin_numbers);
        let pins = match self.random.below(8) {
            0..=1 => String::new(),
            2 => self.random.of(&[" 15", " 16", " 255", " 256", " 007", " 0015", " F", " "]).to_string(),
            _ => format!(" {few}"),
        };
        format!("add {code:016X} {power} {}{pins}", self.settings()).into_bytes()
    }

    fn settings_of(&mut self, code: u64) -> Line {
        format!("settings add {code:016X} {}", self.settings()).into_bytes()
    }

    /// A call on the settings store; a change mostly names the version that stands there, or the one before it.
    fn settings_call(&mut self, desk: &Desk) -> Line {
        let code = self.code();
        match self.random.below(12) {
            0..=1 => self.settings_of(code),
            2 => format!("settings remove {code:016X}").into_bytes(),
            3..=4 => format!("settings read {code:016X}").into_bytes(),
            5..=6 => format!("settings write {code:016X}").into_bytes(),
            _ => {
                let version = desk.store.kept.iter().find(|kept| kept.code == code).map_or(0, |kept| kept.version);
                let named = match self.random.below(8) {
                    0 => version.wrapping_sub(1),
                    1 => self.random.of(&[0, 1, 255, 65535]),
                    _ => version,
                };
                let asked: Vec<String> = (0..3).map(|_| self.alteration()).collect();
                format!("settings change {code:016X} {named} {}", asked.join(" ")).into_bytes()
            }
        }
    }

    fn alteration(&mut self) -> String {
        if self.random.once_in(2) { "-".to_string() } else { format!("{:02X}", self.setting()) }
    }

    fn cycle(&mut self) -> Line {
        format!("cycle {:016X}", self.code()).into_bytes()
    }

    fn show(&mut self) -> Line {
        format!("show {:016X}", self.code()).into_bytes()
    }

    fn why(&mut self) -> Line {
        format!("why {:016X}", self.code()).into_bytes()
    }

    fn read(&mut self) -> Line {
        format!("read {:016X}", self.code()).into_bytes()
    }

    /// A write, at times of the bytes that the device holds.
    fn write(&mut self, bench: &Bench) -> Line {
        let code = self.code();
        let settings = match bench.look(code) {
            Ok(d) if self.random.once_in(3) => format!("{:02X} {:02X} {:02X}", d.pad[2], d.pad[3], d.pad[4]),
            _ => self.settings(),
        };
        format!("write {code:016X} {settings}").into_bytes()
    }

    fn search(&mut self, word: &str) -> Line {
        let places = self.random.of(&["32", "032", "00032", "31", "0", "33"]);
        let bytes = self.random.of(&["1824", "01824", "1823", "0", "1825"]);
        match self.random.below(6) {
            0 => format!("{word} {places} {bytes}").into_bytes(),
            1 => format!("{word} 32 1824").into_bytes(),
            _ => word.as_bytes().to_vec(),
        }
    }

    fn pins(&mut self) -> Line {
        let places = self.random.of(&["31", "32", "0", "032", "00032", "33"]);
        if self.random.once_in(3) { format!("pins {places}").into_bytes() } else { b"pins".to_vec() }
    }

    /// The pins, at times with a function command right behind them: it shows where they leave the bench.
    fn pins_and_slots(&mut self) -> Vec<Line> {
        let mut lines = vec![self.pins()];
        if self.random.once_in(3) {
            lines.extend(self.function_command().into_iter().map(slot));
        }
        lines
    }

    /// The end of what a device is busy with, mostly of the right kind and with a count in range.
    fn finish(&mut self, bench: &Bench) -> Line {
        let busy: Vec<&Device> = bench.devices.iter().filter(|d| d.is_busy()).collect();
        if busy.is_empty() || self.random.once_in(6) {
            let code = self.code();
            let count = self.count(bench.look(code).ok());
            return if self.random.once_in(2) { copied(code) } else { converted(code, count) };
        }
        let device = self.random.of(&busy);
        let copying = device.work != Work::Converting;
        if copying != self.random.once_in(8) {
            copied(device.code)
        } else {
            converted(device.code, self.count(Some(device)))
        }
    }

    fn count(&mut self, device: Option<&Device>) -> i32 {
        match (self.random.below(8), device) {
            (0, _) => self.random.of(&COUNTS),
            (1..=3, Some(d)) => {
                let limit = self.random.of(&[d.pad[2], d.pad[3]]) as i8;
                limit as i32 * 16 + self.random.of(&[-17, -16, -8, -1, 0, 1, 8, 15, 16])
            }
            _ => self.random.below(2881) as i32 - 880,
        }
    }

    fn loose_slots(&mut self) -> Vec<Line> {
        let count = 1 + self.random.below(12);
        (0..count).map(|_| slot(!self.random.once_in(3))).collect()
    }

    /// A line that is no call, or only just one: a call with one character changed, put in or left out.
    fn malformed(&mut self, desk: &Desk) -> Line {
        let mut line = match self.random.below(12) {
            0 => self.add(),
            1 => self.show(),
            2 => self.finish(&desk.bench),
            3 => self.write(&desk.bench),
            4 => self.search("alarm"),
            5 => b"reset".to_vec(),
            6 => slot(true),
            7 => self.why(),
            8 => self.pins(),
            9..=10 => self.settings_call(desk),
            _ => vec![b'x'; self.random.below(200)],
        };
        let place = self.random.below(line.len() + 1);
        let character = self.random.of(b"  -0019AFaxg\r\t\0\xFF");
        match self.random.below(4) {
            0 => line.insert(place, character),
            1 => line.push(character),
            2 if place < line.len() => line[place] = character,
            _ => line.truncate(place),
        }
        line
    }

    /// A reset, a ROM command and a function command as bits, whole or cut, with a wrong bit or not,
    /// and with other calls between the slots.
    fn command(&mut self, desk: &Desk) -> Vec<Line> {
        let mut bits = self.rom_command();
        bits.extend(self.function_command());
        if self.random.once_in(6) {
            bits.extend(self.function_command());
        }
        if self.random.once_in(8) {
            let place = self.random.below(bits.len());
            bits[place] = !bits[place];
        }
        if self.random.once_in(5) {
            bits.truncate(self.random.below(bits.len()));
        }
        let mut lines: Vec<Line> = bits.iter().map(|&bit| slot(bit)).collect();
        if self.random.once_in(2) {
            self.interrupt(desk, &mut lines);
        }
        if !self.random.once_in(12) {
            lines.insert(0, b"reset".to_vec());
        }
        lines
    }

    fn rom_command(&mut self) -> Vec<bool> {
        let code = self.code();
        let ones = [true; 64];
        match self.random.below(16) {
            0..=6 => byte(0xCC),
            7..=10 => [byte(0x55), bits_of(code)].concat(),
            11 => [byte(0x33), ones.to_vec()].concat(),
            12 => [byte(0xF0), triples(code)].concat(),
            13..=14 => [byte(0xEC), triples(code)].concat(),
            _ => byte(self.random.next() as u8),
        }
    }

    /// A function command and slots to read: none, as many as it sends, some, or some too many.
    fn function_command(&mut self) -> Vec<bool> {
        let (command, sends) = match self.random.below(16) {
            0..=4 => (0x44, 4),
            5..=6 => (0x48, 4),
            7..=8 => return self.limits(),
            9..=12 => (0xBE, 72),
            13 => (0xB8, 8),
            14 => (0xB4, 8),
            _ => (self.random.next() as u8, 8),
        };
        let some = self.random.below(sends);
        let slots = self.random.of(&[0, some, some, sends, sends, sends + 4]);
        let mut bits = byte(command);
        bits.extend((0..slots).map(|_| !self.random.once_in(40)));
        bits
    }

    /// 4Eh and up to four bytes.
    fn limits(&mut self) -> Vec<bool> {
        let mut bits = byte(0x4E);
        for _ in 0..self.random.of(&[0, 1, 2, 2, 3, 3, 3, 4]) {
            bits.extend(byte(self.setting()));
        }
        bits
    }

    /// Puts calls that send nothing between the slots, near the ends of bytes more often than elsewhere.
    fn interrupt(&mut self, desk: &Desk, lines: &mut Vec<Line>) {
        for _ in 0..1 + self.random.below(3) {
            let anywhere = self.random.below(lines.len() + 1);
            let near = anywhere / 8 * 8 + self.random.of(&[0, 7, 8]);
            let place = self.random.of(&[anywhere, near]).min(lines.len());
            let line = match self.random.below(12) {
                0 => self.add(),
                1 => self.cycle(),
                2 => self.show(),
                3 => self.malformed(desk),
                4 => b"pins 31".to_vec(),
                _ => self.finish(&desk.bench),
            };
            lines.insert(place, line);
        }
    }
}

/// Sound codes of all families: serial numbers that share most of their bits, small ones, any.
fn some_codes(random: &mut Random, size: usize) -> Vec<u64> {
    let base = random.next();
    let mut codes = Vec::new();
    while codes.len() < size {
        let family = random.of(&[0x10, 0x28, 0x3B]);
        let serial = match random.below(5) {
            0 => base ^ 1 << 47,
            1 => base ^ 1 << random.below(48) ^ 1 << random.below(48),
            2 => base ^ 1 << random.below(48),
            3 => random.below(64) as u64,
            _ => random.next(),
        };
        let code = code_of(family, serial);
        if !codes.contains(&code) {
            codes.push(code);
        }
    }
    codes
}

fn slot(bit: bool) -> Line {
    if bit { b"slot 1".to_vec() } else { b"slot 0".to_vec() }
}

fn converted(code: u64, count: i32) -> Line {
    format!("converted {code:016X} {count}").into_bytes()
}

fn copied(code: u64) -> Line {
    format!("copied {code:016X}").into_bytes()
}

fn byte(value: u8) -> Vec<bool> {
    (0..8).map(|place| value >> place & 1 == 1).collect()
}

fn bits_of(code: u64) -> Vec<bool> {
    (0..64).map(|place| bit_of(code, place)).collect()
}

/// The master's bits of a search that goes for one code.
fn triples(code: u64) -> Vec<bool> {
    bits_of(code).into_iter().flat_map(|bit| [true, true, bit]).collect()
}
