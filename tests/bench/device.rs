//! One thermometer: its record, what it offers in a slot, and how it takes the line's bit.

use crate::code::{bit_of, crc, Family};

#[derive(Clone, Copy, PartialEq)]
pub enum Power {
    Line,
    External,
}

/// What a device is busy with; a copy holds the bytes that go to EEPROM when it ends.
#[derive(Clone, Copy, PartialEq)]
pub enum Work {
    Idle,
    Converting,
    Copying([u8; 3]),
}

/// The bits of a byte that have come so far, least significant first.
#[derive(Clone, Copy, Default)]
struct Partial {
    value: u8,
    bits: u8,
}

impl Partial {
    /// One more bit: the whole byte, or what there is of it.
    fn take(self, bit: bool) -> Result<u8, Partial> {
        let value = self.value | (bit as u8) << self.bits;
        if self.bits == 7 {
            Ok(value)
        } else {
            Err(Partial { value, bits: self.bits + 1 })
        }
    }
}

#[derive(Clone, Copy)]
enum Turn {
    Bit,
    Complement,
    Choice,
}

#[derive(Clone, Copy)]
enum Stage {
    Quiet,
    RomCommand(Partial),
    SendCode(usize),
    MatchCode(usize),
    Search(usize, Turn),
    FunctionCommand(Partial),
    TakeSetting(usize, Partial),
    SendPad(usize),
    SendBusy,
    SendPower,
}

pub struct Device {
    pub code: u64,
    pub family: Family,
    pub power: Power,
    /// The address pins of a DS1825.
    pins: u8,
    /// High limit, low limit and configuration; the last is 0 for S, which has none.
    pub eeprom: [u8; 3],
    pub pad: [u8; 8],
    pub flag: bool,
    pub work: Work,
    stage: Stage,
}

/// The form in which a configuration byte is stored: two bits of it, a 1, and four bits of the device's own.
pub fn stored(configuration: u8, own: u8) -> u8 {
    configuration & 0x60 | 0x10 | own
}

impl Device {
    pub fn new(code: u64, family: Family, power: Power, given: [u8; 3], pins: u8) -> Device {
        let (pad, flag, work, stage) = ([0; 8], false, Work::Idle, Stage::Quiet);
        let mut device = Device { code, family, power, pins, eeprom: [given[0], given[1], 0], pad, flag, work, stage };
        if family != Family::S {
            device.eeprom[2] = device.stored(given[2]);
        }
        device.power_up();
        device
    }

    /// B has ones where a DS1825 has its pins.
    fn stored(&self, configuration: u8) -> u8 {
        stored(configuration, if self.family == Family::Pinned { self.pins } else { 15 })
    }

    pub fn power_up(&mut self) {
        self.pad = match self.family {
            Family::S => [0xAA, 0x00, 0, 0, 0xFF, 0xFF, 0x0C, 0x10],
            Family::B | Family::Pinned => [0x50, 0x05, 0, 0, 0, 0xFF, 0x0C, 0x10],
        };
        self.recall();
        self.flag = false;
        self.work = Work::Idle;
        self.stage = Stage::Quiet;
    }

    pub fn is_busy(&self) -> bool {
        self.work != Work::Idle
    }

    /// How many settings 4Eh, 48h and B8h move: limits, and a configuration where there is one.
    fn settings(&self) -> usize {
        if self.family == Family::S { 2 } else { 3 }
    }

    fn recall(&mut self) {
        let count = self.settings();
        self.pad[2..2 + count].copy_from_slice(&self.eeprom[..count]);
    }

    pub fn reset(&mut self) {
        self.stage = Stage::RomCommand(Partial::default());
    }

    /// The bit that the device offers in a slot.
    pub fn offer(&self) -> bool {
        match self.stage {
            Stage::SendCode(place) | Stage::Search(place, Turn::Bit) => bit_of(self.code, place),
            Stage::Search(place, Turn::Complement) => !bit_of(self.code, place),
            Stage::SendPad(place) => {
                let byte = if place / 8 < 8 { self.pad[place / 8] } else { crc(&self.pad) };
                byte >> (place % 8) & 1 == 1
            }
            Stage::SendBusy => !self.is_busy(),
            Stage::SendPower => self.power == Power::External,
            _ => true,
        }
    }

    /// Takes the line's bit of a slot.
    pub fn hear(&mut self, line: bool) {
        let function = Stage::FunctionCommand(Partial::default());
        self.stage = match self.stage {
            Stage::RomCommand(partial) => match partial.take(line) {
                Ok(command) => self.rom_command(command),
                Err(more) => Stage::RomCommand(more),
            },
            Stage::SendCode(63) => function,
            Stage::SendCode(place) => Stage::SendCode(place + 1),
            Stage::Search(place, Turn::Bit) => Stage::Search(place, Turn::Complement),
            Stage::Search(place, Turn::Complement) => Stage::Search(place, Turn::Choice),
            Stage::MatchCode(place) | Stage::Search(place, Turn::Choice) if line != bit_of(self.code, place) => {
                Stage::Quiet
            }
            Stage::MatchCode(63) | Stage::Search(63, Turn::Choice) => function,
            Stage::MatchCode(place) => Stage::MatchCode(place + 1),
            Stage::Search(place, Turn::Choice) => Stage::Search(place + 1, Turn::Bit),
            Stage::FunctionCommand(partial) => match partial.take(line) {
                Ok(command) => self.function_command(command),
                Err(more) => Stage::FunctionCommand(more),
            },
            Stage::TakeSetting(place, partial) => match partial.take(line) {
                Ok(byte) => self.take_setting(place, byte),
                Err(more) => Stage::TakeSetting(place, more),
            },
            Stage::SendPad(71) => Stage::Quiet,
            Stage::SendPad(place) => Stage::SendPad(place + 1),
            Stage::SendBusy | Stage::SendPower | Stage::Quiet => self.stage,
        };
    }

    fn rom_command(&self, command: u8) -> Stage {
        match command {
            0x33 => Stage::SendCode(0),
            0x55 => Stage::MatchCode(0),
            0xCC => Stage::FunctionCommand(Partial::default()),
            0xF0 => Stage::Search(0, Turn::Bit),
            0xEC if self.flag => Stage::Search(0, Turn::Bit),
            _ => Stage::Quiet,
        }
    }

    fn function_command(&mut self, command: u8) -> Stage {
        match command {
            0xBE => Stage::SendPad(0),
            0xB4 => Stage::SendPower,
            _ if self.is_busy() => Stage::Quiet,
            0x44 => {
                self.work = Work::Converting;
                Stage::SendBusy
            }
            0x48 => {
                self.work = Work::Copying([self.pad[2], self.pad[3], self.pad[4]]);
                Stage::SendBusy
            }
            0x4E => Stage::TakeSetting(0, Partial::default()),
            0xB8 => {
                self.recall();
                Stage::Quiet
            }
            _ => Stage::Quiet,
        }
    }

    fn take_setting(&mut self, place: usize, byte: u8) -> Stage {
        self.pad[2 + place] = if place == 2 { self.stored(byte) } else { byte };
        if place + 1 < self.settings() {
            Stage::TakeSetting(place + 1, Partial::default())
        } else {
            Stage::Quiet
        }
    }

    /// The sensor's side ends a conversion with a count of sixteenths that is in range. What it stored,
    /// and the whole degree at or below it.
    pub fn conversion_done(&mut self, count: i16) -> (i16, i16) {
        // Division by a positive number, rounded down.
        let (register, degrees) = match self.family {
            Family::S => {
                let degrees = (count + 4).div_euclid(16);
                self.pad[6..].copy_from_slice(&[(16 * degrees + 12 - count) as u8, 16]);
                ((count + 4).div_euclid(8), degrees)
            }
            Family::B | Family::Pinned => {
                let step = 8 >> (self.pad[4] >> 5 & 3);
                let kept = count.div_euclid(step) * step;
                (kept, kept.div_euclid(16))
            }
        };
        self.pad[..2].copy_from_slice(&register.to_le_bytes());
        let (high, low) = (self.pad[2] as i8, self.pad[3] as i8);
        self.flag = degrees >= high as i16 || degrees <= low as i16;
        self.work = Work::Idle;
        (register, degrees)
    }

    pub fn copy_done(&mut self, bytes: [u8; 3]) {
        let count = self.settings();
        self.eeprom[..count].copy_from_slice(&bytes[..count]);
        self.work = Work::Idle;
    }
}
