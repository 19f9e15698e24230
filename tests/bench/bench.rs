//! The bench: up to 32 devices on one wire, and the calls that change it.

use std::collections::HashMap;

use crate::code::{family_of, Family};
use crate::device::{Device, Power, Work};

#[derive(Default)]
pub struct Bench {
    pub devices: Vec<Device>,
    /// What the last finished conversion of a code stored since power-up.
    book: HashMap<u64, Page>,
}

/// The register, its whole degree, and the two limits of that moment.
struct Page {
    register: i16,
    degrees: i16,
    high: i8,
    low: i8,
}

/// Why a code is on the list of an alarm search, or is not.
#[derive(Default)]
pub struct Why {
    pub reason: u8,
    pub register: i16,
    pub high: i8,
    pub low: i8,
    pub differs: bool,
}

/// Refusals by number; `Ok` is 0.
pub type Answer<T> = Result<T, u8>;

impl Bench {
    pub fn look(&self, code: u64) -> Answer<&Device> {
        self.devices.iter().find(|d| d.code == code).ok_or(12)
    }

    fn find(&mut self, code: u64) -> Answer<&mut Device> {
        self.devices.iter_mut().find(|d| d.code == code).ok_or(12)
    }

    pub fn add(&mut self, code: u64, power: Power, eeprom: [u8; 3], pins: u8) -> Answer<()> {
        let family = family_of(code)?;
        if self.look(code).is_ok() {
            return Err(8);
        }
        if self.devices.len() == 32 {
            return Err(9);
        }
        if family == Family::Pinned && pins > 15 {
            return Err(17);
        }
        self.devices.push(Device::new(code, family, power, eeprom, pins));
        Ok(())
    }

    /// A busy line-powered device holds the wire.
    pub fn is_held(&self) -> bool {
        self.devices.iter().any(|d| d.power == Power::Line && d.is_busy())
    }

    /// Whether a device shows its presence.
    pub fn reset(&mut self) -> Answer<bool> {
        if self.is_held() {
            return Err(10);
        }
        self.devices.iter_mut().for_each(Device::reset);
        Ok(!self.devices.is_empty())
    }

    /// The line's bit: the AND of the master's and of every device's.
    pub fn slot(&mut self, bit: bool) -> Answer<bool> {
        if self.is_held() {
            return Err(10);
        }
        let line = bit && self.devices.iter().all(Device::offer);
        self.devices.iter_mut().for_each(|d| d.hear(line));
        Ok(line)
    }

    pub fn converted(&mut self, code: u64, count: i16) -> Answer<()> {
        let device = self.find(code)?;
        if device.work != Work::Converting {
            return Err(13);
        }
        if !(-880..=2000).contains(&count) {
            return Err(11);
        }
        let (register, degrees) = device.conversion_done(count);
        let (high, low) = (device.pad[2] as i8, device.pad[3] as i8);
        self.book.insert(code, Page { register, degrees, high, low });
        Ok(())
    }

    pub fn copied(&mut self, code: u64) -> Answer<()> {
        let device = self.find(code)?;
        match device.work {
            Work::Copying(bytes) => Ok(device.copy_done(bytes)),
            _ => Err(13),
        }
    }

    pub fn cycle(&mut self, code: u64) -> Answer<()> {
        self.find(code)?.power_up();
        self.book.remove(&code);
        Ok(())
    }

    /// By the book; of the device only that it is there, and its limits of today.
    pub fn why(&self, code: u64) -> Answer<Why> {
        family_of(code)?;
        let Ok(device) = self.look(code) else {
            return Ok(Why::default());
        };
        let Some(&Page { register, degrees, high, low }) = self.book.get(&code) else {
            return Ok(Why { reason: 1, ..Why::default() });
        };
        let reason = match (degrees >= high.into(), degrees <= low.into()) {
            (false, false) => 2,
            (true, false) => 3,
            (false, true) => 4,
            (true, true) => 5,
        };
        let differs = (device.pad[2] as i8, device.pad[3] as i8) != (high, low);
        Ok(Why { reason, register, high, low, differs })
    }
}
