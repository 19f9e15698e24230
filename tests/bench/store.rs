//! The settings store: for each code that was ever added the three bytes, a version, and whether it is there.

use crate::bench::Answer;
use crate::code;

const MOST: usize = 32;

pub struct Kept {
    pub code: u64,
    pub present: bool,
    pub bytes: [u8; 3],
    pub version: u16,
}

#[derive(Default)]
pub struct Store {
    pub kept: Vec<Kept>,
}

/// The configuration is kept without all but bits 6 and 5.
fn stored(bytes: [u8; 3]) -> [u8; 3] {
    [bytes[0], bytes[1], bytes[2] & 0x60]
}

impl Store {
    fn known(&mut self, code: u64) -> Option<&mut Kept> {
        self.kept.iter_mut().find(|kept| kept.code == code)
    }

    fn there(&mut self, code: u64) -> Answer<&mut Kept> {
        code::family_of(code)?;
        match self.known(code) {
            Some(kept) if kept.present => Ok(kept),
            _ => Err(12),
        }
    }

    pub fn add(&mut self, code: u64, bytes: [u8; 3]) -> Answer<()> {
        code::family_of(code)?;
        let full = self.kept.len() == MOST;
        match self.known(code) {
            Some(kept) if kept.present => return Err(8),
            Some(kept) => kept.present = true,
            None if full => return Err(9),
            None => self.kept.push(Kept { code, present: true, bytes: stored(bytes), version: 0 }),
        }
        Ok(())
    }

    pub fn remove(&mut self, code: u64) -> Answer<()> {
        self.there(code)?.present = false;
        Ok(())
    }

    pub fn read(&mut self, code: u64) -> Answer<([u8; 3], u16)> {
        let kept = self.there(code)?;
        Ok((kept.bytes, kept.version))
    }

    /// The version after the change.
    pub fn change(&mut self, code: u64, version: u16, asked: [Option<u8>; 3]) -> Answer<u16> {
        let kept = self.there(code)?;
        if kept.version != version {
            return Err(18);
        }
        let next = version.checked_add(1).ok_or(19u8)?;
        for (byte, new) in kept.bytes.iter_mut().zip(asked) {
            *byte = new.unwrap_or(*byte);
        }
        kept.bytes = stored(kept.bytes);
        kept.version = next;
        Ok(next)
    }
}
