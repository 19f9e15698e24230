//! ROM codes and their CRC.

#[derive(Clone, Copy, PartialEq)]
pub enum Family {
    /// 10h: DS1820, DS18S20.
    S,
    /// 28h: DS18B20.
    B,
    /// 3Bh: DS1825, with four address pins.
    Pinned,
}

/// X^8 + X^5 + X^4 + 1 over the bits as they are sent, from a register of zero.
pub fn crc(bytes: &[u8]) -> u8 {
    let mut register = 0;
    for byte in bytes {
        for place in 0..8 {
            let out = (register ^ byte >> place) & 1;
            register = register >> 1 ^ out * 0x8C;
        }
    }
    register
}

/// The code of a family and a serial number of 48 bits, with its CRC.
pub fn code_of(family: u8, serial: u64) -> u64 {
    let low = (serial & 0xFFFF_FFFF_FFFF) << 8 | family as u64;
    low | (crc(&low.to_le_bytes()[..7]) as u64) << 56
}

/// The family of a sound code, or the refusal: 5 for the CRC before 7 for the family.
pub fn family_of(code: u64) -> Result<Family, u8> {
    let bytes = code.to_le_bytes();
    if crc(&bytes[..7]) != bytes[7] {
        return Err(5);
    }
    match bytes[0] {
        0x10 => Ok(Family::S),
        0x28 => Ok(Family::B),
        0x3B => Ok(Family::Pinned),
        _ => Err(7),
    }
}

/// Bit `place` of a code, in the order in which the bits are sent.
pub fn bit_of(code: u64, place: usize) -> bool {
    code >> place & 1 == 1
}
