//! The console's text: a line to a call, the call's answer to lines.

use crate::bench::{Answer, Bench, Why};
use crate::device::{Power, Work};
use crate::master::{self, Found, Pin, ALARM, BYTES, PLACES, SEARCH};
use crate::store::Store;

/// What the calls of a console go to.
#[derive(Default)]
pub struct Desk {
    pub bench: Bench,
    pub store: Store,
}

/// The lines that answer a line, without their feeds.
pub fn answer(desk: &mut Desk, line: &[u8]) -> Vec<String> {
    let text = std::str::from_utf8(line).unwrap_or("");
    let answered = match text.strip_prefix("settings ") {
        Some(rest) => settings_call(desk, rest).map(|line| vec![line]),
        None => call(&mut desk.bench, text),
    };
    answered.unwrap_or_else(|| vec!["?".to_string()])
}

/// The answer to a call on the settings store, named behind the word `settings`.
fn settings_call(desk: &mut Desk, text: &str) -> Option<String> {
    let words: Vec<&str> = text.split(' ').collect();
    let (name, code) = (*words.first()?, hex(words.get(1)?, 16)?);
    let Desk { bench, store } = desk;
    Some(match (name, &words[2..]) {
        ("add", [high, low, configuration]) => refusal(store.add(code, settings(high, low, configuration)?)),
        ("remove", []) => refusal(store.remove(code)),
        ("read", []) => match store.read(code) {
            Ok(([h, l, c], version)) => format!("0 {h:02X} {l:02X} {c:02X} {version}"),
            Err(number) => format!("{number} 00 00 00 0"),
        },
        ("change", [version, high, low, configuration]) => {
            let version = u16::try_from(decimal(version)?).ok()?;
            let asked = [altered(high)?, altered(low)?, altered(configuration)?];
            match store.change(code, version, asked) {
                Ok(next) => format!("0 {next}"),
                Err(number) => format!("{number} 0"),
            }
        }
        ("write", []) => match store.read(code) {
            Ok((bytes, _)) => access(code, master::write(bench, code, bytes)),
            Err(number) => access(code, Err(number)),
        },
        _ => return None,
    })
}

/// A byte, or a minus for one that stays.
fn altered(word: &str) -> Option<Option<u8>> {
    match word {
        "-" => Some(None),
        _ => Some(Some(hex(word, 2)? as u8)),
    }
}

/// The answer, or nothing where the line is no call.
fn call(bench: &mut Bench, text: &str) -> Option<Vec<String>> {
    let words: Vec<&str> = text.split(' ').collect();
    let line = match words[..] {
        ["search", ref lent @ ..] => return searched(bench, SEARCH, lent),
        ["alarm", ref lent @ ..] => return searched(bench, ALARM, lent),
        ["pins", ref lent @ ..] => return pinned(bench, lent),
        ["reset"] => bit(bench.reset()),
        ["slot", "0"] => bit(bench.slot(false)),
        ["slot", "1"] => bit(bench.slot(true)),
        ["add", code, power, high, low, configuration, ref pins @ ..] => {
            let eeprom = settings(high, low, configuration)?;
            refusal(bench.add(hex(code, 16)?, power_kind(power)?, eeprom, address_pins(pins)?))
        }
        ["converted", code, count] => refusal(bench.converted(hex(code, 16)?, signed(count)?)),
        ["copied", code] => refusal(bench.copied(hex(code, 16)?)),
        ["cycle", code] => refusal(bench.cycle(hex(code, 16)?)),
        ["read", code] => access(hex(code, 16)?, master::read(bench, hex(code, 16)?)),
        ["write", code, high, low, configuration] => {
            let asked = settings(high, low, configuration)?;
            access(hex(code, 16)?, master::write(bench, hex(code, 16)?, asked))
        }
        ["show", code] => show(bench, hex(code, 16)?),
        ["why", code] => why(bench, hex(code, 16)?),
        _ => return None,
    };
    Some(vec![line])
}

/// A search with the lengths lent, or with what it needs where none are given.
fn searched(bench: &mut Bench, command: u8, lent: &[&str]) -> Option<Vec<String>> {
    let (places, bytes) = match lent {
        [] => (PLACES, BYTES),
        [places, bytes] => (length(places, PLACES)?, length(bytes, BYTES)?),
        _ => return None,
    };
    Some(found(master::search(bench, command, places, bytes)))
}

/// The address pins, with the places lent, or with what the search needs where none are given.
fn pinned(bench: &mut Bench, lent: &[&str]) -> Option<Vec<String>> {
    let places = match lent {
        [] => PLACES,
        [places] => length(places, PLACES)?,
        _ => return None,
    };
    Some(pin_numbers(master::pins(bench, places)))
}

fn power_kind(word: &str) -> Option<Power> {
    match word {
        "line" => Some(Power::Line),
        "external" => Some(Power::External),
        _ => None,
    }
}

/// So many hexadecimal digits, in upper case.
fn hex(word: &str, digits: usize) -> Option<u64> {
    let is_digit = |c: u8| c.is_ascii_digit() || (b'A'..=b'F').contains(&c);
    let right = word.len() == digits && word.bytes().all(is_digit);
    right.then(|| u64::from_str_radix(word, 16).unwrap())
}

fn settings(high: &str, low: &str, configuration: &str) -> Option<[u8; 3]> {
    Some([hex(high, 2)? as u8, hex(low, 2)? as u8, hex(configuration, 2)? as u8])
}

/// One to five decimal digits, leading zeros taken.
fn decimal(word: &str) -> Option<i32> {
    let right = (1..=5).contains(&word.len()) && word.bytes().all(|c| c.is_ascii_digit());
    right.then(|| word.parse().unwrap())
}

/// At most one word, a number of eight bits in one to three digits; 0 where there is none.
fn address_pins(words: &[&str]) -> Option<u8> {
    match words {
        [] => Some(0),
        [word] if word.len() <= 3 => u8::try_from(decimal(word)?).ok(),
        _ => None,
    }
}

/// A decimal number with or without a minus, of 16 bits.
fn signed(word: &str) -> Option<i16> {
    let value = match word.strip_prefix('-') {
        Some(digits) => -decimal(digits)?,
        None => decimal(word)?,
    };
    i16::try_from(value).ok()
}

/// A length lent to a search: no more than it needs.
fn length(word: &str, needed: usize) -> Option<usize> {
    let length = decimal(word)? as usize;
    (length <= needed).then_some(length)
}

fn refusal(answer: Answer<()>) -> String {
    answer.err().unwrap_or(0).to_string()
}

fn bit(answer: Answer<bool>) -> String {
    match answer {
        Ok(bit) => format!("0 {}", bit as u8),
        Err(number) => format!("{number} 0"),
    }
}

fn digits(bytes: &[u8]) -> String {
    bytes.iter().map(|b| format!("{b:02X}")).collect()
}

/// The sixteen bits of the reading, without those that a resolution leaves undefined.
fn reading(code: u64, pad: &[u8; 9]) -> u16 {
    let raw = u16::from_le_bytes([pad[0], pad[1]]);
    match (code as u8, pad[4] >> 5 & 3) {
        (0x28 | 0x3B, 0) => raw & 0xFFF8,
        (0x28 | 0x3B, 1) => raw & 0xFFFC,
        (0x28 | 0x3B, 2) => raw & 0xFFFE,
        _ => raw,
    }
}

/// The fine reading of S, TEMP_READ - 1/4 + (COUNT_PER_C - COUNT_REMAIN) / COUNT_PER_C, over four times the last.
fn fine(code: u64, pad: &[u8; 9]) -> String {
    if code as u8 != 0x10 {
        return String::from("0/0");
    }
    let whole = i32::from(i16::from_le_bytes([pad[0], pad[1]])) >> 1;
    let (remain, per) = (i32::from(pad[6]), i32::from(pad[7]));
    format!("{}/{}", 4 * per * whole - per + 4 * (per - remain), 4 * per)
}

fn access(code: u64, answer: Answer<[u8; 9]>) -> String {
    match answer {
        Ok(pad) => format!("0 {} {:04X} {}", digits(&pad), reading(code, &pad), fine(code, &pad)),
        Err(number) => format!("{number} {} 0000 0/0", digits(&[0; 9])),
    }
}

fn found(answer: Answer<Found>) -> Vec<String> {
    let (number, found) = match answer {
        Ok(found) => (0, found),
        Err(number) => (number, Found::default()),
    };
    let Found { codes, passes, slots, recording } = found;
    let mut lines = vec![format!("{number} {} {passes} {slots} {}", codes.len(), recording.len())];
    lines.extend(codes.iter().map(|code| format!("{code:016X}")));
    lines.extend(recording.lines().map(String::from));
    lines
}

fn pin_numbers(answer: Answer<Vec<Pin>>) -> Vec<String> {
    let (number, pins) = match answer {
        Ok(pins) => (0, pins),
        Err(number) => (number, Vec::new()),
    };
    let shared = master::shared(&pins).map_or("-".to_string(), |pin| pin.to_string());
    let mut lines = vec![format!("{number} {} {shared}", pins.len())];
    lines.extend(pins.iter().map(|pin| format!("{:016X} {}", pin.code, pin.number)));
    lines
}

fn show(bench: &Bench, code: u64) -> String {
    match bench.look(code) {
        Err(number) => format!("{number} {} {} 0 0", digits(&[0; 8]), digits(&[0; 3])),
        Ok(device) => {
            let busy = match device.work {
                Work::Idle => 0,
                Work::Converting => 1,
                Work::Copying(_) => 2,
            };
            format!("0 {} {} {} {busy}", digits(&device.pad), digits(&device.eeprom), device.flag as u8)
        }
    }
}

fn why(bench: &Bench, code: u64) -> String {
    let (number, why) = match bench.why(code) {
        Ok(why) => (0, why),
        Err(number) => (number, Why::default()),
    };
    let Why { reason, register, high, low, differs } = why;
    format!("{number} {reason} {register} {high} {low} {}", differs as u8)
}
