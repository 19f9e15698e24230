// An ordinary reader of captures, for the measures: the edges on standard input, the frames on standard
// output, a refusal as its line.
use std::io::{self, BufRead, BufReader, BufWriter, Write};

#[derive(Clone, Copy)]
enum Stage {
    Idle,
    FirstLow,
    Released,
    Presence,
    High,
    Low,
}

struct Capture {
    stage: Stage,
    last: u32,
    presence: bool,
    slots: usize,
    bits: [u8; 64],
}

impl Capture {
    fn new() -> Self {
        Capture { stage: Stage::Idle, last: 0, presence: false, slots: 0, bits: [0; 64] }
    }

    fn open(&mut self, presence: bool) {
        self.presence = presence;
        self.slots = 0;
        self.bits = [0; 64];
    }

    fn slot(&mut self, bit: u8) -> Result<(), u8> {
        if !self.presence || self.slots == 512 {
            return Err(3);
        }
        self.bits[self.slots / 8] |= bit << (self.slots % 8);
        self.slots += 1;
        Ok(())
    }

    fn close(&self, out: &mut impl Write) -> io::Result<()> {
        write!(out, "{:02X}{:04X}", self.presence as u8, self.slots)?;
        for byte in &self.bits[..(self.slots + 7) / 8] {
            write!(out, "{byte:02X}")?;
        }
        writeln!(out)
    }

    fn edge(&mut self, time: u32, out: &mut impl Write) -> io::Result<Result<(), u8>> {
        if !matches!(self.stage, Stage::Idle) && time <= self.last {
            return Ok(Err(16));
        }
        let lasted = time.wrapping_sub(self.last);
        self.last = time;
        self.stage = match (self.stage, lasted) {
            (Stage::Idle, _) => Stage::FirstLow,
            (Stage::High, _) => Stage::Low,
            (Stage::Released, 15..=60) => Stage::Presence,
            (Stage::Released, 480..) => Stage::Low,
            (Stage::Presence, 60..=240) => {
                self.open(true);
                Stage::High
            }
            (Stage::FirstLow, 480..=960) => {
                self.open(false);
                Stage::Released
            }
            (Stage::Low, 480..=960) => {
                self.close(out)?;
                self.open(false);
                Stage::Released
            }
            (Stage::Low, 1..=15) => match self.slot(1) {
                Ok(()) => Stage::High,
                Err(n) => return Ok(Err(n)),
            },
            (Stage::Low, 16..=120) => match self.slot(0) {
                Ok(()) => Stage::High,
                Err(n) => return Ok(Err(n)),
            },
            _ => return Ok(Err(15)),
        };
        Ok(Ok(()))
    }
}

fn time_in(line: &[u8]) -> Result<u32, u8> {
    let Some((b'\n', digits)) = line.split_last() else { return Err(2) };
    if !digits.iter().all(|c| matches!(c, b'0'..=b'9' | b'A'..=b'F')) {
        return Err(2);
    }
    if digits.len() != 8 {
        return Err(3);
    }
    let text = std::str::from_utf8(digits).expect("digits");
    Ok(u32::from_str_radix(text, 16).expect("eight digits"))
}

fn main() -> io::Result<()> {
    let mut input = BufReader::with_capacity(65536, io::stdin().lock());
    let mut out = BufWriter::with_capacity(65536, io::stdout().lock());
    let mut capture = Capture::new();
    let mut line = Vec::new();
    while input.read_until(b'\n', &mut line)? > 0 {
        let judged = match time_in(&line) {
            Ok(time) => capture.edge(time, &mut out)?,
            Err(n) => Err(n),
        };
        if let Err(n) = judged {
            return writeln!(out, "REFUSED {n}");
        }
        line.clear();
    }
    match capture.stage {
        Stage::Idle => Ok(()),
        Stage::Released | Stage::High => capture.close(&mut out),
        _ => writeln!(out, "REFUSED 15"),
    }
}
