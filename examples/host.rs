//! Names the frames of a recording, one line each, as ./run name_frames does: a host in Rust that reads into a
//! buffer and moves bytes, and nothing else.
//!
//!     tools/build_library
//!     rustc --edition 2021 -O -L target/library -l static=skiffleshower -o host examples/host.rs
//!     ./host < examples/search.rec
//!
//! An argument is the size of the buffer in bytes, 1 to 65536.
use std::io::{self, BufWriter, Read, Write};

const BUFFER: usize = 65536;

const DONE: u32 = 0;
const MORE: u32 = 7;
const REFUSED: u32 = 100;

/// What include/skiffleshower.h calls a skiffle_answer.
#[repr(C)]
struct Told {
    code: u64,
    next: usize,
    held: usize,
    kind: u32,
    raw: u16,
}

/// A recording that is handed over in pieces.
struct Naming {
    line: [u8; 135],
    held: usize,
}

impl Naming {
    /// The next of the recording, from a place in the piece on; an empty piece is the end of it.
    fn next(&mut self, piece: &[u8], at: usize) -> Told {
        extern "C" {
            fn skiffle_next(line: &mut [u8; 135], held: usize, bytes: *const u8, count: usize, at: usize, ended: bool) -> Told;
        }
        // SAFETY: `line` and `piece` are whole, lent for the call alone, and do not overlap.
        let told = unsafe { skiffle_next(&mut self.line, self.held, piece.as_ptr(), piece.len(), at, piece.is_empty()) };
        self.held = told.held;
        told
    }
}

fn print(out: &mut impl Write, told: &Told) -> io::Result<()> {
    match told.kind {
        1 => writeln!(out, "EMPTY"),
        2 => writeln!(out, "SEARCH {:016X}", told.code),
        3 => writeln!(out, "ALARM {:016X}", told.code),
        4 => writeln!(out, "NOBODY"),
        5 => writeln!(out, "PAD {:016X} {:04X}", told.code, told.raw),
        6 => writeln!(out, "OTHER"),
        kind => writeln!(out, "REFUSED {}", kind - REFUSED),
    }
}

fn main() -> io::Result<()> {
    let size = std::env::args().nth(1).map_or(Some(BUFFER), |word| word.parse().ok());
    let Some(size @ 1..=BUFFER) = size else {
        return Err(io::Error::new(io::ErrorKind::InvalidInput, "the buffer has 1 to 65536 bytes"));
    };
    let mut buffer = vec![0; size];
    let mut input = io::stdin().lock();
    let mut out = BufWriter::with_capacity(BUFFER, io::stdout().lock());
    let mut naming = Naming { line: [0; 135], held: 0 };
    loop {
        let count = input.read(&mut buffer)?;
        let mut at = 0;
        loop {
            let told = naming.next(&buffer[..count], at);
            match told.kind {
                DONE => return out.flush(),
                MORE => break,
                _ => print(&mut out, &told)?,
            }
            at = told.next;
        }
    }
}
