// The work of `measure_crc`, by a table of 256 entries.
use std::io::Read;

mod table;
use table::crc_of;

const TIMES: u32 = 5000;
const ROUNDS: u32 = 20000;
const PAD: usize = 9;

fn filled<const N: usize>() -> [u8; N] {
    std::array::from_fn(|i| (i % 4096 * 157 / 3 % 256) as u8)
}

fn long_ones() {
    let mut bytes = filled::<4096>();
    let mut last = 0;
    for _ in 0..TIMES {
        last = crc_of(&bytes);
        bytes[0] = last;
    }
    println!("{last:02x}");
}

fn scratchpads() {
    let mut bytes = filled::<4500>();
    let mut last = 0;
    for _ in 0..ROUNDS {
        for pad in bytes.chunks_exact_mut(PAD) {
            last = crc_of(pad);
            pad[0] = last;
        }
    }
    println!("{last:02x}");
}

fn main() {
    let mut asked = String::new();
    std::io::stdin().read_to_string(&mut asked).unwrap();
    if asked.is_empty() || asked == "l" {
        long_ones();
    }
    if asked != "l" {
        scratchpads();
    }
}
