// The CRCs of rows of bytes that this program lends, so many times, each result written into its row:
//
//     lent [BYTES ROWS TIMES]      one row of 64 MiB ten times where nothing is given
//
// With `--cfg ours` it is that of our library, else that of a table.
#[cfg(not(ours))]
mod table;
#[cfg(not(ours))]
use table::crc_of;

#[cfg(ours)]
fn crc_of(bytes: &[u8]) -> u8 {
    extern "C" {
        fn skiffle_crc(start: *const u8, count: usize) -> u8;
    }
    unsafe { skiffle_crc(bytes.as_ptr(), bytes.len()) }
}

fn main() {
    let words: Vec<usize> = std::env::args().skip(1).map(|word| word.parse().unwrap()).collect();
    let (count, rows, times) = if words.len() == 3 { (words[0], words[1], words[2]) } else { (64 << 20, 1, 10) };
    let mut bytes: Vec<u8> = (0..count * rows).map(|i| (i % 4096 * 157 / 3 % 256) as u8).collect();
    let mut last = 0;
    for _ in 0..times {
        for row in bytes.chunks_exact_mut(count) {
            last = crc_of(row);
            row[0] = last;
        }
    }
    println!("{last:02x}");
}
