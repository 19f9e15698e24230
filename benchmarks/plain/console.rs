//! The plain side of the console's measure: the second bench of the tests behind lines, each answered at once.

#[path = "../../tests/bench/bench.rs"]
mod bench;
#[allow(dead_code)]
#[path = "../../tests/bench/code.rs"]
mod code;
#[path = "../../tests/bench/console.rs"]
mod console;
#[path = "../../tests/bench/device.rs"]
mod device;
#[path = "../../tests/bench/master.rs"]
mod master;
#[path = "../../tests/bench/store.rs"]
mod store;

use std::io::{self, BufRead, Write};

fn main() -> io::Result<()> {
    let mut desk = console::Desk::default();
    let mut input = io::stdin().lock();
    let mut output = io::stdout().lock();
    let mut line = Vec::new();
    while input.read_until(b'\n', &mut line)? > 0 {
        line.pop();
        let mut text = String::new();
        for answer in console::answer(&mut desk, &line) {
            text.push_str(&answer);
            text.push('\n');
        }
        output.write_all(text.as_bytes())?;
        output.flush()?;
        line.clear();
    }
    Ok(())
}
