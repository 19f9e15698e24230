//! A second bench and master, in plain Rust, beside the bench console: the same random calls to both,
//! answer by answer.
//!
//!     bench CONSOLE FIRST SCRIPTS
//!
//! runs SCRIPTS scripts, with the seeds from FIRST on, each on a new bench of either side. It ends with
//! the first answer that differs, or with a count of the calls by kind and of the answers by refusal.

mod bench;
mod code;
mod console;
mod device;
mod generator;
mod master;
mod random;
mod store;

use std::collections::BTreeMap;
use std::io::{self, Read, Write};
use std::process::{Command, Stdio};

const CALLS: usize = 1000;

/// The refusals that a console can give; 2, 3, 6, 14 and 20 are of recordings and of damaged replies, and 19 takes
/// more calls than a script has.
const REACHABLE: [u32; 13] = [0, 1, 4, 5, 7, 8, 9, 10, 11, 12, 13, 17, 18];

/// From so many scripts on each of these must have been seen; fewer are run by hand, for a look.
const MANY: u64 = 100;

/// A call and its answer by the model.
struct Exchange {
    call: Vec<u8>,
    answer: Vec<String>,
}

/// The calls of a script, answered by the model.
fn script(seed: u64) -> Vec<Exchange> {
    let mut desk = console::Desk::default();
    let mut generator = generator::Generator::new(seed);
    let mut exchanges = Vec::new();
    while exchanges.len() < CALLS {
        for call in generator.calls(&desk) {
            let answer = console::answer(&mut desk, &call);
            exchanges.push(Exchange { call, answer });
        }
    }
    for call in generator.last_look() {
        let answer = console::answer(&mut desk, &call);
        exchanges.push(Exchange { call, answer });
    }
    exchanges
}

/// What the console writes for the calls.
fn run(program: &str, exchanges: &[Exchange]) -> io::Result<String> {
    let mut input = Vec::new();
    for exchange in exchanges {
        input.extend(&exchange.call);
        input.push(b'\n');
    }
    let mut console = Command::new(program).stdin(Stdio::piped()).stdout(Stdio::piped()).spawn()?;
    let mut pipe = console.stdin.take().expect("a pipe");
    // A console that ends early leaves the pipe; its answers then fall short, and that is told.
    let writer = std::thread::spawn(move || drop(pipe.write_all(&input)));
    let mut output = Vec::new();
    console.stdout.take().expect("a pipe").read_to_end(&mut output)?;
    writer.join().expect("the writer ends");
    console.wait()?;
    Ok(String::from_utf8_lossy(&output).into_owned())
}

/// The first call that the console answers otherwise than the model.
fn compare(seed: u64, exchanges: &[Exchange], output: &str) -> Result<(), String> {
    let mut lines = output.lines();
    for (number, Exchange { call, answer }) in exchanges.iter().enumerate() {
        let got: Vec<&str> = lines.by_ref().take(answer.len()).collect();
        if got != *answer {
            let call = String::from_utf8_lossy(call).into_owned();
            let (got, right) = (got.join("\n    "), answer.join("\n    "));
            return Err(format!(
                "seed {seed}, call {}: {call:?}\n  the console answers\n    {got}\n  the model\n    {right}",
                number + 1
            ));
        }
    }
    match lines.next() {
        None => Ok(()),
        Some(line) => Err(format!("seed {seed}: the console goes on after the last answer: {line}")),
    }
}

#[derive(Default)]
struct Tally {
    calls: usize,
    kinds: BTreeMap<String, usize>,
    refusals: BTreeMap<u32, usize>,
}

impl Tally {
    fn count(&mut self, exchange: &Exchange) {
        self.calls += 1;
        let refusal = exchange.answer[0].split(' ').next().and_then(|word| word.parse().ok());
        let words: Vec<&[u8]> = exchange.call.split(|&c| c == b' ').collect();
        let kind = match (refusal, &words[..]) {
            (None, _) | (_, []) => b"?".to_vec(),
            (_, [b"settings", name, ..]) => [b"settings ", *name].concat(),
            (_, [name, ..]) => name.to_vec(),
        };
        *self.kinds.entry(String::from_utf8_lossy(&kind).into_owned()).or_default() += 1;
        if let Some(number) = refusal {
            *self.refusals.entry(number).or_default() += 1;
        }
    }

    fn told(&self) -> String {
        let kinds: Vec<String> = self.kinds.iter().map(|(kind, n)| format!("{kind} {n}")).collect();
        let refusals: Vec<String> = self.refusals.iter().map(|(number, n)| format!("{number} ({n})")).collect();
        format!("{} calls: {}; refusals {}", self.calls, kinds.join(", "), refusals.join(", "))
    }
}

fn run_all(program: &str, first: u64, scripts: u64) -> Result<String, String> {
    let mut tally = Tally::default();
    for seed in first..first + scripts {
        let exchanges = script(seed);
        let output = run(program, &exchanges).map_err(|fault| format!("{program}: {fault}"))?;
        compare(seed, &exchanges, &output)?;
        exchanges.iter().for_each(|exchange| tally.count(exchange));
    }
    let told = format!("{scripts} scripts, {}", tally.told());
    match REACHABLE.iter().find(|&number| !tally.refusals.contains_key(number)) {
        Some(number) if scripts >= MANY => Err(format!("refusal {number} was never seen in {told}")),
        _ => Ok(told),
    }
}

fn main() {
    let words: Vec<String> = std::env::args().skip(1).collect();
    let outcome = match &words[..] {
        [program, first, scripts] => match (first.parse(), scripts.parse()) {
            (Ok(first), Ok(scripts)) => run_all(program, first, scripts),
            _ => Err("FIRST and SCRIPTS are numbers".to_string()),
        },
        _ => Err("usage: bench CONSOLE FIRST SCRIPTS".to_string()),
    };
    match outcome {
        Ok(told) => println!("second_bench: ok, {told}"),
        Err(fault) => {
            println!("second_bench: {fault}");
            std::process::exit(1);
        }
    }
}
