//! Many tapes by one desk: the table of sines is taken once, and the threads share it.
//!
//!     cargo run --release --example batch -- ../examples/*.tape
//!
//! The sheets are printed in the order of the tapes; a refused tape has one line, as the program
//! SHEET prints it, and its reason goes to standard error.

use std::process::ExitCode;
use std::{env, fs, io, thread};

use vastrudhil::{Desk, Refusal};

/// The sheets of all tapes, each thread working its part of them.
fn work(desk: &Desk, tapes: &[Vec<u8>], threads: usize) -> Vec<Result<String, Refusal>> {
    let part = tapes.len().div_ceil(threads).max(1);
    thread::scope(|scope| {
        let workers: Vec<_> = tapes
            .chunks(part)
            .map(|tapes| scope.spawn(|| tapes.iter().map(|tape| desk.sheet(tape)).collect()))
            .collect();
        workers
            .into_iter()
            .flat_map(|worker| -> Vec<_> { worker.join().expect("no call of the desk panics") })
            .collect()
    })
}

fn main() -> io::Result<ExitCode> {
    let names: Vec<String> = env::args().skip(1).collect();
    let tapes = names.iter().map(fs::read).collect::<io::Result<Vec<_>>>()?;
    let threads = thread::available_parallelism().map_or(1, |threads| threads.get());
    let mut end = ExitCode::SUCCESS;
    for (name, sheet) in names.iter().zip(work(&Desk::new(), &tapes, threads)) {
        match sheet {
            Ok(text) => print!("{text}"),
            Err(refusal) => {
                println!("REFUSED {}", refusal.number);
                eprintln!("{name}, byte {}: {}", refusal.place, refusal.reason());
                end = ExitCode::FAILURE;
            }
        }
    }
    Ok(end)
}
