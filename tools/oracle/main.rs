//! The oracle program: one question a line on standard input, one answer a line on standard output.
use std::io::{BufRead, BufWriter, Write};

fn main() {
    // Panics of the Rust under test are answers, not noise.
    std::panic::set_hook(Box::new(|_| {}));
    let stdin = std::io::stdin();
    let mut out = BufWriter::new(std::io::stdout());
    for line in stdin.lock().lines() {
        let line = line.expect("standard input");
        writeln!(out, "{}", spi_flash::probe::answer(&line)).expect("standard output");
        out.flush().expect("standard output");
    }
}
