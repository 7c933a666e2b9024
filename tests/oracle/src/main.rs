//! `framecheck` over the oracle: reads standard input and prints the answer bytes, or the negative number with a line feed.

use std::io::{Read, Write};

fn main() {
    let mut stream = Vec::new();
    std::io::stdin().read_to_end(&mut stream).expect("standard input can be read");
    let mut room = vec![0; 33 * 1_024];
    let number = oracle::answer(&stream, &mut room);
    let mut out = std::io::stdout();
    let written = match usize::try_from(number) {
        Ok(length) => out.write_all(&room[..length]),
        Err(_) => writeln!(out, "{number}"),
    };
    written.expect("standard output can be written");
}
