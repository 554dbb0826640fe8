//! Reads a table as text from standard input and writes its question file as one line of hexadecimal words.

use std::io;

fn main() {
    let text = io::read_to_string(io::stdin()).expect("text on standard input");
    match notation::file(&text) {
        Ok(words) => println!("{}", words.iter().map(|word| format!("{word:08X}")).collect::<Vec<_>>().join(" ")),
        Err(complaint) => {
            eprintln!("{complaint}");
            std::process::exit(1);
        }
    }
}
