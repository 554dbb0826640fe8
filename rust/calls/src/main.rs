use std::io;

fn main() -> io::Result<()> {
    calls::serve(&mut calls::Plain, io::stdin().lock(), io::stdout().lock())
}
