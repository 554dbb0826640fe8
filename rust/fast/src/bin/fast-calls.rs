use std::io;

fn main() -> io::Result<()> {
    calls::serve(&mut fast::Fast, io::stdin().lock(), io::stdout().lock())
}
