//! The job program: commands on standard input, replies on standard output.

use std::io::{self, Read, Write};

fn main() -> io::Result<()> {
    let mut input = io::stdin().lock();
    let mut output = io::stdout().lock();
    let mut session = second::session::Session::new();
    let mut piece = vec![0; 64 * 1024];
    loop {
        let length = match input.read(&mut piece) {
            Ok(0) => break,
            Ok(length) => length,
            Err(error) if error.kind() == io::ErrorKind::Interrupted => continue,
            Err(error) => return Err(error),
        };
        session.feed(&piece[..length], &mut output)?;
        output.flush()?;
    }
    session.finish(&mut output)?;
    output.flush()
}
