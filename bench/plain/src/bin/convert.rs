//! A site sheet of today's form or of an older one on standard input; the same sheet in today's form, or its refusal, on standard output.

use std::io::{self, Read, Write};

fn main() -> io::Result<()> {
    let mut text = Vec::new();
    io::stdin().lock().read_to_end(&mut text)?;
    let mut out = [0; 1024];
    match plain::convert(&text, &mut out) {
        Err((number, line)) => writeln!(io::stdout(), "refused={number},{line}"),
        Ok(length) => io::stdout().write_all(&out[..length]),
    }
}
