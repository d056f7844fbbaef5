//! Reads the inputs of cases (lists/README.md has the format) from standard input and writes a reply to each: one byte, 1 where
//! the Rust answered and 0 where it panicked; 4 bytes, the length of the rest; then what the list has after the inputs, except
//! that the values of a refusal are the reals that the Rust reports, counts too.

use std::io::{Read, Write};

use oracle::{
    calls,
    fields::{Fields, Reply},
};

fn main() -> std::io::Result<()> {
    let mut input = Vec::new();
    std::io::stdin().read_to_end(&mut input)?;
    // A panic of the Rust is an outcome of its own here, and is reported as one.
    std::panic::set_hook(Box::new(|_| {}));
    let mut list = Fields::of(&input);
    let mut out = std::io::stdout().lock();
    while !list.at_end() {
        let kind = list.u16();
        let length = list.u32() as usize;
        let mut inputs = Fields::of(list.bytes(length));
        let Some(call) = calls::of_kind(kind) else {
            eprintln!("oracle: no call has kind {kind}");
            std::process::exit(1);
        };
        let reply = std::panic::catch_unwind(move || call(&mut inputs));
        let (answered, bytes) = match reply {
            Ok(Reply::Answer(bytes)) => (1, bytes),
            Ok(Reply::Unknown(what)) => {
                eprintln!("oracle: the Rust refused with a text that has no number: {what}");
                std::process::exit(1);
            }
            Err(_) => (0, Vec::new()),
        };
        out.write_all(&[answered])?;
        out.write_all(&(bytes.len() as u32).to_le_bytes())?;
        out.write_all(&bytes)?;
    }
    Ok(())
}
