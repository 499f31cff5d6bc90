//! The second of two processes: it reads exports from its standard input, each behind the number of its bytes, and at the end prints
//! the table of what they bring and its total. What comes twice or late changes nothing.
#![forbid(unsafe_code)]
use kotskhin::{Ask, Export, Gateway};
use std::error::Error;
use std::io::{self, ErrorKind, Read};

/// The bytes of the next export, or none at the end of the input.
fn next(input: &mut impl Read) -> io::Result<Option<Vec<u8>>> {
    let mut number = [0; 8];
    match input.read_exact(&mut number[..1]) {
        Err(end) if end.kind() == ErrorKind::UnexpectedEof => return Ok(None),
        told => told?,
    }
    input.read_exact(&mut number[1..])?;
    let number = u64::from_be_bytes(number);
    let mut bytes = Vec::new();
    input.take(number).read_to_end(&mut bytes)?;
    match bytes.len() as u64 == number {
        true => Ok(Some(bytes)),
        false => Err(ErrorKind::UnexpectedEof.into()),
    }
}

fn main() -> Result<(), Box<dyn Error>> {
    let mut input = io::stdin().lock();
    let mut gateway = Gateway::open(1)?;
    while let Some(bytes) = next(&mut input)? {
        gateway.take(&Export::decode(&bytes)?)?;
    }
    let mut ask = Ask::sum("app", "requests", "1", true)?;
    print!("{}", gateway.table(&ask)?);
    ask.keep([])?;
    let counted = gateway.rows(&ask)?.row(0)?.sum();
    println!("counted {}", counted.unwrap_or_default());
    Ok(())
}
