//! Makes a file from its commented hexadecimal text: text on standard input, bytes on standard output. So the examples' `.bin` files
//! are made from their `.hex` files.
use reference::hexadecimal;
use std::io::{self, Write};

/// Reads the text and writes the bytes.
fn convert() -> Result<(), String> {
    let text = io::read_to_string(io::stdin()).map_err(|error| error.to_string())?;
    io::stdout().write_all(&hexadecimal::bytes(&text)?).map_err(|error| error.to_string())
}

/// The conversion, or what is wrong with the text.
fn main() {
    if let Err(error) = convert() {
        eprintln!("hex-to-bin: {error}");
        std::process::exit(1);
    }
}
