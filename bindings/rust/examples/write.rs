//! Prints the text of the module in a file, with its floats and with what standard compilers ask
//! for: `cargo run --example write -- shader.json`

use std::{env, error::Error, fs};
use yorwethul::{write_json_on_thread, Flags};

fn main() -> Result<(), Box<dyn Error>> {
    let file = env::args().nth(1).ok_or("which file?")?;
    let json = fs::read_to_string(file)?;
    print!("{}", write_json_on_thread(&json, Flags::default())?);
    Ok(())
}
