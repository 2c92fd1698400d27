//! Writes what `ystep` replies: `replies GRAMMAR TOKENS < COMMANDS`. It reads at most a byte more
//! than a grammar may have.
use std::error::Error;
use std::io::{self, Read, Write};
use std::{env, fs};

fn main() -> Result<(), Box<dyn Error>> {
    let mut words = env::args_os().skip(1);
    let (Some(grammar), Some(tokens)) = (words.next(), words.next()) else {
        return Err("usage: replies GRAMMAR TOKENS < COMMANDS".into());
    };
    let mut text = Vec::new();
    fs::File::open(grammar)?.take((1 << 20) + 1).read_to_end(&mut text)?;
    let mut commands = Vec::new();
    io::stdin().read_to_end(&mut commands)?;
    let replies = sulderko::session(&text, &fs::read(tokens)?, &commands)?;
    io::stdout().write_all(&replies)?;
    Ok(())
}
