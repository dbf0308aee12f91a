//! Plays the script on its standard input, and writes the reply to each line.
#![forbid(unsafe_code)]

use replay::{Player, Reply};
use std::io;
use std::process::ExitCode;

fn main() -> io::Result<ExitCode> {
    let mut player = Player::default();
    for (at, line) in io::stdin().lines().enumerate() {
        match player.play(&line?) {
            None => (),
            Some(Reply::Said(text)) => println!("{}", text.trim_end_matches('\n')),
            Some(refused) => {
                let cause = if refused == Reply::NoMove { "not a move" } else { "not to be expressed" };
                eprintln!("line {}: {cause}", at + 1);
                return Ok(ExitCode::from(2));
            }
        }
    }
    Ok(ExitCode::SUCCESS)
}
