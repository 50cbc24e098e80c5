//! `inputs` lists the names of the inputs; `inputs NAME` writes one to standard output.

use std::env;
use std::io::{self, Write};
use std::process::ExitCode;

fn main() -> ExitCode {
    let inputs = inputs::inputs();
    let Some(name) = env::args().nth(1) else {
        inputs.iter().for_each(|(name, _)| println!("{name}"));
        return ExitCode::SUCCESS;
    };
    let Some((_, bytes)) = inputs.into_iter().find(|(known, _)| *known == name) else {
        eprintln!("inputs: no input is called {name}");
        return ExitCode::from(2);
    };
    match io::stdout().write_all(&bytes) {
        Ok(()) => ExitCode::SUCCESS,
        Err(_) => ExitCode::FAILURE,
    }
}
