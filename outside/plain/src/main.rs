//! Reads a scene from standard input and prints its listing.

use std::io::{self, Read, Write};
use std::process::ExitCode;

use plain::Program;

fn main() -> ExitCode {
    let mut arguments = std::env::args().skip(1);
    let program = arguments.next().and_then(|name| Program::from_name(&name));
    let (Some(program), None) = (program, arguments.next()) else {
        eprintln!("usage: plain halo|halo-rough < scene");
        return ExitCode::from(2);
    };
    match print_listing(program) {
        Ok(()) => ExitCode::SUCCESS,
        Err(error) => {
            eprintln!("plain: {error}");
            ExitCode::FAILURE
        }
    }
}

fn print_listing(program: Program) -> io::Result<()> {
    let mut scene = Vec::new();
    io::stdin().lock().read_to_end(&mut scene)?;
    let mut out = io::stdout().lock();
    out.write_all(&plain::listing(&scene, program))?;
    out.flush()
}
