//! Numbers the stored cases of the program 'vectors' anew and writes the lines
//! that it must print for them. The lines come from the reference, never from
//! the library.

use kifwaleb_bench::case_file::{entries, lines, written};
use kifwaleb_bench::side::Reference;
use std::path::PathBuf;
use std::{env, fs, io};

fn main() -> io::Result<()> {
    let directory = env::args_os().nth(1).map(PathBuf::from);
    let directory = directory.expect("usage: stored DIRECTORY, which has data/cases");
    let cases = directory.join("data/cases");
    let entries = entries(&fs::read(&cases)?);
    let lines = lines(&entries, &Reference);
    fs::write(&cases, written(&entries))?;
    fs::write(directory.join("stdout"), lines.join("\n") + "\n")?;
    println!("{} cases", lines.len());
    Ok(())
}
