//! The comparison of the program 'balance' on some of the texts.

use kifwaleb_bench::comparison::shown;
use kifwaleb_bench::generator::{edge_texts, random_texts};
use kifwaleb_bench::plan::Plan;
use kifwaleb_bench::reference::sheet;
use std::env;
use std::ffi::OsStr;
use std::io::{self, Write};
use std::process::{Command, Stdio};

/// Names the program under test.
const PROGRAM: &str = "KIFWALEB_BALANCE";

/// True if the program prints every sheet, or if none is named.
pub fn holds(plan: &Plan) -> bool {
    let Some(program) = env::var_os(PROGRAM) else {
        println!("the program is not compared: {PROGRAM} is not set");
        return true;
    };
    println!("comparing the program on {} texts", plan.programs);
    // Half of them are edge texts. Those that stand side by side are alike: if not all
    // can be given, they are spread evenly.
    let stride = edge_texts().count() * 2 / plan.programs.max(1) + 1;
    let edge = edge_texts().step_by(stride).take(plan.programs / 2);
    let texts = edge.chain(random_texts(plan.seed)).map(|case| case.text);
    let mut some = texts.take(plan.programs);
    some.all(|text| prints_its_sheet(&program, &text))
}

fn prints_its_sheet(program: &OsStr, text: &[u8]) -> bool {
    let expected = sheet(text);
    let given = match printed(program, text) {
        Ok(given) if given == expected => return true,
        Ok(given) => shown("program", &given),
        Err(error) => format!("  the program cannot be run: {error}\n"),
    };
    println!("difference in the program");
    print!(
        "{}{given}{}",
        shown("reference", &expected),
        shown("text", text)
    );
    false
}

/// What the program prints for a text on its standard input.
fn printed(program: &OsStr, text: &[u8]) -> io::Result<Vec<u8>> {
    let mut command = Command::new(program);
    let piped = command.stdin(Stdio::piped()).stdout(Stdio::piped());
    let mut running = piped.spawn()?;
    // Dropped after the writing, so that the program sees the end.
    let input = running.stdin.take();
    let given = input.map_or(Ok(()), |mut input| input.write_all(text));
    let output = running.wait_with_output()?;
    match given {
        // A text that is too long need not be read to its end.
        Err(error) if error.kind() != io::ErrorKind::BrokenPipe => Err(error),
        _ => Ok(output.stdout),
    }
}
