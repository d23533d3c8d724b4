//! Instructions of this very program with other arguments, as valgrind counts them.

use std::process::Command;

/// The number after the word Collected, or nothing where there is no valgrind.
pub fn instructions(arguments: &[String]) -> Option<f64> {
    let program = std::env::current_exe().expect("the program knows its own file");
    let mut command = Command::new("valgrind");
    command.args(["--tool=callgrind", "--callgrind-out-file=/dev/null"]).arg(program);
    let said = command.args(arguments).output().ok()?;
    let text = String::from_utf8_lossy(&said.stderr);
    let (_, count) = text.split_once("Collected :")?;
    count.split_whitespace().next()?.parse().ok()
}
