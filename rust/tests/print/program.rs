//! Running the program, and the comparison of what it prints with what is due.

use crate::common::check::hex;
use crate::common::finishing::recurse;
use crate::common::plan::Plan;
use crate::common::printing::{plan_lines, refusal_line, sheet_to_plan};
use crate::common::sheet::Sheet;
use std::fmt::Arguments;
use std::io::{ErrorKind, Write};
use std::path::Path;
use std::process::{Child, ChildStdin, Command, Output, Stdio};

/// The program as `./plan` and `./test` leave it.
pub const PROGRAM: &str = concat!(env!("CARGO_MANIFEST_DIR"), "/../target/bin/print_plan");

/// Starts the program with this standard input.
pub fn start(input: impl Into<Stdio>) -> Child {
    start_as(&mut Command::new(PROGRAM), input)
}

/// The same by a command that runs the program.
pub fn start_as(command: &mut Command, input: impl Into<Stdio>) -> Child {
    assert!(
        Path::new(PROGRAM).is_file(),
        "{PROGRAM} is not there. Run ./plan first, or ./test, which build it"
    );
    let command = command.stdin(input).stdout(Stdio::piped());
    let started = command.stderr(Stdio::piped()).spawn();
    started.expect("the program can be started")
}

/// Waits for the program's end.
pub fn end(program: Child) -> Output {
    let ended = program.wait_with_output();
    ended.expect("the program's output can be read")
}

/// Runs the program on these bytes in a pipe.
pub fn run(input: &[u8]) -> Output {
    run_in_pieces([input], || ())
}

/// The same with a pause behind each piece of its input.
pub fn run_in_pieces<'a>(pieces: impl IntoIterator<Item = &'a [u8]>, pause: impl Fn()) -> Output {
    let mut program = start(Stdio::piped());
    let mut pipe = program.stdin.take().expect("a pipe to the program");
    for piece in pieces {
        if !write(&mut pipe, piece) {
            break;
        }
        pause();
    }
    drop(pipe);
    end(program)
}

/// Whether the program took these bytes: it may end before it has read all that there is.
pub fn write(pipe: &mut ChildStdin, piece: &[u8]) -> bool {
    match pipe.write_all(piece) {
        Ok(()) => true,
        Err(error) if error.kind() == ErrorKind::BrokenPipe => false,
        Err(error) => panic!("writing to the program: {error}"),
    }
}

/// The program ended well and printed these lines, byte for byte, and nothing else.
pub fn assert_printed(output: &Output, lines: &str, case: Arguments) {
    let printed = String::from_utf8_lossy(&output.stdout);
    assert_eq!(printed, lines, "{case}");
    let said = String::from_utf8_lossy(&output.stderr);
    assert_eq!(said, "", "on standard error, {case}");
    assert!(output.status.success(), "{}, {case}", output.status);
}

/// Runs the program on an input, for which it has to print these lines.
pub fn prints(lines: &str, input: &[u8], case: Arguments) {
    let case = format_args!("{case}: {}", hex(input));
    assert_printed(&run(input), lines, case);
}

/// Runs the program on an input that it has to refuse with this number.
pub fn refuses(number: u32, input: &[u8], case: Arguments) {
    prints(&refusal_line(number), input, case);
}

/// Runs the program on a sheet that it has to plan so.
pub fn plans(sheet: &Sheet, plan: &Plan, case: Arguments) {
    prints(&plan_lines(sheet, plan), &sheet.encode(), case);
}

/// What is due for any input: the number of its refusal, 0 for none, and the lines.
pub fn due(input: &[u8]) -> (u32, String) {
    match sheet_to_plan(input) {
        Ok(sheet) => (0, plan_lines(&sheet, &recurse(&sheet).plan)),
        Err(number) => (number, refusal_line(number)),
    }
}

/// Runs the program on any input, compares what it prints with what is due, and returns the number of the refusal, 0
/// for none.
pub fn check(input: &[u8], case: Arguments) -> u32 {
    let (number, lines) = due(input);
    prints(&lines, input, case);
    number
}
