//! The program: arguments in, streams out, an exit code at the end.

use crate::arguments::{self, Call, Job};
use crate::calls::Calls;
use crate::commands::{execute, Trouble};
use crate::input;
use crate::usage::{COMMANDS, USAGE, VERSION};
use std::ffi::OsString;
use std::io::{self, ErrorKind, Write};
use std::process::ExitCode;

/// Exit codes.
const DONE: u8 = 0;
const REFUSED: u8 = 1;
const WRONG_USE: u8 = 2;

/// Runs the program with these calls; without them only what needs none is done.
pub fn main(calls: Option<&dyn Calls>) -> ExitCode {
    let words: Result<Vec<String>, OsString> =
        std::env::args_os().skip(1).map(OsString::into_string).collect();
    let (mut out, mut err) = (io::stdout().lock(), io::stderr().lock());
    let code = match words {
        Ok(words) => run(&words, calls, &mut out, &mut err),
        Err(_) => said(&mut err, "fitting: an argument is not plain text (UTF-8)\n", WRONG_USE),
    };
    ExitCode::from(code)
}

/// Does what the words of a call say.
pub fn run(
    words: &[String],
    calls: Option<&dyn Calls>,
    out: &mut dyn Write,
    err: &mut dyn Write,
) -> u8 {
    let done = match arguments::read(words) {
        Err(wrong) => {
            return said(
                err,
                &format!("fitting: {wrong}\n(fitting --help lists the commands)\n"),
                WRONG_USE,
            )
        }
        Ok(Call::Version) => print(out, VERSION),
        Ok(Call::Help(None)) => print(out, USAGE),
        Ok(Call::Help(Some(name))) => match COMMANDS.iter().find(|(command, _)| *command == name) {
            Some((_, help)) => print(out, help),
            None => return said(err, &format!("fitting: there is no command {name}\n"), WRONG_USE),
        },
        Ok(Call::Do(job)) => perform(&job, calls, out, err),
    };
    // The last byte counts too: output that finds no room is said.
    match done.and_then(|done| Ok(out.flush().map(|()| done)?)) {
        Ok(true) => DONE,
        Ok(false) => REFUSED,
        Err(Trouble::Said(words)) => said(err, &words, REFUSED),
        Err(Trouble::Use(words)) => said(err, &format!("fitting: {words}\n"), WRONG_USE),
        // A reader that has seen enough is no fault; nothing more is worked out for it.
        Err(Trouble::Output(why)) if why.kind() == ErrorKind::BrokenPipe => DONE,
        Err(Trouble::Output(why)) => {
            said(err, &format!("fitting: the output cannot be written: {why}\n"), REFUSED)
        }
    }
}

/// Reads the files and does the command.
fn perform(
    job: &Job,
    calls: Option<&dyn Calls>,
    out: &mut dyn Write,
    err: &mut dyn Write,
) -> Result<bool, Trouble> {
    let files = job.files.iter().chain(&job.options.names);
    if files.clone().filter(|file| *file == "-").count() > 1 {
        return Err(Trouble::Use("standard input is read once".to_string()));
    }
    let sources = files
        .map(|file| input::read(file))
        .collect::<Result<Vec<_>, String>>()
        .map_err(Trouble::Said)?;
    execute(job, &sources, calls, out, err)
}

fn print(out: &mut dyn Write, text: &str) -> Result<bool, Trouble> {
    out.write_all(text.as_bytes())?;
    Ok(true)
}

/// Where errors cannot be written either, the exit code is left.
fn said(err: &mut dyn Write, words: &str, code: u8) -> u8 {
    drop(err.write_all(words.as_bytes()));
    code
}
