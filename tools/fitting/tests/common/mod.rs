//! What the tests share: commands over a text, by the model and by the proved library where it is
//! linked.
#![allow(dead_code)]

pub mod model;

use fitting::arguments::{self, Call};
use fitting::calls::Calls;
use fitting::commands::{execute, Trouble};
use fitting::input::Source;
use model::Model;
use std::path::{Path, PathBuf};

/// The calls to try: the model's, and the proved library's where it is linked.
pub fn libraries() -> Vec<&'static dyn Calls> {
    #[cfg(proved)]
    return vec![&Model, &fitting::proved::Proved];
    #[cfg(not(proved))]
    vec![&Model]
}

/// The programs to try: over the model, and over the proved library where it is linked.
pub fn programs() -> Vec<PathBuf> {
    let own = Path::new(env!("CARGO_BIN_EXE_fitting"));
    let by_model = own.with_file_name("examples").join("by_model");
    #[cfg(proved)]
    return vec![by_model, own.to_path_buf()];
    #[cfg(not(proved))]
    vec![by_model]
}

/// The repository.
pub fn root() -> PathBuf {
    Path::new(env!("CARGO_MANIFEST_DIR")).join("../..")
}

pub fn example(name: &str) -> String {
    std::fs::read_to_string(root().join("examples").join(name)).unwrap()
}

/// What a command printed, what it said on standard error, and its exit code.
#[derive(Debug, PartialEq, Eq)]
pub struct Printed {
    pub out: Vec<u8>,
    pub err: String,
    pub code: u8,
}

impl Printed {
    pub fn text(&self) -> &str {
        std::str::from_utf8(&self.out).unwrap()
    }
}

/// Does a command, its words one string, over these files, which are named t.fit, u.fit and so on;
/// the same by every library.
pub fn command(words: &str, files: &[&[u8]]) -> Printed {
    let split: Vec<String> = words.split_whitespace().map(|word| word.replace('~', " ")).collect();
    let Ok(Call::Do(mut job)) = arguments::read(&split) else {
        panic!("{words}: not a call");
    };
    let names = ["t.fit", "u.fit", "v.fit"];
    let own = job
        .files
        .iter()
        .map(|file| file.as_str() == "t")
        .zip(names)
        .map(|(plain, name)| (plain, name.to_string()));
    job.files = own
        .zip(job.files.clone())
        .map(|((plain, name), file)| if plain { name } else { file })
        .collect();
    let titles = job.files.iter().chain(&job.options.names);
    let sources: Vec<Source> = titles
        .zip(files)
        .map(|(name, bytes)| Source { name: name.clone(), bytes: bytes.to_vec() })
        .collect();
    let mut found: Vec<Printed> =
        libraries().into_iter().map(|calls| done(&job, &sources, calls)).collect();
    found.dedup();
    assert_eq!(found.len(), 1, "the proved library and the model differ: {found:?}");
    found.remove(0)
}

fn done(job: &arguments::Job, sources: &[Source], calls: &dyn Calls) -> Printed {
    let (mut out, mut err) = (Vec::new(), Vec::new());
    let code = match execute(job, sources, Some(calls), &mut out, &mut err) {
        Ok(true) => 0,
        Ok(false) => 1,
        Err(Trouble::Said(words)) => {
            err.extend(words.as_bytes());
            1
        }
        Err(Trouble::Use(words)) => {
            err.extend(words.as_bytes());
            2
        }
        Err(Trouble::Output(why)) => panic!("{why}"),
    };
    Printed { out, err: String::from_utf8(err).unwrap(), code }
}

/// What `close` prints, or says is wrong, and whether everything was done.
pub fn close(text: &str) -> (String, bool) {
    said(command("close t --quiet", &[text.as_bytes()]))
}

/// What `ask` prints, or says is wrong, and whether everything was done.
pub fn ask(text: &str) -> (String, bool) {
    said(command("ask t --quiet", &[text.as_bytes()]))
}

fn said(printed: Printed) -> (String, bool) {
    let done = printed.code == 0;
    (
        if printed.out.is_empty() { printed.err } else { String::from_utf8(printed.out).unwrap() },
        done,
    )
}

/// The notes on a text.
pub fn notes(text: &str) -> Vec<String> {
    let printed = command("check t", &[text.as_bytes()]);
    assert_eq!(printed.code, 0, "{}", printed.err);
    printed.err.lines().map(str::to_string).collect()
}

/// A book of years with these lines.
pub fn years(lines: &str) -> String {
    format!("kind years from 2000\n{lines}")
}
