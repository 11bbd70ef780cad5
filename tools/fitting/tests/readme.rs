//! The commands of the README do what stands there, in the order of the page.

mod common;
use common::*;
use std::fs;
use std::path::Path;
use std::process::Command;

/// A command, its line in the README, and what it prints there.
struct Shown {
    line: usize,
    command: String,
    output: Vec<String>,
}

/// The indented lines that begin with `$ fitting`, and the lines behind each.
fn commands(readme: &str) -> Vec<Shown> {
    let mut found: Vec<Shown> = Vec::new();
    let mut inside = false;
    for (line, text) in (1..).zip(readme.lines()) {
        let code = text.strip_prefix("    ");
        match code.and_then(|code| code.strip_prefix("$ ")) {
            Some(command) => {
                found.push(Shown { line, command: command.to_string(), output: Vec::new() });
                inside = true;
            }
            None if code.is_none() && !text.is_empty() => inside = false,
            None if inside => found.last_mut().unwrap().output.push(code.unwrap_or("").to_string()),
            None => {}
        }
    }
    // Empty lines behind a block are not of it.
    for shown in &mut found {
        while shown.output.last().is_some_and(String::is_empty) {
            shown.output.pop();
        }
    }
    found
}

/// `...` stands for any lines at the end.
fn agree(shown: &[String], printed: &[String]) -> bool {
    match shown.split_last() {
        Some((last, front)) if last == "..." => {
            printed.starts_with(front) && printed.len() > front.len()
        }
        _ => shown == printed,
    }
}

fn run(folder: &Path, program: &str, command: &str) -> Vec<String> {
    let runner = std::env::var("CARGO_TARGET_X86_64_UNKNOWN_LINUX_GNU_RUNNER").ok();
    let runner = runner.filter(|_| cfg!(target_arch = "x86_64")).unwrap_or_default();
    let script = format!("fitting() {{ {runner} '{program}' \"$@\"; }}\n{{ {command}\n}} 2>&1");
    let output = Command::new("bash").current_dir(folder).args(["-c", &script]).output().unwrap();
    String::from_utf8(output.stdout).unwrap().lines().map(str::to_string).collect()
}

#[test]
fn every_command_prints_what_is_shown() {
    let readme = fs::read_to_string(root().join("tools/fitting/README.md")).unwrap();
    let found = commands(&readme);
    assert!(found.len() >= 18, "{}", found.len());
    assert!(found.iter().all(|shown| shown.command.starts_with("fitting ")));
    for (at, program) in programs().iter().enumerate() {
        let folder =
            std::env::temp_dir().join(format!("fitting-readme-{}-{at}", std::process::id()));
        fs::create_dir_all(&folder).unwrap();
        std::os::unix::fs::symlink(
            root().canonicalize().unwrap().join("examples"),
            folder.join("examples"),
        )
        .unwrap();
        for shown in &found {
            let printed = run(&folder, program.to_str().unwrap(), &shown.command);
            let place = format!("README.md:{}: {}", shown.line, shown.command);
            assert!(
                agree(&shown.output, &printed),
                "{place}\nshown: {:#?}\nprinted: {printed:#?}",
                shown.output
            );
        }
        fs::remove_dir_all(folder).unwrap();
    }
}

/// Every command of the program stands in the README.
#[test]
fn every_command_is_described() {
    let readme = fs::read_to_string(root().join("tools/fitting/README.md")).unwrap();
    for (name, _) in fitting::usage::COMMANDS {
        assert!(readme.contains(&format!("| `fitting {name} ")), "{name}");
    }
}
