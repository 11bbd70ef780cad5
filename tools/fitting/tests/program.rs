//! The program as a person calls it: arguments, missing files, streams, exit codes.

mod common;
use common::*;
use std::io::{Read, Write};
use std::path::Path;
use std::process::{Child, Command, Output, Stdio};
use std::time::{Duration, Instant};

fn of(program: &Path, arguments: &[&str]) -> Command {
    // On another machine than the library's, cargo names what runs the tests' programs.
    let runner = std::env::var("CARGO_TARGET_X86_64_UNKNOWN_LINUX_GNU_RUNNER")
        .ok()
        .filter(|_| cfg!(target_arch = "x86_64"));
    let mut command = match runner {
        None => Command::new(program),
        Some(runner) => {
            let mut command = Command::new(runner);
            command.arg(program);
            command
        }
    };
    command.current_dir(root()).args(arguments);
    command
}

fn each(arguments: &[&str]) -> Vec<Command> {
    programs().iter().map(|program| of(program, arguments)).collect()
}

/// The output of every program, which is the same.
fn fitting(arguments: &[&str]) -> Output {
    let mut found: Vec<Output> =
        each(arguments).iter_mut().map(|command| command.output().unwrap()).collect();
    found.dedup();
    assert_eq!(found.len(), 1, "{found:?}");
    found.remove(0)
}

fn failed(arguments: &[&str], code: i32, begins: &str) {
    let output = fitting(arguments);
    let errors = String::from_utf8(output.stderr).unwrap();
    assert_eq!((output.status.code(), output.stdout.len()), (Some(code), 0), "{arguments:?}");
    assert!(errors.starts_with(begins), "{arguments:?}: {errors}");
}

#[test]
fn wrong_calls_are_2_and_refusals_1() {
    failed(&[], 2, "fitting: what is to be done?\n(fitting --help lists the commands)\n");
    failed(&["close"], 2, "fitting: close wants one file");
    failed(
        &["clsoe", "examples/lamps.fit"],
        2,
        "fitting: there is no command clsoe; is `close` meant?",
    );
    failed(&["close", "examples/lamps.fit", "--bin"], 2, "fitting: close has no option --bin");
    failed(&["help", "clsoe"], 2, "fitting: there is no command clsoe");
    failed(&["diff", "-", "-"], 2, "fitting: standard input is read once");
    failed(&["export", "examples/lamps.fit", "--to", "nt"], 2, "fitting: N-Triples have no years");
    failed(
        &["export", "examples/lamps.fit", "--to", "csv", "--no-reflexive"],
        2,
        "fitting: --no-reflexive leaves out lines that follow",
    );
    failed(&["close", "examples/none.fit"], 1, "examples/none.fit: cannot be read:");
    failed(&["close", "examples"], 1, "examples: cannot be read:");
    failed(&["close", "examples/p1.book"], 1, "examples/p1.book:1: these are the bytes of a book, not a text: `fitting text FILE` shows them");
}

#[test]
fn help_and_version_are_no_errors() {
    for arguments in [&["--help"][..], &["-h"], &["help"]] {
        let output = fitting(arguments);
        assert!(
            output.status.success() && output.stdout.starts_with(b"usage: fitting COMMAND FILE")
        );
    }
    assert!(fitting(&["help", "ask"]).stdout.starts_with(b"usage: fitting ask FILE [--looks N]"));
    assert_eq!(
        fitting(&["--version"]).stdout,
        format!("fitting {}\n", env!("CARGO_PKG_VERSION")).into_bytes()
    );
}

#[test]
fn commands_print_the_examples() {
    for (command, listing) in
        [("close", "lamps.close.txt"), ("ask", "lamps.ask.txt"), ("page", "lamps.page.html")]
    {
        let output = fitting(&[command, "examples/lamps.fit"]);
        let expected = std::fs::read(root().join("examples").join(listing)).unwrap();
        assert!(
            output.status.success() && output.stdout == expected && output.stderr.is_empty(),
            "{command}"
        );
    }
    let output = fitting(&["check", "examples/lamps.fit"]);
    assert!(output.status.success() && output.stdout.is_empty() && output.stderr.is_empty());
}

fn fed(command: &mut Command, input: &[u8]) -> Output {
    let mut child = command
        .stdin(Stdio::piped())
        .stdout(Stdio::piped())
        .stderr(Stdio::piped())
        .spawn()
        .unwrap();
    // A program that has read enough closes its input.
    let _ = child.stdin.take().unwrap().write_all(input);
    child.wait_with_output().unwrap()
}

#[test]
fn a_text_on_standard_input() {
    for mut command in each(&["close", "-"]) {
        let output = fed(&mut command, b"kind degree\nlamp is led 3\n");
        assert_eq!(
            (output.status.code(), output.stdout.as_slice()),
            (Some(0), &b"kind degree\nlamp  is  led  3\n"[..])
        );
    }
}

/// A book of few bytes has no line end among them: the last byte counts too.
#[cfg(target_os = "linux")]
#[test]
fn output_that_finds_no_room_is_said() {
    let text = std::env::temp_dir().join(format!("fitting-{}.fit", std::process::id()));
    std::fs::write(&text, "kind degree\nlamp is led 3\n").unwrap();
    let full = || std::fs::File::options().write(true).open("/dev/full").unwrap();
    for arguments in [
        ["book", text.to_str().unwrap()],
        ["close", "examples/lamps.fit"],
        ["ask", "examples/lamps.fit"],
    ] {
        for mut command in each(&arguments) {
            let output = command.stdout(full()).output().unwrap();
            assert_eq!(output.status.code(), Some(1), "{arguments:?}");
            assert!(output.stderr.starts_with(b"fitting: the output cannot be written"));
        }
    }
    std::fs::remove_file(text).unwrap();
    for mut command in each(&["close", "examples/none.fit"]) {
        assert_eq!(
            command.stderr(full()).status().unwrap().code(),
            Some(1),
            "errors that find no room"
        );
    }
}

#[test]
fn a_reader_that_has_seen_enough_is_no_fault() {
    for mut command in each(&["close", "examples/lamps.fit"]) {
        let (reader, writer) = std::io::pipe().unwrap();
        drop(reader);
        let output = command.stdout(writer).output().unwrap();
        assert_eq!((output.status.code(), output.stderr.len()), (Some(0), 0));
    }
}

#[cfg(unix)]
#[test]
fn an_argument_that_is_no_text() {
    use std::os::unix::ffi::OsStrExt;
    for mut command in each(&["close"]) {
        let output = command.arg(std::ffi::OsStr::from_bytes(b"\xFF.fit")).output().unwrap();
        assert_eq!(output.status.code(), Some(2));
        assert!(output.stderr.starts_with(b"fitting: an argument is not plain text"));
    }
}

/// Input without end is read up to the limit, and no further.
#[cfg(target_os = "linux")]
#[test]
fn input_without_end_is_refused() {
    for name in ["close", "check", "page", "book"] {
        failed(
            &[name, "/dev/zero"],
            1,
            "/dev/zero: this is too long: at most 1 MiB (1,048,576 bytes) is read\n",
        );
    }
    failed(&["text", "/dev/zero"], 1, "/dev/zero: this is too long");
    failed(&["import", "/dev/zero", "--from", "csv"], 1, "/dev/zero: this is too long");
}

/// Texts made to take memory: the program does with 64 MiB, its own code and the model's included.
#[cfg(target_os = "linux")]
#[test]
fn a_large_wrong_file_takes_little_memory() {
    let most = 1 << 20;
    let filled = |head: &str, line: &str| {
        (head.to_string() + &line.repeat((most - head.len()) / line.len())).into_bytes()
    };
    let many_names: String =
        (0..).map(|number| format!("ask a{number} b c 3\n")).take(50_000).collect();
    let many_rows: String = (0..)
        .map(|number| format!("a{} b{} c 3\n", number % 900, number % 7))
        .take(80_000)
        .collect();
    let texts = [
        filled("", "\n"),
        filled("", "a\n"),
        filled("kind degree\n", "a\n"),
        filled("kind degree\n", "a b c 3\n"),
        filled("kind degree\n", "ask a b c 3\n"),
        filled("kind degree\nask (", "a "),
        filled("kind degree\nask (", "a\n"),
        filled("kind degree\n", "("),
        format!("kind degree\n{many_names}").into_bytes(),
        format!("kind degree\n{many_rows}").into_bytes(),
        vec![b'"'; most],
    ];
    for (at, text) in texts.iter().enumerate() {
        assert_little_memory(&format!("text {at}"), "check -", text);
    }
    let list = "import - --from nt --kind degree --when 3";
    assert_little_memory("a list", list, &filled("", "<a> <b> <c> .\n"));
    let many_terms: String =
        (0..40_000).map(|number| format!("<{number}> <b> _:c{number} .\n")).collect();
    assert_little_memory("a list of names", list, many_terms.as_bytes());
    let table = "subject,relation,object,degree\n";
    assert_little_memory("a table", "import - --from csv", &filled(table, "a,b,c,3\n"));
    assert_little_memory("a table of cells", "import - --from csv", &filled("", ","));
    assert_little_memory("a table of lines", "import - --from csv", &filled(table, "a\n"));
    assert_little_memory("a names list", "text /dev/null --names -", &filled("", "5 a\n"));
}

#[cfg(target_os = "linux")]
fn assert_little_memory(name: &str, words: &str, input: &[u8]) {
    let program = programs()[0].display().to_string();
    let limited = format!("ulimit -v 65536; exec '{program}' {words} 2>&1 | head -c 10000");
    let output = fed(Command::new("bash").args(["-c", &limited]), input);
    let said = String::from_utf8_lossy(&output.stdout);
    assert!(!said.contains("memory allocation") && !said.contains("panicked"), "{name}: {said}");
}

/// A question that would take long, stopped: the answers so far were printed, and no process is
/// left.
#[cfg(target_os = "linux")]
#[test]
fn nothing_is_left_running_when_it_is_stopped() {
    let rows: String = (0..900).map(|number| format!("n{number} is led 2000\n")).collect();
    let parts =
        vec!["?a is led ?w", "?b is led ?w", "?c is led ?w", "?d is led ?w where ?a = ?nobody"]
            .join(" and ");
    let text = years(&format!(
        "{rows}ask ?x is led 2000 where ?x = n7\nask {}\n",
        parts.replace("?nobody", "n901")
    ));
    for mut command in each(&["ask", "-", "--quiet"]) {
        let mut child = command.stdin(Stdio::piped()).stdout(Stdio::piped()).spawn().unwrap();
        child.stdin.take().unwrap().write_all(text.as_bytes()).unwrap();
        let first = until(&mut child, "?d is led ?w");
        assert!(first.contains("?x = n7\n    1 answer, 900 looks\n"), "{first}");
        assert_eq!(children(child.id()), "", "one process does everything");
        child.kill().unwrap();
        assert!(!child.wait().unwrap().success());
    }
}

/// What a program prints until it has printed this.
fn until(child: &mut Child, wanted: &str) -> String {
    let mut printed = Vec::new();
    let out = child.stdout.as_mut().unwrap();
    let began = Instant::now();
    let mut some = [0; 4096];
    while !String::from_utf8_lossy(&printed).contains(wanted)
        && began.elapsed() < Duration::from_secs(120)
    {
        let count = out.read(&mut some).unwrap();
        assert!(count > 0, "{}", String::from_utf8_lossy(&printed));
        printed.extend(&some[..count]);
    }
    String::from_utf8(printed).unwrap()
}

#[cfg(target_os = "linux")]
fn children(process: u32) -> String {
    let file = format!("/proc/{process}/task/{process}/children");
    std::fs::read_to_string(file).unwrap_or_default().trim().to_string()
}
