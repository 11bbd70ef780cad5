//! The words of a call: command, files, options.

use crate::annotation::whole_number;
use crate::exchange::Form;
use crate::ntriples::BASE;

#[derive(Clone, Copy, Debug, PartialEq, Eq)]
pub enum Command {
    Check,
    Close,
    Ask,
    Page,
    Diff,
    Import,
    Export,
    Book,
    Questions,
    Names,
    Text,
}

/// What is asked of the program.
#[derive(Clone, Debug, PartialEq, Eq)]
pub enum Call {
    Help(Option<String>),
    Version,
    Do(Job),
}

/// A command with its files and options.
#[derive(Clone, Debug, PartialEq, Eq)]
pub struct Job {
    pub command: Command,
    pub files: Vec<String>,
    pub options: Options,
}

#[derive(Clone, Debug, PartialEq, Eq)]
pub struct Options {
    pub looks: u32,
    pub quiet: bool,
    pub closed: bool,
    pub no_reflexive: bool,
    pub kind: Option<String>,
    pub when: Option<String>,
    pub base: String,
    pub form: Option<Form>,
    pub names: Option<String>,
}

impl Default for Options {
    fn default() -> Options {
        Options {
            looks: u32::MAX,
            quiet: false,
            closed: false,
            no_reflexive: false,
            kind: None,
            when: None,
            base: BASE.to_string(),
            form: None,
            names: None,
        }
    }
}

/// The commands, the files that each wants, and its options.
const COMMANDS: [(&str, Command, usize, &[&str]); 11] = [
    ("check", Command::Check, 1, &["--quiet"]),
    ("close", Command::Close, 1, &["--no-reflexive", "--quiet"]),
    ("ask", Command::Ask, 1, &["--looks", "--quiet"]),
    ("page", Command::Page, 1, &["--looks", "--no-reflexive", "--quiet"]),
    ("diff", Command::Diff, 2, &["--no-reflexive", "--quiet"]),
    ("import", Command::Import, 1, &["--kind", "--when", "--base", "--from"]),
    (
        "export",
        Command::Export,
        1,
        &["--to", "--when", "--closed", "--no-reflexive", "--base", "--quiet"],
    ),
    ("book", Command::Book, 1, &["--quiet"]),
    ("questions", Command::Questions, 1, &["--quiet"]),
    ("names", Command::Names, 1, &["--quiet"]),
    ("text", Command::Text, 1, &["--names"]),
];

/// What a call's words say; an error is a wrong use, in plain words.
pub fn read(arguments: &[String]) -> Result<Call, String> {
    let Some((first, rest)) = arguments.split_first() else {
        return Err("what is to be done?".to_string());
    };
    let helps = |word: &String| word == "--help" || word == "-h";
    match first.as_str() {
        "--version" | "-V" => return Ok(Call::Version),
        "help" => return Ok(Call::Help(rest.first().cloned())),
        "--help" | "-h" => return Ok(Call::Help(None)),
        _ => {}
    }
    let Some((name, command, files, options)) = COMMANDS.iter().find(|(name, ..)| name == first)
    else {
        let names = COMMANDS.iter().map(|(name, ..)| *name);
        let meant = crate::near::meant(first, names)
            .map_or(String::new(), |name| format!("; is `{name}` meant?"));
        return Err(format!("there is no command {first}{meant}"));
    };
    if rest.iter().any(helps) {
        return Ok(Call::Help(Some(name.to_string())));
    }
    let mut job = Job { command: *command, files: Vec::new(), options: Options::default() };
    let mut words = rest.iter();
    while let Some(word) = words.next() {
        match word.strip_prefix("--").filter(|_| word != "--") {
            None => job.files.push(word.clone()),
            Some(_) => option(&mut job.options, name, options, word, &mut words)?,
        }
    }
    let count = if *files == 1 { "one file" } else { "two files" };
    if job.files.len() != *files {
        return Err(format!("{name} wants {count}, and not {}", job.files.len()));
    }
    Ok(Call::Do(job))
}

/// Takes an option, with the word behind it if it wants one: `--looks 1000` or `--looks=1000`.
fn option<'a>(
    options: &mut Options,
    command: &str,
    known: &[&str],
    word: &str,
    words: &mut impl Iterator<Item = &'a String>,
) -> Result<(), String> {
    let (name, glued) =
        word.split_once('=').map_or((word, None), |(name, value)| (name, Some(value.to_string())));
    if !known.contains(&name) {
        let list = known.join(", ");
        return Err(format!("{command} has no option {name}; it has: {list}"));
    }
    if ["--quiet", "--closed", "--no-reflexive"].contains(&name) {
        if glued.is_some() {
            return Err(format!("{name} stands alone"));
        }
        options.quiet |= name == "--quiet";
        options.closed |= name == "--closed";
        options.no_reflexive |= name == "--no-reflexive";
        return Ok(());
    }
    let value = glued
        .or_else(|| words.next().cloned())
        .ok_or_else(|| format!("something is missing behind {name}"))?;
    match name {
        "--looks" => options.looks = looks(&value)?,
        "--kind" => options.kind = Some(value),
        "--when" => options.when = Some(value),
        "--base" => options.base = value,
        "--names" => options.names = Some(value),
        _ => {
            let form = Form::of_word(&value)
                .ok_or_else(|| format!("{name} {value}: the forms are nt and csv"))?;
            options.form = Some(form);
        }
    }
    Ok(())
}

/// A number of looks; commas may stand in it.
fn looks(value: &str) -> Result<u32, String> {
    let plain = value.replace([',', '_', '\''], "");
    whole_number(&plain)
        .ok_or_else(|| format!("--looks {value}: a whole number from 0 to 4,294,967,295 is wanted"))
}

#[cfg(test)]
mod tests {
    use super::*;

    fn call(words: &str) -> Result<Call, String> {
        let words: Vec<String> = words.split_whitespace().map(str::to_string).collect();
        read(&words)
    }

    fn job(words: &str) -> Job {
        match call(words) {
            Ok(Call::Do(job)) => job,
            other => panic!("{words}: {other:?}"),
        }
    }

    #[test]
    fn options_stand_before_or_behind_the_file() {
        for words in ["ask --looks 1,000 a.fit", "ask a.fit --looks=1000", "ask a.fit --looks 1000"]
        {
            let job = job(words);
            assert_eq!(
                (job.command, job.options.looks, job.files.as_slice()),
                (Command::Ask, 1000, &["a.fit".to_string()][..])
            );
        }
        assert_eq!(job("close -").files, ["-"]);
        assert_eq!(job("diff a b --quiet").files, ["a", "b"]);
        assert_eq!(job("export a --to nt").options.form, Some(Form::NTriples));
    }

    #[test]
    fn help_and_version() {
        assert_eq!(call("--version"), Ok(Call::Version));
        assert_eq!(call("help"), Ok(Call::Help(None)));
        assert_eq!(call("--help"), Ok(Call::Help(None)));
        assert_eq!(call("help ask"), Ok(Call::Help(Some("ask".to_string()))));
        assert_eq!(call("ask --help"), Ok(Call::Help(Some("ask".to_string()))));
    }

    #[test]
    fn wrong_calls() {
        let wrong = |words: &str| call(words).unwrap_err();
        assert_eq!(wrong(""), "what is to be done?");
        assert_eq!(wrong("clsoe a"), "there is no command clsoe; is `close` meant?");
        assert_eq!(wrong("close"), "close wants one file, and not 0");
        assert_eq!(wrong("diff a"), "diff wants two files, and not 1");
        assert_eq!(
            wrong("close a --looks 3"),
            "close has no option --looks; it has: --no-reflexive, --quiet"
        );
        assert_eq!(wrong("ask a --looks"), "something is missing behind --looks");
        assert_eq!(
            wrong("ask a --looks -3"),
            "--looks -3: a whole number from 0 to 4,294,967,295 is wanted"
        );
        assert_eq!(
            wrong("ask a --looks 4294967296"),
            "--looks 4294967296: a whole number from 0 to 4,294,967,295 is wanted"
        );
        assert_eq!(wrong("export a --to xml"), "--to xml: the forms are nt and csv");
        assert_eq!(wrong("ask a --quiet=yes"), "--quiet stands alone");
    }

    #[test]
    fn every_command_has_its_help() {
        let helped: Vec<&str> = crate::usage::COMMANDS.iter().map(|(name, _)| *name).collect();
        let known: Vec<&str> = COMMANDS.iter().map(|(name, ..)| *name).collect();
        assert_eq!(helped, known);
        for (name, _, _, options) in COMMANDS {
            let help = crate::usage::COMMANDS.iter().find(|(helped, _)| *helped == name).unwrap().1;
            assert!(help.starts_with(&format!("usage: fitting {name} ")), "{name}");
            let missing: Vec<&&str> =
                options.iter().filter(|option| !help.contains(**option)).collect();
            assert!(
                missing.is_empty() || ["book", "questions", "names", "export"].contains(&name),
                "{name} {missing:?}"
            );
        }
    }
}
