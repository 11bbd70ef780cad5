//! Other readers of N-Triples beside the proved calls: rapper and serdi, as processes.
//!
//!     peers [FILES] [FIRST SEED]
//!
//! Plain files, which every reader takes, must mean the same to all three: what each writes of them
//! is brought to canonical form, and its lines are compared. Where the others leave the grammar by a
//! rule (tools/peers/README.md), one line shows it, with what each of the three makes of it.

use against::peers::{ours, plain_file, shown, Known, Lines, AGREED, KNOWN};
use std::collections::BTreeSet;
use std::path::Path;
use std::process::{Command, Stdio};
use trial::ntriples::grammar::{self, Line};
use trial::ntriples::writing;
use trial::random::Random;

/// A reader, with what makes it read N-Triples and write them.
struct Peer {
    name: &'static str,
    words: &'static [&'static str],
}

const PEERS: [Peer; 2] = [
    Peer { name: "rapper", words: &["-q", "-i", "ntriples", "-o", "ntriples"] },
    Peer { name: "serdi", words: &["-i", "ntriples", "-o", "ntriples"] },
];

impl Peer {
    /// What it makes of a file. A line that it writes and that is no N-Triples stands as it is, behind
    /// a mark.
    fn reads(&self, path: &Path) -> Lines {
        let mut command = Command::new(self.name);
        command.args(self.words).arg(path).stdin(Stdio::null()).stderr(Stdio::null());
        let output = command.output().unwrap_or_else(|_| panic!("{} is not there", self.name));
        if !output.status.success() {
            return None;
        }
        let lines = output.stdout.split(|byte| matches!(byte, b'\r' | b'\n'));
        let lines = lines.filter_map(|line| match grammar::line(line) {
            Line::Empty => None,
            Line::Triple(texts) => Some(String::from_utf8(writing::line_of(&texts)).unwrap()),
            Line::Wrong => Some(format!("no N-Triples: {}", String::from_utf8_lossy(line))),
        });
        Some(lines.collect())
    }
}

/// Random plain files, the same to all three.
fn plain_files(path: &Path, files: u64, first: u64) -> usize {
    let mut lines = 0;
    for seed in first..first + files {
        let file = plain_file(&mut Random::new(seed));
        std::fs::write(path, &file).expect("a folder");
        let here = ours(&file);
        lines += here.as_ref().map_or(0, BTreeSet::len);
        assert!(here.is_some(), "a plain file is read, seed {seed}");
        for peer in &PEERS {
            let there = peer.reads(path);
            if there != here {
                println!("{}, seed {seed}: {}", peer.name, String::from_utf8_lossy(&file));
                println!("  here:  {}\n  there: {}", shown(&here), shown(&there));
                std::process::exit(1);
            }
        }
    }
    lines
}

/// What each of the three makes of a file.
fn outcomes(path: &Path, file: &[u8]) -> [String; 3] {
    std::fs::write(path, file).expect("a folder");
    [ours(file), PEERS[0].reads(path), PEERS[1].reads(path)].map(|lines| shown(&lines))
}

/// Each known difference, as it stands in the list: how many of the outcomes are other ones.
fn known_differences(path: &Path) -> usize {
    let mut other = 0;
    for file in AGREED {
        let found = outcomes(path, file);
        if found.iter().any(|outcome| *outcome != found[0]) {
            println!("{}: {found:?}", file.escape_ascii());
            other += 1;
        }
    }
    for Known { rule, what, file, outcomes } in KNOWN {
        let found = self::outcomes(path, file);
        for ((name, wanted), found) in ["here", "rapper", "serdi"].iter().zip(outcomes).zip(found) {
            if *wanted != found {
                println!("{rule}, {what}: {name} gives {found}\n  and not {wanted}");
                other += 1;
            }
        }
    }
    other
}

fn main() {
    let mut words = std::env::args().skip(1);
    let files = words.next().and_then(|word| word.parse().ok()).unwrap_or(100);
    let first = words.next().and_then(|word| word.parse().ok()).unwrap_or(1);
    let folder = Path::new(env!("CARGO_MANIFEST_DIR")).join("../../target");
    let path = folder.join("peers.nt");
    let lines = plain_files(&path, files, first);
    println!("{files} plain files, {lines} lines: the same to all three");
    let other = known_differences(&path);
    let (known, agreed) = (KNOWN.len(), AGREED.len());
    println!("{known} known differences, {agreed} lines to agree on: {other} outcomes are others");
    std::process::exit(i32::from(other > 0));
}
