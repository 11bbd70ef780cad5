//! What `--help` prints.

pub const VERSION: &str = concat!("fitting ", env!("CARGO_PKG_VERSION"), "\n");

pub const USAGE: &str = "\
usage: fitting COMMAND FILE [OPTIONS]

  check FILE       say what is wrong in a text, and nothing else
  close FILE       print the book with what follows from it
  ask FILE         answer the questions in the text
  page FILE        the book and its answers as one HTML page, to print or to mail
  diff A B         what holds by one book and not by the other

  import FILE      a makers' list (.nt) or a spreadsheet's table (.csv) as a text
  export FILE      a text as N-Triples (--to nt) or as a table (--to csv)

  book FILE        the book's bytes, as the programs and the C calls read them
  questions FILE   the bytes of the book and the questions, for the program counter
  names FILE       the numbers that the names have in these bytes
  text FILE        the bytes of a book as a text again

  help [COMMAND]   this, or more about one command
  --version        the version

FILE may be -, standard input. Notes and faults go to standard error. The exit
code is 0 if everything was done, 1 if something was refused or faulty, 2 for a
wrong call. tools/fitting/README.md has the form of a text.
";

/// More about each command.
pub const COMMANDS: [(&str, &str); 11] = [
    (
        "check",
        "\
usage: fitting check FILE [--quiet]

Reads the text and says what is wrong with it: lines that cannot be read, what
the library refuses (too many rows, tests of variables without a value), and
notes on what looks like a slip of the pen. Prints nothing if there is nothing.

  --quiet   leave the notes out
",
    ),
    (
        "close",
        "\
usage: fitting close FILE [--no-reflexive] [--quiet]

Prints the book with what follows from it, in the order of the names. The
listing is a text itself. `# follows` marks rows that are not in the book,
`# in the book for less` those that hold for more than it says.

  --no-reflexive   leave out what follows of the form A within A, A implies A; a
                   book that says `rules 2` has many of these
  --quiet          leave the notes out
",
    ),
    (
        "ask",
        "\
usage: fitting ask FILE [--looks N] [--quiet]

Answers the questions of the text, one after another, as answers are found.

  --looks N   stop a question after N looks at rows; the answers found so far
              are printed, and that it was stopped (24). Without it a question
              has 4,294,967,295 looks, about a minute
  --quiet     leave the notes out
",
    ),
    (
        "page",
        "\
usage: fitting page FILE [--looks N] [--no-reflexive] [--quiet] > PAGE.html

Writes one HTML page: each subject with its lines, years as strips, what is in
the book apart from what follows, and the questions with their answers. The
page has no script and needs no other file.

  --looks N        as for ask
  --no-reflexive   as for close; the questions are asked of the whole book
  --quiet          leave the notes out
",
    ),
    (
        "diff",
        "\
usage: fitting diff A B [--no-reflexive] [--quiet]

Closes both books and prints what holds by one and not by the other, by years:
`-` by A alone, `+` by B alone. Each is closed by its own rule set.

  --no-reflexive   as for close, where neither book says the line itself
  --quiet          leave the notes out
",
    ),
    (
        "import",
        "\
usage: fitting import FILE.nt --kind KIND --when WHEN [--base IRI]
       fitting import FILE.csv [--kind KIND]

Prints a makers' list or a spreadsheet's table as a text.

  --kind KIND   the book's kind: \"years from 2000\", degree, strict, \"sheets
                maker, importer\", with its rule set if it has another:
                \"years from 2000 rules 2\". A table says it in its first line,
                behind subject, relation, object
  --when WHEN   when the lines of the list hold: \"2001-2005, 2007\", always
  --base IRI    names that begin so are written without it (urn:fitting:)
  --from FORM   nt or csv, where the file's name does not say it
",
    ),
    (
        "export",
        "\
usage: fitting export FILE --to nt --when WHEN [--closed [--no-reflexive]]
                           [--base IRI]
       fitting export FILE --to csv [--when WHEN] [--closed [--no-reflexive]]

Prints the book's lines as N-Triples or as a spreadsheet's table.

  --to FORM     nt or csv
  --when WHEN   only lines that hold in all of that: 2005, \"2001-2003\", 700; or
                any. N-Triples have no years, so it must be said for them
  --closed      what follows from the book too; --no-reflexive, which wants
                --closed, leaves out what is of the form A within A, A implies A
  --base IRI    what a plain name's IRI begins with (urn:fitting:)
",
    ),
    (
        "book",
        "\
usage: fitting book FILE > BYTES

Writes the book's bytes, for the program close_book and the C calls.
",
    ),
    (
        "questions",
        "\
usage: fitting questions FILE > BYTES

Writes the bytes of the book and of the questions, each behind its length, for
the program counter.
",
    ),
    (
        "names",
        "\
usage: fitting names FILE

Prints the number of each name in the bytes that `book` and `questions` write.
",
    ),
    (
        "text",
        "\
usage: fitting text FILE [--names LIST]

Prints the bytes of a book as a text.

  --names LIST   the names of the numbers, as `fitting names` prints them; a
                 number that has none is written name-10
",
    ),
];
