//! `fitting COMMAND FILE`: fitting books and questions as text.

use std::process::ExitCode;

#[cfg(proved)]
fn main() -> ExitCode {
    fitting::program::main(Some(&fitting::proved::Proved))
}

#[cfg(not(proved))]
fn main() -> ExitCode {
    fitting::program::main(None)
}
