//! The program over the model in place of the proved library: for the tests.

#[path = "../tests/common/model.rs"]
mod model;

fn main() -> std::process::ExitCode {
    fitting::program::main(Some(&model::Model))
}
