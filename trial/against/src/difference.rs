//! What the library and the model gave, compared.

/// What differed, with the input it differed on.
pub type Difference = String;

/// Compares what the two gave; `input` is only put together where they differ.
pub fn same<T: PartialEq + std::fmt::Debug>(
    what: &str,
    proved: &T,
    model: &T,
    input: impl FnOnce() -> String,
) -> Result<(), Difference> {
    if proved == model {
        return Ok(());
    }
    Err(format!("{what}\n  proved: {proved:?}\n  model:  {model:?}\n  input:  {}", input()))
}
