//! Tests in a row: the first that fails ends them with its number.

/// A result, or document 01's number of the refusal.
pub type Checked<T> = Result<T, u32>;

/// The number unless the test passes.
pub fn check(number: u32, passes: bool) -> Checked<()> {
    if passes {
        Ok(())
    } else {
        Err(number)
    }
}

/// The number where there is nothing.
pub fn given<T>(number: u32, option: Option<T>) -> Checked<T> {
    option.ok_or(number)
}
