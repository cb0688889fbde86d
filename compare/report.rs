//! What a comparison gives: how many cases agreed, or the first that did not.

use std::fmt::Debug;

pub struct Disagreement {
    pub input: String,
    pub gave: String,
    pub expected: String,
}

/// One compared case.
pub type Case = Result<(), Disagreement>;

/// The input is only written out where the two differ.
pub fn same<T: PartialEq + Debug>(gave: T, expected: T, input: impl FnOnce() -> String) -> Case {
    if gave == expected {
        return Ok(());
    }
    Err(Disagreement { input: input(), gave: format!("{gave:?}"), expected: format!("{expected:?}") })
}

/// Prints a part's cases as tried and agreeing, or its first disagreement; false for the latter, and where no case was tried.
pub fn tell(part: &str, cases: Result<usize, Disagreement>) -> bool {
    match cases {
        Ok(0) => println!("{part}: NO CASE was tried"),
        Ok(count) => println!("{part}: {count} cases, agrees"),
        Err(Disagreement { ref input, ref gave, ref expected }) => {
            println!("{part}: DISAGREES\n  input    {input}\n  gave     {gave}\n  expected {expected}")
        }
    }
    cases.is_ok_and(|count| count > 0)
}
