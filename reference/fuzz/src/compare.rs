//! Two answers, and what is said when they differ.

use std::fmt::{self, Debug};

pub struct Difference {
    what: &'static str,
    /// The arguments, as far as they help.
    call: String,
    ours: String,
    second: String,
}

pub type Compared = Result<(), Difference>;

/// Nothing, if the two answers are the same.
pub fn same<T: PartialEq + Debug>(
    what: &'static str,
    call: impl FnOnce() -> String,
    ours: T,
    second: T,
) -> Compared {
    if ours == second {
        return Ok(());
    }
    Err(Difference {
        what,
        call: call(),
        ours: format!("{ours:?}"),
        second: format!("{second:?}"),
    })
}

impl fmt::Display for Difference {
    fn fmt(&self, f: &mut fmt::Formatter) -> fmt::Result {
        writeln!(f, "a difference in {}", self.what)?;
        writeln!(f, "call: {}", self.call)?;
        writeln!(f, "ours: {}", self.ours)?;
        write!(f, "second program: {}", self.second)
    }
}
