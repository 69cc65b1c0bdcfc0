//! What went wrong: words for standard error, and the status to end with.

use mittenhelm::Refusal;
use std::fmt::{self, Display};

/// A refusal by the library, or a result that couldn't be written.
const FAILED: u8 = 1;
/// Arguments or a part's file that can't be used.
const UNUSABLE: u8 = 2;

#[derive(Debug)]
pub struct Fault {
    words: String,
    status: u8,
}

impl Fault {
    pub fn arguments(words: impl Display) -> Self {
        Fault { words: format!("{words} (mittenhelm --help tells more)"), status: UNUSABLE }
    }

    pub fn file(name: &str, words: impl Display) -> Self {
        Fault { words: format!("{name}: {words}"), status: UNUSABLE }
    }

    pub fn output(words: impl Display) -> Self {
        Fault { words: words.to_string(), status: FAILED }
    }

    /// A refusal, and what tells more of it, on its line or on others.
    pub fn refusal(refusal: Refusal, more: &str) -> Self {
        Fault { words: format!("{refusal}{more}"), status: FAILED }
    }

    pub fn status(&self) -> u8 {
        self.status
    }
}

impl Display for Fault {
    fn fmt(&self, f: &mut fmt::Formatter<'_>) -> fmt::Result {
        f.write_str(self.words.trim_end())
    }
}

/// A refusal that no argument leads to.
impl From<Refusal> for Fault {
    fn from(refusal: Refusal) -> Self {
        Fault::refusal(refusal, "")
    }
}
