//! How a command ends that is not done.

use crate::refusals;

/// A refusal: its number, what it is about, and words of its own where the general ones say too little.
pub struct Refusal {
    pub number: u8,
    pub about: String,
    pub words: Option<String>,
}

pub enum Trouble {
    /// The planner refused what was asked for.
    Refused(Refusal),
    /// The planner refused a file, and without it there is no answer of yes or no.
    NoBook(Refusal),
    /// What was asked for has no answer, and no number of the planner says why.
    Unfit(String),
    /// The words were not understood.
    Misused(String),
    /// A file or the engine failed.
    Failed(String),
}

impl Trouble {
    /// A refusal that is about something.
    pub fn refused(number: u8, about: impl Into<String>) -> Trouble {
        Trouble::Refused(Refusal { number, about: about.into(), words: None })
    }

    /// The same where a refused file is one that failed.
    pub fn of_file(self) -> Trouble {
        match self {
            Trouble::Refused(refusal) => Trouble::NoBook(refusal),
            other => other,
        }
    }

    /// The refusal that it is, if it is one.
    pub fn refusal(&self) -> Option<&Refusal> {
        match self {
            Trouble::Refused(refusal) | Trouble::NoBook(refusal) => Some(refusal),
            Trouble::Unfit(_) | Trouble::Misused(_) | Trouble::Failed(_) => None,
        }
    }

    /// The exit status.
    pub fn status(&self) -> u8 {
        match self {
            Trouble::Refused(_) | Trouble::Unfit(_) => 1,
            Trouble::NoBook(_) | Trouble::Misused(_) | Trouble::Failed(_) => 2,
        }
    }

    /// The line that says it.
    pub fn line(&self) -> String {
        match self {
            Trouble::Refused(refusal) | Trouble::NoBook(refusal) => refusal.line(),
            Trouble::Misused(said) => said.clone(),
            Trouble::Unfit(said) | Trouble::Failed(said) => format!("lindurask: {said}"),
        }
    }
}

/// What a number says.
pub fn meaning(number: u8) -> &'static str {
    refusals::words(number).expect("an answer's number has words")
}

impl Refusal {
    /// What it says.
    pub fn meaning(&self) -> &str {
        self.words.as_deref().unwrap_or_else(|| meaning(self.number))
    }

    /// The refusal as it is printed.
    pub fn line(&self) -> String {
        let said = format!("refused {}: {}", self.number, self.meaning());
        if self.about.is_empty() {
            return said;
        }
        format!("{said} ({})", self.about)
    }
}
