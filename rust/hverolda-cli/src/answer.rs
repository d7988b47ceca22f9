//! How a run ends.

/// The exit status; of several inputs' the gravest, which stands lowest here.
#[derive(Clone, Copy, PartialEq, Eq, PartialOrd, Ord)]
pub enum Status {
    /// Accepted, same, present, new.
    Yes,
    /// Refused, different, absent, a copy.
    No,
    /// Refused by Judge, where `No` means that it is on the shelf.
    Refused,
    /// There is no answer.
    Trouble,
}

impl Status {
    pub fn number(self) -> i32 {
        match self {
            Status::Yes => 0,
            Status::No => 1,
            Status::Refused => 3,
            Status::Trouble => 2,
        }
    }
}

/// What ends the command at once.
pub enum Trouble {
    /// It was not asked as its usage says.
    Usage(String),
    /// Standard output cannot be written.
    Output(std::io::Error),
    /// A file of this name that is changed, or that all else needs, is in trouble.
    File(String, std::io::Error),
    /// The store of a mailbox says this.
    #[cfg(feature = "mailbox")]
    Store(String),
}

pub fn usage<T>(message: &str) -> Result<T, Trouble> {
    Err(Trouble::Usage(message.to_string()))
}
