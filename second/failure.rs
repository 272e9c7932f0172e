//! How a command fails: a text for stderr and the exit status.

pub struct Failure {
    pub status: u8,
    pub text: String,
}

/// A command line or a file that cannot be used.
pub fn bad_input(text: String) -> Failure {
    Failure { status: 2, text }
}

/// A known answer that this program does not give.
pub fn differs(text: String) -> Failure {
    Failure { status: 1, text }
}
