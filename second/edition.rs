//! Which AES-OTR a call names: the edition, and the form of its data (wishes 1 and 7 of 02).

use std::fmt::{self, Display, Formatter};

use crate::form::Form;

/// The two numbers with which a call begins, whatever they are.
#[derive(Clone, Copy, PartialEq)]
pub struct Mode {
    pub edition: usize,
    pub form: usize,
}

pub const THIRD_PARALLEL: Mode = Mode::new(3, 0);
pub const THIRD_SERIAL: Mode = Mode::new(3, 1);
pub const FIRST: Mode = Mode::new(1, 0);
/// All that name something.
pub const MODES: [Mode; 3] = [THIRD_PARALLEL, THIRD_SERIAL, FIRST];

/// What they name.
#[derive(Clone, Copy)]
pub enum Edition {
    /// 003, figure 1: wish 7 has its parallel data alone.
    First,
    /// 000, figure 1 or 3.
    Third(Form),
}

impl Mode {
    pub const fn new(edition: usize, form: usize) -> Mode {
        Mode { edition, form }
    }

    /// 10 for an edition that is none, then 8 for a form that the edition does not have.
    pub fn checked(self) -> Result<Edition, u8> {
        match (self.edition, Form::named(self.form)) {
            (1, Some(Form::Parallel)) => Ok(Edition::First),
            (3, Some(form)) => Ok(Edition::Third(form)),
            (1 | 3, _) => Err(8),
            _ => Err(10),
        }
    }
}

/// `EDITION FORM`.
impl Display for Mode {
    fn fmt(&self, f: &mut Formatter) -> fmt::Result {
        write!(f, "{} {}", self.edition, self.form)
    }
}

impl Edition {
    pub fn mode(self) -> Mode {
        match self {
            Edition::First => FIRST,
            Edition::Third(Form::Parallel) => THIRD_PARALLEL,
            Edition::Third(Form::Serial) => THIRD_SERIAL,
        }
    }
}
