//! How associated data is processed: the two forms of 000, by their numbers (wish 1 of 02).

#[derive(Clone, Copy)]
pub enum Form {
    Parallel = 0,
    Serial = 1,
}

impl Form {
    pub fn named(number: usize) -> Option<Form> {
        match number {
            0 => Some(Form::Parallel),
            1 => Some(Form::Serial),
            _ => None,
        }
    }
}
