//! The call that carries a record over to the other edition, and back: wish 8 of 02. The old
//! side opens the record into a work buffer, which the caller lends, and the new side seals the
//! message anew.

use crate::call::{checked_to_4, checked_to_5, open, refused, seal, Answer};
use crate::edition::Mode;
use crate::key::Key;

/// The side that refuses.
#[derive(Clone, Copy, Debug, PartialEq)]
pub enum Side {
    Neither = 0,
    Old = 1,
    New = 2,
}

/// What each side names. The edition is the old side's alone, and the key is always a raw one.
#[derive(Clone, Copy)]
pub struct Settings<'a> {
    pub form: usize,
    pub key: &'a [u8],
    pub nonce: &'a [u8],
    pub data: &'a [u8],
}

/// The output is written on 0 alone. The work buffer has zeros over the message's length on 0
/// and 7, and is left as it was otherwise.
pub fn carry(
    edition: usize,
    old: Settings,
    record: &[u8],
    t: usize,
    new: Settings,
    output: &mut [u8],
    work: &mut [u8],
) -> (Answer, Side) {
    if let Err((number, side)) = checked_sides(edition, old, record, t, new) {
        return (refused(number), side);
    }
    let message_bytes = record.len() - t;
    if output.len() < record.len() || work.len() < message_bytes {
        return (refused(6), Side::Neither);
    }
    if old.key == new.key {
        return (refused(11), Side::Neither);
    }
    let (mode, key) = old.named(edition);
    let opened = open(mode, &key, old.nonce, old.data, record, t, work);
    if opened.number == 7 {
        return (opened, Side::Old);
    }
    let (mode, key) = new.named(other_edition(edition));
    let message = &work[..message_bytes];
    let sealed = seal(mode, &key, new.nonce, new.data, message, t, output);
    work[..message_bytes].fill(0);
    let runs = opened.runs + sealed.runs;
    (Answer { runs, ..sealed }, Side::Neither)
}

/// The old side's 10, 8 and 1 to 5, then the new side's 8, 1, 2 and 4: its edition is one, and
/// the tag length, which both sides have, is checked by then.
fn checked_sides(
    edition: usize,
    old: Settings,
    record: &[u8],
    t: usize,
    new: Settings,
) -> Result<(), (u8, Side)> {
    let (mode, key) = old.named(edition);
    checked_to_5(mode, &key, old.nonce, old.data, record, t)
        .map_err(|number| (number, Side::Old))?;
    let (mode, key) = new.named(other_edition(edition));
    checked_to_4(mode, &key, new.nonce, new.data, t).map_err(|number| (number, Side::New))?;
    Ok(())
}

/// Asked of 1 and of 3 alone.
pub fn other_edition(edition: usize) -> usize {
    match edition {
        1 => 3,
        _ => 1,
    }
}

impl Settings<'_> {
    fn named(&self, edition: usize) -> (Mode, Key) {
        (Mode::new(edition, self.form), Key::Raw(self.key.to_vec()))
    }
}
