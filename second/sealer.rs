//! The calls of a sealer in parts (wish 3 of 02): begun with a raw key, fed, ended. It stays
//! with the third edition (wish 7), and so names none. It has one cipher from its beginning to
//! its end, whose counter goes on: a call reports what it added.

use crate::aes::Aes;
use crate::block::Cipher;
use crate::call::{checked_to_4, done, refused, Answer, MESSAGE_MAX};
use crate::edition::Mode;
use crate::key::Key;
use crate::otr_parts::OtrParts;

/// The default one counts as ended.
#[derive(Default)]
pub struct Sealer {
    /// None where it counts as ended.
    begun: Option<Begun>,
}

struct Begun {
    aes: Aes,
    parts: OtrParts,
}

impl Sealer {
    /// 8, then 1 to 4. The sealer of a beginning that is refused counts as ended.
    pub fn begin(form: usize, key: &[u8], nonce: &[u8], data: &[u8], t: usize) -> (Sealer, Answer) {
        let key = Key::Raw(key.to_vec());
        let mode = Mode::new(3, form);
        let (edition, aes, mask) = match checked_to_4(mode, &key, nonce, data, t) {
            Ok(checked) => checked,
            Err(number) => return (Sealer::default(), refused(number)),
        };
        let parts = OtrParts::begin(edition, &|b| aes.cipher(b), mask, t, nonce, data);
        let answer = done(&[], aes.runs(), &mut []);
        let begun = Some(Begun { aes, parts });
        (Sealer { begun }, answer)
    }

    /// 9, 5, 6, in this order.
    pub fn feed(&mut self, part: &[u8], output: &mut [u8]) -> Answer {
        let Some(begun) = &mut self.begun else {
            return refused(9);
        };
        if begun.parts.fed() + part.len() > MESSAGE_MAX {
            return refused(5);
        }
        if output.len() < begun.parts.due(part.len()) {
            return refused(6);
        }
        begun.done(output, |parts, e| parts.feed(e, part))
    }

    /// 9, then 6. Where it is done the sealer has ended.
    pub fn end(&mut self, output: &mut [u8]) -> Answer {
        let Some(begun) = &mut self.begun else {
            return refused(9);
        };
        if output.len() < begun.parts.due_at_end() {
            return refused(6);
        }
        let answer = begun.done(output, |parts, e| parts.end(e));
        self.begun = None;
        answer
    }

    /// None after the end.
    pub fn in_use(&self) -> Option<&OtrParts> {
        self.begun.as_ref().map(|begun| &begun.parts)
    }
}

impl Begun {
    fn done(
        &mut self,
        output: &mut [u8],
        step: impl FnOnce(&mut OtrParts, Cipher) -> Vec<u8>,
    ) -> Answer {
        let before = self.aes.runs();
        let given = step(&mut self.parts, &|b| self.aes.cipher(b));
        done(&given, self.aes.runs() - before, output)
    }
}
