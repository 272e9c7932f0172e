//! The console's one sealer (wish 3 of 02): the lines to it, and the lines that it must answer.

use crate::exchange::Exchange;
use crate::hex;
use crate::request::{Request, FILL};
use crate::sealer::Sealer;

/// Before the first beginning its sealer counts as ended.
#[derive(Default)]
pub struct ConsoleSealer {
    pub sealer: Sealer,
}

impl ConsoleSealer {
    /// `begin FORM KEY NONCE DATA TAG`, as the sealing has them; its key is a raw one.
    /// It names no edition. Refused or not, another sealer takes the place of the one that was
    /// there.
    pub fn begin(&mut self, sealing: &Request) -> Exchange {
        let (form, t) = (sealing.mode.form, sealing.t);
        let (nonce, data) = (&sealing.nonce, &sealing.data);
        let key = sealing.key.raw().expect("a sealer takes a raw key");
        let (sealer, answer) = Sealer::begin(form, key, nonce, data, t);
        self.sealer = sealer;
        let strings = [key, nonce, data].map(hex::field).join(" ");
        Exchange::answered(format!("begin {form} {strings} {t}\n"), &answer, &[])
    }

    /// `feed PART ROOM`.
    pub fn feed(&mut self, part: &[u8], room: usize) -> Exchange {
        let mut output = vec![FILL; room];
        let answer = self.sealer.feed(part, &mut output);
        let request = format!("feed {} {room}\n", hex::field(part));
        Exchange::answered(request, &answer, &output)
    }

    /// `end ROOM`.
    pub fn end(&mut self, room: usize) -> Exchange {
        let mut output = vec![FILL; room];
        let answer = self.sealer.end(&mut output);
        Exchange::answered(format!("end {room}\n"), &answer, &output)
    }
}
