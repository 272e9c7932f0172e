//! Sessions with the console's sealer: messages begun, fed in parts and ended, with empty parts
//! and refused calls between. A refused call leaves the sealer as it was, so the session goes
//! on behind it.

use crate::call::MESSAGE_MAX;
use crate::console_sealer::ConsoleSealer;
use crate::division::Division;
use crate::exchange::Exchange;
use crate::generator::Generator;
use crate::otr_parts::OtrParts;
use crate::request::Request;

pub struct Session<'a> {
    pub draw: &'a mut Generator,
    pub exchanges: Vec<Exchange>,
    console: ConsoleSealer,
}

impl Session<'_> {
    pub fn new(draw: &mut Generator) -> Session<'_> {
        Session {
            draw,
            exchanges: Vec::new(),
            console: ConsoleSealer::default(),
        }
    }

    /// What the sealing seals in one call.
    pub fn seal(&mut self, sealing: &Request, division: Division) {
        self.begin(sealing);
        for part in division.parts(self.draw, &sealing.body) {
            self.something_between();
            self.feed(part);
        }
        self.something_between();
        self.end();
        if self.draw.one_in(6) {
            let len = self.draw.pick(&[0, 1, 40]);
            self.ended(len);
        }
    }

    /// A sealer in use: it is not ended.
    pub fn begin_and_feed(&mut self, sealing: &Request) {
        self.begin(sealing);
        self.feed(&sealing.body);
    }

    pub fn begin(&mut self, sealing: &Request) {
        let exchange = self.console.begin(sealing);
        self.exchanges.push(exchange);
    }

    /// In room enough, at times first in one byte too few. Of a part that goes too far, what
    /// can still be fed follows at times.
    pub fn feed(&mut self, part: &[u8]) {
        let due = self.of_sealer(|parts| parts.due(part.len()));
        if due > 0 && self.draw.one_in(3) {
            self.feed_in_room(part, due - 1);
        }
        let left = self.of_sealer(left);
        let room = due + self.some_slack();
        self.feed_in_room(part, room);
        if part.len() > left && self.draw.one_in(2) {
            self.feed(&part[..left]);
        }
    }

    /// Likewise.
    pub fn end(&mut self) {
        let due = self.of_sealer(OtrParts::due_at_end);
        if due > 0 && self.draw.one_in(3) {
            self.end_in_room(due - 1);
        }
        let room = due + self.some_slack();
        self.end_in_room(room);
    }

    /// After the end: so many bytes fed, and an end, with room or without.
    pub fn ended(&mut self, len: usize) {
        let part = self.draw.bytes(len);
        let rooms = [0, 1, 40];
        let room = self.draw.pick(&rooms);
        self.feed_in_room(&part, room);
        let room = self.draw.pick(&rooms);
        self.end_in_room(room);
    }

    /// Mostly nothing: an empty part, an end in too little room, a part too long.
    fn something_between(&mut self) {
        match self.draw.below(16) {
            0 | 1 => self.feed(&[]),
            2 => {
                let due = self.of_sealer(OtrParts::due_at_end);
                let room = self.draw.below(due.max(1));
                self.end_in_room(room);
            }
            3 => self.too_long(),
            _ => {}
        }
    }

    /// One byte too many or two, with no room or with enough. Seldom where much can still be
    /// fed, since such a line is long.
    fn too_long(&mut self) {
        let left = self.of_sealer(left);
        if left < 100 || self.draw.one_in(4) {
            let len = left + 1 + self.draw.below(2);
            let part = self.draw.bytes(len);
            let due = self.of_sealer(|parts| parts.due(len));
            let room = self.draw.pick(&[0, due]);
            self.feed_in_room(&part, room);
        }
    }

    /// A number of the sealer's; 0 after its end.
    fn of_sealer(&self, number: impl FnOnce(&OtrParts) -> usize) -> usize {
        self.console.sealer.in_use().map_or(0, number)
    }

    fn some_slack(&mut self) -> usize {
        self.draw.pick(&[0, 0, 1, 7])
    }

    fn feed_in_room(&mut self, part: &[u8], room: usize) {
        let exchange = self.console.feed(part, room);
        self.exchanges.push(exchange);
    }

    fn end_in_room(&mut self, room: usize) {
        let exchange = self.console.end(room);
        self.exchanges.push(exchange);
    }
}

/// How many bytes can still be fed.
fn left(parts: &OtrParts) -> usize {
    MESSAGE_MAX - parts.fed()
}
