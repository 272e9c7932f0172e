//! One sealing or opening that the library is asked for, and the answer that it must give.

use crate::call::{open, seal, Answer};
use crate::edition::Mode;
use crate::hex;
use crate::key::Key;
use crate::record::Record;

/// What the output buffer holds everywhere before the call.
pub const FILL: u8 = 0xa5;

#[derive(Clone, Copy, PartialEq)]
pub enum Kind {
    Seal,
    Open,
}

#[derive(Clone)]
pub struct Request {
    pub kind: Kind,
    pub mode: Mode,
    pub key: Key,
    pub nonce: Vec<u8>,
    pub data: Vec<u8>,
    /// The message when sealing, the sealed bytes when opening.
    pub body: Vec<u8>,
    pub t: usize,
    pub room: usize,
}

impl Request {
    /// The answer and the complete output buffer after the call.
    pub fn call(&self) -> (Answer, Vec<u8>) {
        let mut output = vec![FILL; self.room];
        let call = match self.kind {
            Kind::Seal => seal,
            Kind::Open => open,
        };
        let answer = call(
            self.mode,
            &self.key,
            &self.nonce,
            &self.data,
            &self.body,
            self.t,
            &mut output,
        );
        (answer, output)
    }

    /// For a sealing that succeeds: the opening of what it wrote, with exact room.
    pub fn opening(&self) -> Option<Request> {
        let (answer, mut output) = self.call();
        if answer.number != 0 {
            return None;
        }
        output.truncate(answer.length);
        let room = self.body.len();
        Some(Request {
            kind: Kind::Open,
            body: output,
            room,
            ..self.clone()
        })
    }

    /// The same under its key's record, or under its record, after a change to that.
    pub fn under_record(&self, change: impl FnOnce(&mut Record)) -> Request {
        let mut record = self.key.record();
        change(&mut record);
        Request {
            key: Key::Prepared(Box::new(record)),
            ..self.clone()
        }
    }

    /// `seal|open EDITION FORM KEY NONCE DATA BODY TAG ROOM`, or
    /// `seal-with|open-with EDITION FORM ROUNDS WORDS ZERO NONCE DATA BODY TAG ROOM`, and the
    /// end of the line.
    pub fn request_line(&self) -> String {
        let name = match self.kind {
            Kind::Seal => "seal",
            Kind::Open => "open",
        };
        let (with, key) = match &self.key {
            Key::Raw(key) => ("", hex::field(key)),
            Key::Prepared(record) => ("-with", record.fields()),
        };
        let (mode, t, room) = (self.mode, self.t, self.room);
        let strings = [&self.nonce, &self.data, &self.body];
        let fields = strings.map(|bytes| hex::field(bytes)).join(" ");
        format!("{name}{with} {mode} {key} {fields} {t} {room}\n")
    }
}
