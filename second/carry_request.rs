//! One carrying that the library is asked for (wish 8 of 02), and the answer that it must give.

use crate::call::Answer;
use crate::carrying::{carry, other_edition, Settings, Side};
use crate::edition::Mode;
use crate::hex;
use crate::request::{Kind, Request, FILL};

#[derive(Clone)]
pub struct CarryRequest {
    /// The record's opening, with the work buffer for its output.
    pub old: Request,
    /// The sealing of its message anew. Its edition, message and tag length are not asked for:
    /// they follow from the old side.
    pub new: Request,
}

/// What the call answers, and both buffers after it.
pub struct Carried {
    pub answer: Answer,
    pub side: Side,
    pub output: Vec<u8>,
    pub work: Vec<u8>,
}

impl CarryRequest {
    /// What a sound sealing seals, carried over to the settings of another, with exact rooms.
    pub fn of(sealing: &Request, to: Request) -> CarryRequest {
        let old = sealing.opening().expect("what is carried was sealed");
        let new = Request {
            body: sealing.body.clone(),
            t: sealing.t,
            room: old.body.len(),
            ..to
        };
        CarryRequest { old, new }
    }

    pub fn call(&self) -> Carried {
        let mut output = vec![FILL; self.new.room];
        let mut work = vec![FILL; self.old.room];
        let (answer, side) = carry(
            self.old.mode.edition,
            settings(&self.old),
            &self.old.body,
            self.old.t,
            settings(&self.new),
            &mut output,
            &mut work,
        );
        Carried {
            answer,
            side,
            output,
            work,
        }
    }

    /// Where it is done: what it wrote carried back, the sides exchanged, with exact rooms.
    pub fn back(&self) -> Option<CarryRequest> {
        let Carried { answer, output, .. } = self.call();
        if answer.number != 0 {
            return None;
        }
        let old = Request {
            kind: Kind::Open,
            mode: Mode {
                edition: other_edition(self.old.mode.edition),
                ..self.new.mode
            },
            body: output[..answer.length].to_vec(),
            t: self.old.t,
            room: answer.length - self.old.t,
            ..self.new.clone()
        };
        let new = Request {
            kind: Kind::Seal,
            body: self.new.body.clone(),
            room: answer.length,
            ..self.old.clone()
        };
        Some(CarryRequest { old, new })
    }

    /// `carry`, the log, `ROOM WORKROOM`, and the end of the line.
    pub fn request_line(&self) -> String {
        let (log, room, work_room) = (self.log(), self.new.room, self.old.room);
        format!("carry {log} {room} {work_room}\n")
    }

    /// `EDITION FORM KEY NONCE DATA TAG RECORD FORM2 KEY2 NONCE2 DATA2`: one line of an archive.
    pub fn log(&self) -> String {
        let (edition, t) = (self.old.mode.edition, self.old.t);
        let [old, new] = [&self.old, &self.new].map(|side| fields(settings(side)));
        let record = hex::field(&self.old.body);
        format!("{edition} {old} {t} {record} {new}")
    }
}

fn settings(side: &Request) -> Settings<'_> {
    Settings {
        form: side.mode.form,
        key: side.key.raw().expect("carrying takes raw keys"),
        nonce: &side.nonce,
        data: &side.data,
    }
}

/// `FORM KEY NONCE DATA`.
fn fields(settings: Settings) -> String {
    let strings = [settings.key, settings.nonce, settings.data];
    format!("{} {}", settings.form, strings.map(hex::field).join(" "))
}
