//! What wish 13 of 02 has the library asked for, a sealing by a plan and a plan, and the answer
//! that it must give.

use crate::call::Answer;
use crate::hex;
use crate::plan::{pairs, plan_bytes, Entry};
use crate::planned::{plan, seal_planned};
use crate::request::{Request, FILL};

#[derive(Clone)]
pub struct PlannedRequest {
    /// The sealing by one call, in edition 3 with parallel data: these are not asked for.
    pub sealing: Request,
    pub plan: Vec<u8>,
}

impl PlannedRequest {
    pub fn of(sealing: &Request, plan: &[Entry]) -> PlannedRequest {
        PlannedRequest {
            sealing: sealing.clone(),
            plan: plan_bytes(plan),
        }
    }

    /// How many pairs its message has.
    pub fn pairs(&self) -> usize {
        pairs(self.sealing.body.len())
    }

    /// The answer and the complete output buffer after the call.
    pub fn call(&self) -> (Answer, Vec<u8>) {
        let mut output = vec![FILL; self.sealing.room];
        let answer = seal_planned(
            self.key(),
            &self.sealing.nonce,
            &self.sealing.data,
            &self.sealing.body,
            &self.plan,
            self.sealing.t,
            &mut output,
        );
        (answer, output)
    }

    /// `seal-planned KEY NONCE DATA MESSAGE PLAN TAG ROOM`, and the end of the line.
    pub fn request_line(&self) -> String {
        let Request {
            nonce, data, body, ..
        } = &self.sealing;
        let strings = [self.key(), nonce, data, body, &self.plan];
        let fields = strings.map(hex::field).join(" ");
        let (t, room) = (self.sealing.t, self.sealing.room);
        format!("seal-planned {fields} {t} {room}\n")
    }

    fn key(&self) -> &[u8] {
        let key = self.sealing.key.raw();
        key.expect("sealing by a plan takes a raw key")
    }
}

/// A plan for a message of so many bytes.
#[derive(Clone, Copy)]
pub struct Planning {
    pub length: usize,
    pub room: usize,
}

impl Planning {
    /// The answer and the complete output buffer after the call.
    pub fn call(&self) -> (Answer, Vec<u8>) {
        let mut output = vec![FILL; self.room];
        let answer = plan(self.length, &mut output);
        (answer, output)
    }

    /// `plan LENGTH ROOM`, and the end of the line.
    pub fn request_line(&self) -> String {
        format!("plan {} {}\n", self.length, self.room)
    }
}
