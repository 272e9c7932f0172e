//! One line to the console, and the line that it must answer, each with its end.

use crate::call::Answer;
use crate::carry_request::CarryRequest;
use crate::hex;
use crate::planned_request::{PlannedRequest, Planning};
use crate::record::prepare;
use crate::request::Request;

pub struct Exchange {
    pub request: String,
    pub answer: String,
}

impl Exchange {
    pub fn of_call(request: &Request) -> Exchange {
        let (answer, output) = request.call();
        Exchange::answered(request.request_line(), &answer, &output)
    }

    /// The request's line as it stands, answered by `NUMBER LENGTH RUNS OUTPUT`.
    pub fn answered(request: String, answer: &Answer, output: &[u8]) -> Exchange {
        let (number, length, runs) = (answer.number, answer.length, answer.runs);
        Exchange {
            request,
            answer: format!("{number} {length} {runs} {}\n", hex::field(output)),
        }
    }

    /// `prepare KEY`, answered by `NUMBER RUNS ROUNDS WORDS ZERO`.
    pub fn of_preparing(key: &[u8]) -> Exchange {
        let prepared = prepare(key);
        let (number, runs) = (prepared.number, prepared.runs);
        Exchange {
            request: format!("prepare {}\n", hex::field(key)),
            answer: format!("{number} {runs} {}\n", prepared.record.fields()),
        }
    }

    /// A carrying, answered by `NUMBER SIDE LENGTH RUNS OUTPUT WORK`.
    pub fn of_carrying(request: &CarryRequest) -> Exchange {
        let carried = request.call();
        let (side, answer) = (carried.side as u8, carried.answer);
        let [output, work] = [carried.output, carried.work].map(|buffer| hex::field(&buffer));
        let (number, length, runs) = (answer.number, answer.length, answer.runs);
        Exchange {
            request: request.request_line(),
            answer: format!("{number} {side} {length} {runs} {output} {work}\n"),
        }
    }

    pub fn of_planned(request: &PlannedRequest) -> Exchange {
        let (answer, output) = request.call();
        Exchange::answered(request.request_line(), &answer, &output)
    }

    pub fn of_planning(request: &Planning) -> Exchange {
        let (answer, output) = request.call();
        Exchange::answered(request.request_line(), &answer, &output)
    }
}
