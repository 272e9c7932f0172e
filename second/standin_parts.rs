//! The command `standin-parts`: rows of sealers in parts (wish 3 of 02) over the stand-in
//! cipher in E's place.

use crate::data_pass::FirstMask;
use crate::edition::Edition::Third;
use crate::form::Form::{self, Parallel, Serial};
use crate::hex;
use crate::otr_parts::OtrParts;
use crate::rows::counted;
use crate::rules;
use crate::standin::stand_in;

/// The form, the lengths of data and nonce, t, and the lengths of the parts.
type Row = (Form, usize, usize, usize, &'static [usize]);

const ROWS: [Row; 10] = [
    (Parallel, 0, 12, 16, &[]),
    (Serial, 5, 12, 16, &[0]),
    (Parallel, 5, 15, 15, &[31, 0, 1, 1]),
    (Serial, 16, 12, 16, &[32, 1]),
    (Parallel, 17, 1, 4, &[16, 16]),
    (Serial, 0, 15, 15, &[33]),
    (Parallel, 0, 12, 16, &[64, 1]),
    (Serial, 17, 1, 4, &[65, 31, 0]),
    (Parallel, 16, 12, 16, &[20, 30, 50]),
    (Serial, 5, 12, 16, &[1, 1, 31, 32, 33]),
];

pub fn command() -> String {
    ROWS.map(line).concat()
}

/// `FORM DATALEN K T BEGINRUNS`, a group for each part, one for the end, and the end of the
/// line. The parts follow each other in the message.
fn line((form, data, k, t, parts): Row) -> String {
    let (n, a) = (rules::nonce(k), rules::data(data));
    let (mut sealer, runs) = counted(&stand_in, |e| {
        OtrParts::begin(Third(form), e, FirstMask::Ciphered, t, &n, &a)
    });
    let mut line = format!("{} {data} {k} {t} {runs}", form as usize);
    let message = rules::message(parts.iter().sum());
    let mut rest = &message[..];
    for &len in parts {
        let (part, behind) = rest.split_at(len);
        rest = behind;
        let (given, runs) = counted(&stand_in, |e| sealer.feed(e, part));
        line += &group(&len.to_string(), runs, &given);
    }
    let (given, runs) = counted(&stand_in, |e| sealer.end(e));
    line + &group("end", runs, &given) + "\n"
}

/// ` PARTLEN/RUNS/OUTLEN/HEX`, with `end` for the part at the end. HEX is 0 for no bytes, since
/// it is read as a number.
fn group(part: &str, runs: usize, given: &[u8]) -> String {
    let hex = match given {
        [] => "0".to_string(),
        _ => hex::encode(given),
    };
    format!(" {part}/{runs}/{}/{hex}", given.len())
}
