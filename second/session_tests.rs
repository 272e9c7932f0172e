//! Tests of what `parts` and `standin-parts` write (wish 3 of 02).

use crate::call::MESSAGE_MAX;
use crate::console_sealer::ConsoleSealer;
use crate::data_pass::FirstMask;
use crate::edition::{Mode, THIRD_SERIAL};
use crate::exchange::Exchange;
use crate::key::Key;
use crate::otr::otr_e;
use crate::parts;
use crate::parts_tests::given_out;
use crate::request::{Kind, Request, FILL};
use crate::rules;
use crate::runs_tests::{parallel_formula, sealing};
use crate::standin::stand_in;
use crate::standin_parts;
use crate::tests::bytes;

#[test]
fn the_lines_of_wish_3() {
    let mut console = ConsoleSealer::default();
    let begin = "begin 1 02132435465768798a9bacbdcedff001 010e1b2835424f5c69768390 - 16\n";
    let begun = console.begin(&sealing(THIRD_SERIAL, 16, 0, 0));
    assert_eq!([begun.request, begun.answer], [begin, "0 0 1 -\n"]);
    let fed = console.feed(&[], 0);
    assert_eq!([fed.request, fed.answer], ["feed - 0\n", "0 0 0 -\n"]);
    let fed = console.feed(&[0x5a], 2);
    assert_eq!([fed.request, fed.answer], ["feed 5a 2\n", "0 0 0 a5a5\n"]);
    let ended = console.end(18);
    assert_eq!(ended.request, "end 18\n");
    assert!(ended.answer.starts_with("0 17 2 ") && ended.answer.ends_with("a5\n"));
    let ended = console.end(0);
    assert_eq!([ended.request, ended.answer], ["end 0\n", "9 0 0 -\n"]);
}

/// A line of the fixed sessions, and its answer.
struct Line {
    words: Vec<String>,
    number: usize,
    length: usize,
    runs: usize,
    output: Vec<u8>,
}

impl Line {
    fn name(&self) -> &str {
        &self.words[0]
    }

    fn bytes(&self, place: usize) -> Vec<u8> {
        field(&self.words[place])
    }

    fn decimal(&self, place: usize) -> usize {
        self.words[place].parse().unwrap()
    }
}

pub fn field(text: &str) -> Vec<u8> {
    match text {
        "-" => Vec::new(),
        _ => bytes(text),
    }
}

fn fixed_lines() -> Vec<Line> {
    let words = |text: &str| text.split(' ').map(str::to_string).collect();
    let line = |exchange: Exchange| {
        let answer: Vec<String> = words(exchange.answer.trim_end());
        let [number, length, runs] = [0, 1, 2].map(|place| answer[place].parse().unwrap());
        Line {
            words: words(exchange.request.trim_end()),
            number,
            length,
            runs,
            output: field(&answer[3]),
        }
    };
    parts::fixed().into_iter().map(line).collect()
}

/// What the accepted calls have fed and given since `begin`.
struct InUse {
    sealing: Request,
    joined: Vec<u8>,
    runs: usize,
}

impl InUse {
    fn begun(line: &Line) -> InUse {
        let sealing = Request {
            kind: Kind::Seal,
            mode: Mode::new(3, line.decimal(1)),
            key: Key::Raw(line.bytes(2)),
            nonce: line.bytes(3),
            data: line.bytes(4),
            body: Vec::new(),
            t: line.decimal(5),
            room: 0,
        };
        InUse {
            sealing,
            joined: Vec::new(),
            runs: line.runs,
        }
    }

    fn accepted(&mut self, line: &Line) {
        self.joined.extend(&line.output[..line.length]);
        self.runs += line.runs;
    }

    fn fed(&mut self, line: &Line) {
        self.accepted(line);
        self.sealing.body.extend(line.bytes(1));
        assert_eq!(self.joined.len(), given_out(self.sealing.body.len()));
    }

    fn ended(mut self, line: &Line) {
        self.accepted(line);
        self.sealing.room = self.joined.len();
        let (answer, output) = self.sealing.call();
        assert_eq!((answer.number, answer.runs), (0, self.runs));
        assert_eq!(self.joined, output);
    }
}

/// The fixed sessions as they are written, each against the one call that it says.
#[test]
fn the_fixed_sessions_seal_what_one_call_seals() {
    let (mut ends, mut in_use) = (0, None);
    for line in fixed_lines() {
        let behind = &line.output[line.length..];
        assert!(behind.iter().all(|&byte| byte == FILL));
        match (line.name(), line.number) {
            ("begin", 0) => in_use = Some(InUse::begun(&line)),
            ("begin", _) => in_use = None,
            ("feed", 0) => in_use.as_mut().unwrap().fed(&line),
            ("end", 0) => {
                in_use.take().unwrap().ended(&line);
                ends += 1;
            }
            (_, number) => assert_eq!(number == 9, in_use.is_none()),
        }
    }
    assert!(ends > 350);
}

#[test]
fn the_fixed_sessions_meet_every_answer() {
    let lines = fixed_lines();
    let first = lines[..2].iter().map(|line| (line.name(), line.number));
    assert!(first.eq([("feed", 9), ("end", 9)]));
    for (name, numbers) in [
        ("begin", &[0, 8, 1, 2, 3, 4][..]),
        ("feed", &[0, 9, 5, 6]),
        ("end", &[0, 9, 6]),
    ] {
        for &number in numbers {
            let meets = |line: &Line| line.name() == name && line.number == number;
            assert!(lines.iter().any(meets), "{name} {number}");
        }
    }
    let far_too_long = |line: &Line| {
        line.name() == "feed" && line.bytes(1).len() > MESSAGE_MAX && line.output.len() < 1_000
    };
    assert!(lines.iter().any(|l| far_too_long(l) && l.number == 9));
    assert!(lines.iter().any(|l| far_too_long(l) && l.number == 5));
}

/// Right behind `begin`, right before `end`, and between.
#[test]
fn the_fixed_sessions_have_empty_parts_everywhere() {
    let lines = fixed_lines();
    let empty = |line: &Line| line.name() == "feed" && line.words[1] == "-" && line.number == 0;
    for (before, behind) in [("begin", "feed"), ("feed", "feed"), ("feed", "end")] {
        assert!(lines.windows(3).any(|three| {
            three[0].name() == before && empty(&three[1]) && three[2].name() == behind
        }));
    }
}

/// `FORM DATALEN K T BEGINRUNS`, then `PARTLEN/RUNS/OUTLEN/HEX` for each part and for the end.
#[test]
fn the_rows_joined_are_what_one_call_seals() {
    let rows = standin_parts::command();
    for row in rows.lines() {
        let fields: Vec<&str> = row.split(' ').collect();
        let number = |text: &str| text.parse::<usize>().unwrap();
        let [form, data, k, t, mut runs] = [0, 1, 2, 3, 4].map(|place| number(fields[place]));
        let (mut message, mut given, mut joined) = (0, 0, Vec::new());
        for group in &fields[5..] {
            let group: Vec<&str> = group.split('/').collect();
            if group[0] != "end" {
                message += number(group[0]);
            }
            runs += number(group[1]);
            if group[3] != "0" {
                joined.extend(bytes(group[3]));
            }
            given += number(group[2]);
            assert_eq!(joined.len(), given);
        }
        let (n, a, m) = (rules::nonce(k), rules::data(data), rules::message(message));
        let edition = Mode::new(3, form).checked().unwrap();
        let (c, tag) = otr_e(edition, &stand_in, FirstMask::Ciphered, t, &n, &a, &m);
        assert_eq!(joined, [c, tag].concat(), "{row}");
        assert_eq!(runs, parallel_formula(data, message), "{row}");
    }
    assert_eq!(rows.lines().count(), 10);
}
