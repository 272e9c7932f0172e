//! Tests of carrying records over to the other edition, and back (wish 8 of 02).

use crate::archive::archive_and_carried;
use crate::carry_faults::{pairs, two_faults, Fault};
use crate::carry_keys::pairs_of_keys;
use crate::carry_request::{Carried, CarryRequest};
use crate::carry_requests::{carrying, fixed, usual, WAYS};
use crate::carrying::Side::{self, Neither, New, Old};
use crate::carrying::{carry, Settings};
use crate::edition::{Mode, FIRST, THIRD_PARALLEL, THIRD_SERIAL};
use crate::exchange::Exchange;
use crate::form::Form;
use crate::generator::Generator;
use crate::hex;
use crate::key::Key;
use crate::random_carry::random_carry;
use crate::request::{Request, FILL};
use crate::rules;
use crate::runs_tests::{parallel_formula, sealing};
use crate::seam_lengths::{Lengths, MESSAGES, USUAL};
use crate::session_tests::field;
use crate::tests::bytes;

fn number_and_side(request: &CarryRequest) -> (u8, Side) {
    let carried = request.call();
    (carried.answer.number, carried.side)
}

/// A request with every fault, mended one by one: what is refused next.
#[test]
fn each_check_comes_in_its_place() {
    for way in WAYS {
        let sound = &usual(&mut Generator::new(1), way);
        let mut request = with_every_fault(sound);
        assert_eq!(number_and_side(&request), (10, Old));
        let mut mended = |mend: fn(&mut CarryRequest, &CarryRequest), number, side| {
            mend(&mut request, sound);
            assert_eq!(number_and_side(&request), (number, side));
        };
        mended(|r, s| r.old.mode.edition = s.old.mode.edition, 8, Old);
        mended(|r, s| r.old.mode.form = s.old.mode.form, 1, Old);
        mended(|r, s| r.old.key = s.old.key.clone(), 2, Old);
        mended(|r, s| r.old.nonce = s.old.nonce.clone(), 3, Old);
        mended(|r, s| r.old.t = s.old.t, 4, Old);
        mended(|r, s| r.old.data = s.old.data.clone(), 5, Old);
        mended(|r, s| r.old.body.truncate(s.old.body.len()), 8, New);
        mended(|r, s| r.new.mode.form = s.new.mode.form, 1, New);
        mended(|r, s| r.new.key = s.old.key.clone(), 2, New);
        mended(|r, s| r.new.nonce = s.new.nonce.clone(), 4, New);
        mended(|r, s| r.new.data = s.new.data.clone(), 6, Neither);
        mended(|r, s| r.new.room = s.new.room, 6, Neither);
        mended(|r, s| r.old.room = s.old.room, 11, Neither);
        mended(|r, s| r.new.key = s.new.key.clone(), 7, Old);
        mended(|r, s| r.old.body = s.old.body.clone(), 0, Neither);
    }
}

fn with_every_fault(sound: &CarryRequest) -> CarryRequest {
    let mut request = sound.clone();
    for side in [&mut request.old, &mut request.new] {
        side.mode = Mode::new(2, 2);
        side.key = Key::Raw(rules::key(17));
        side.nonce = Vec::new();
        side.data = rules::data(4_097);
        side.t = 3;
        side.room = 0;
    }
    request.old.body = rules::message(16_384 + 17);
    request
}

#[test]
fn of_two_faults_the_one_checked_first_is_the_answer() {
    for way in WAYS {
        let requests = two_faults(&mut Generator::new(1), way);
        assert_eq!(requests.len(), 15 + 105 - 1);
        for (request, (first, second)) in requests.iter().zip(pairs()) {
            assert!(has(request, first) && has(request, second));
            let (side, number) = first;
            let side = if number == 6 { Neither } else { side };
            assert_eq!(number_and_side(request), (number, side));
        }
    }
}

/// By the rule, each by itself. Of 7 only that some record is there to be refused.
fn has(request: &CarryRequest, (side, number): Fault) -> bool {
    let CarryRequest { old, new } = request;
    let (asked, edition) = match (side, old.mode.edition) {
        (New, 1) => (new, 3),
        (New, 3) => (new, 1),
        (New, edition) => (new, edition),
        (_, edition) => (old, edition),
    };
    let raw = |side: &Request| side.key.raw().unwrap().to_vec();
    let message_bytes = old.body.len() - old.t;
    match number {
        10 => edition != 1 && edition != 3,
        8 if edition == 1 => asked.mode.form != 0,
        8 => Form::named(asked.mode.form).is_none(),
        1 => ![16, 24, 32].contains(&raw(asked).len()),
        2 => asked.nonce.is_empty() || asked.nonce.len() > 15,
        3 => old.t < 4 || old.t > 16,
        4 => asked.data.len() > 4_096,
        5 => message_bytes > 16_384,
        6 if side == New => new.room < old.body.len(),
        6 => old.room < message_bytes,
        11 => raw(old) == raw(new),
        _ => message_bytes > 0,
    }
}

/// The fixed ones and many random ones.
fn all() -> Vec<CarryRequest> {
    let mut list = fixed();
    let draw = &mut Generator::new(1);
    list.extend((0..1_000).map(|_| random_carry(draw)));
    list
}

#[test]
fn the_buffers_after_every_answer() {
    for request in all() {
        let Carried {
            answer,
            side,
            output,
            work,
        } = request.call();
        let record_bytes = request.old.body.len();
        let (written, zeros) = match answer.number {
            0 => (record_bytes, record_bytes - request.old.t),
            7 => (0, record_bytes - request.old.t),
            _ => (0, 0),
        };
        assert_eq!(answer.length, written);
        assert_eq!(output[written..], vec![FILL; request.new.room - written]);
        let kept = vec![FILL; request.old.room - zeros];
        assert_eq!(work, [vec![0; zeros], kept].concat());
        assert_eq!(side == Neither, [0, 6, 11].contains(&answer.number));
        assert_eq!(answer.runs > 0, [0, 7].contains(&answer.number));
    }
}

/// What opening and then sealing give, each in a call of its own.
#[test]
fn two_separate_calls_give_the_same() {
    let mut done = 0;
    for request in all() {
        let Carried { answer, output, .. } = request.call();
        if ![0, 7].contains(&answer.number) {
            continue;
        }
        let (opened, mut message) = request.old.call();
        assert_eq!(opened.number, answer.number);
        if opened.number == 7 {
            assert_eq!(answer.runs, opened.runs);
            continue;
        }
        message.truncate(opened.length);
        let edition = if request.old.mode.edition == 1 { 3 } else { 1 };
        let new = Request {
            mode: Mode::new(edition, request.new.mode.form),
            body: message,
            t: request.old.t,
            ..request.new.clone()
        };
        let (sealed, record) = new.call();
        assert_eq!((sealed.number, sealed.length), (0, answer.length));
        assert_eq!(answer.runs, opened.runs + sealed.runs);
        assert_eq!(output, record);
        done += 1;
    }
    assert!(done > 1_000);
}

/// Wish 6's formula for each side.
#[test]
fn the_runs_of_both_sides_add_up() {
    for way in WAYS {
        for (old, new, message) in [(0, 0, 0), (0, 17, 1), (16, 0, 32), (17, 33, 49)] {
            let lengths = [old, new].map(|data| Lengths {
                data,
                message,
                ..USUAL
            });
            let mut request = carrying(&mut Generator::new(1), way, lengths);
            let opening = parallel_formula(old, message);
            let both = opening + parallel_formula(new, message);
            assert_eq!(request.call().answer.runs, both);
            request.old.body[0] ^= 1;
            assert_eq!(request.call().answer.runs, opening);
        }
    }
}

#[test]
fn what_is_carried_over_and_back_is_the_first_record() {
    let mut returned = 0;
    for over in all() {
        let Some(back) = over.back() else { continue };
        let Carried {
            answer,
            side,
            output,
            ..
        } = back.call();
        assert_eq!((answer.number, side), (0, Neither));
        assert_eq!(output, over.old.body);
        assert_eq!(answer.runs, over.call().answer.runs);
        assert_eq!(back.back().unwrap().log(), over.log());
        returned += 1;
    }
    assert!(returned > 1_000);
}

/// From the first edition to what the README's first exchange seals.
fn carry_west(t: usize) -> CarryRequest {
    let from = Request {
        body: b"west".to_vec(),
        t,
        room: 4 + t,
        ..sealing(FIRST, 16, 7, 0)
    };
    let to = Request {
        mode: THIRD_PARALLEL,
        key: Key::Raw((0..16).collect()),
        nonce: (0..12).collect(),
        data: Vec::new(),
        ..from.clone()
    };
    CarryRequest::of(&from, to)
}

#[test]
fn a_record_that_is_known() {
    let Carried { answer, output, .. } = carry_west(16).call();
    assert_eq!((answer.number, answer.length, answer.runs), (0, 20, 5 + 3));
    assert_eq!(output, bytes("79081e3a7c90329febe6c2d1c04f3f395a796462"));
}

#[test]
fn only_equal_keys_are_refused_with_11() {
    for way in WAYS {
        let requests = pairs_of_keys(&mut Generator::new(1), way);
        let equal = |request: &&CarryRequest| request.old.key.raw() == request.new.key.raw();
        assert_eq!(requests.iter().filter(equal).count(), 3);
        for request in &requests {
            let number = if equal(&request) { 11 } else { 0 };
            assert_eq!(number_and_side(request), (number, Neither));
        }
    }
}

/// The new side's edition is the other one, so its forms are that one's.
#[test]
fn the_serial_form_is_none_on_the_first_editions_side() {
    let to_serial =
        |from: Mode, edition| usual(&mut Generator::new(1), (from, Mode::new(edition, 1)));
    assert_eq!(number_and_side(&to_serial(FIRST, 3)), (0, Neither));
    assert_eq!(number_and_side(&to_serial(THIRD_PARALLEL, 1)), (8, New));
    assert_eq!(number_and_side(&to_serial(THIRD_SERIAL, 1)), (8, New));
}

/// What stands in the line is all that the answer comes from.
#[test]
fn the_answers_are_those_of_the_lines() {
    for request in all() {
        let exchange = Exchange::of_carrying(&request);
        assert!(exchange.request.len() <= 65_000);
        assert_eq!(answer_line(&exchange.request), exchange.answer);
    }
}

fn answer_line(request: &str) -> String {
    let fields: Vec<&str> = request.trim_end().split(' ').collect();
    assert_eq!((fields.len(), fields[0]), (14, "carry"));
    let number = |place: usize| fields[place].parse::<usize>().unwrap();
    let string = |place: usize| field(fields[place]);
    let [old, new] = [3, 9].map(|place| [0, 1, 2].map(|next| string(place + next)));
    let record = string(7);
    let [mut output, mut work] = [12, 13].map(|place| vec![FILL; number(place)]);
    let (answer, side) = carry(
        number(1),
        settings(number(2), &old),
        &record,
        number(6),
        settings(number(8), &new),
        &mut output,
        &mut work,
    );
    let [output, work] = [output, work].map(|buffer| hex::field(&buffer));
    let (number, length, runs) = (answer.number, answer.length, answer.runs);
    format!(
        "{number} {} {length} {runs} {output} {work}\n",
        side as usize
    )
}

fn settings(form: usize, [key, nonce, data]: &[Vec<u8>; 3]) -> Settings<'_> {
    Settings {
        form,
        key,
        nonce,
        data,
    }
}

#[test]
fn the_lines_of_wish_8() {
    let mut request = carry_west(4);
    let line = "carry 1 0 02132435465768798a9bacbdcedff001 010e1b2835424f5c69768390 \
                05101b26313c47 4 RECORD 1 000102030405060708090a0b0c0d0e0f \
                000102030405060708090a0b - 10 6\n";
    (request.new.mode.form, request.new.room, request.old.room) = (1, 10, 6);
    let record = hex::field(&request.old.body);
    assert_eq!(request.request_line(), line.replace("RECORD", &record));
    let done = Exchange::of_carrying(&request).answer;
    assert!(done.starts_with("0 0 8 8 ") && done.ends_with("a5a5 00000000a5a5\n"));
    (request.new.room, request.old.room) = (0, 0);
    assert_eq!(Exchange::of_carrying(&request).answer, "6 0 0 0 - -\n");
    request.new.mode.form = 2;
    assert_eq!(Exchange::of_carrying(&request).answer, "8 2 0 0 - -\n");
    request.old.body.clear();
    assert_eq!(Exchange::of_carrying(&request).answer, "5 1 0 0 - -\n");
}

#[test]
fn the_fixed_requests_meet_every_answer() {
    let answers: Vec<_> = fixed().iter().map(number_and_side).collect();
    let sides = |numbers: &[u8], side| numbers.iter().map(move |&number| (number, side)).collect();
    let expected: [Vec<(u8, Side)>; 3] = [
        sides(&[0, 6, 11], Neither),
        sides(&[10, 8, 1, 2, 3, 4, 5, 7], Old),
        sides(&[8, 1, 2, 4], New),
    ];
    for answer in expected.concat() {
        assert!(answers.contains(&answer), "{answer:?}");
    }
}

/// In every way, and so over and back.
#[test]
fn the_fixed_requests_have_every_seam_message_and_tag() {
    let requests = fixed();
    for way in WAYS {
        let sound = |request: &&CarryRequest| {
            (request.old.mode, request.new.mode) == way && request.call().answer.number == 0
        };
        let lengths = |CarryRequest { old, .. }: &CarryRequest| (old.body.len() - old.t, old.t);
        let met: Vec<(usize, usize)> = requests.iter().filter(sound).map(lengths).collect();
        for message in MESSAGES {
            assert!(met.iter().any(|&(met, _)| met == message), "{message}");
        }
        for t in 4..=16 {
            assert!(met.contains(&(33, t)), "{t}");
        }
    }
}

/// By the format's own words: each side's fields change places, the other edition and the new
/// record take theirs, and the tag stays.
#[test]
fn the_example_archive_is_carried_over_and_back() {
    let [archive, carried] = archive_and_carried();
    assert_eq!(archive.lines().filter(is_log).count(), 24);
    for (from, to) in [(&archive, &carried), (&carried, &archive)] {
        assert!(from.lines().map(carried_line).eq(to.lines()));
        assert!(from.ends_with('\n'));
    }
}

fn is_log(line: &&str) -> bool {
    !line.is_empty() && !line.starts_with('#')
}

fn carried_line(line: &str) -> String {
    if !is_log(&line) {
        return line.to_string();
    }
    let f: Vec<&str> = line.split(' ').collect();
    assert_eq!(f.len(), 11);
    let record_bytes = field(f[6]).len();
    let message_bytes = record_bytes - f[5].parse::<usize>().unwrap();
    let answer = answer_line(&format!("carry {line} {record_bytes} {message_bytes}"));
    let answer: Vec<&str> = answer.split(' ').collect();
    assert_eq!(answer[..2], ["0", "0"]);
    let other = if f[0] == "1" { "3" } else { "1" };
    let (old, new) = (f[1..5].join(" "), f[7..].join(" "));
    format!("{other} {new} {} {} {old}", f[5], answer[4])
}
