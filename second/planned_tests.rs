//! Tests of plans, of sealing by them and of the planner (wish 13 of 02).

use std::cell::RefCell;

use crate::aes::Aes;
use crate::block::{double, full, times_3, times_7, xor, Block, BLOCK_BYTES};
use crate::call::{Answer, MESSAGE_MAX};
use crate::edition::THIRD_PARALLEL;
use crate::exchange::Exchange;
use crate::field::times_power_of_2;
use crate::generator::Generator;
use crate::hex;
use crate::key::Key;
use crate::masks::Masks;
use crate::message_pass::ef;
use crate::otr::format;
use crate::plan::{accepted, pairs, plan_bytes, planner, Entry};
use crate::plan_damages::{damaged, some_damage};
use crate::planned::{ef_by_plan, masks_of, plan, seal_planned};
use crate::planned_request::{PlannedRequest, Planning};
use crate::planned_requests::{fixed, plannings, sealings, two_faults, FAULTS, MESSAGES};
use crate::random_planned::{random_exchange, random_planned, random_planning};
use crate::request::{Request, FILL};
use crate::rules;
use crate::runs_tests::{parallel_formula, sealing};
use crate::seam_requests::{every_two, AMPLE};
use crate::session_tests::field;
use crate::sound_plans::{some_plan, sound_plans};
use crate::standin::stand_in;
use crate::tests::{block, bytes};

const PAIRS_MAX: usize = 511;

/// Wish 13's words, one by one: whole entries; every pair occurs once; no other number occurs;
/// each engine number is 0 to 3.
fn is_accepted(plan: &[u8], pairs: usize) -> bool {
    let entries: Vec<&[u8]> = plan.chunks(3).collect();
    if entries.iter().any(|entry| entry.len() != 3) {
        return false;
    }
    let number = |entry: &[u8]| 256 * usize::from(entry[0]) + usize::from(entry[1]);
    let occurrences = |pair| {
        entries
            .iter()
            .filter(|&entry| number(entry) == pair)
            .count()
    };
    (0..pairs).all(|pair| occurrences(pair) == 1)
        && entries.iter().all(|entry| number(entry) < pairs)
        && entries.iter().all(|entry| [0, 1, 2, 3].contains(&entry[2]))
}

fn check_acceptance(plan: &[u8], pairs: usize) -> bool {
    let expected = is_accepted(plan, pairs);
    assert_eq!(
        accepted(plan, pairs).is_some(),
        expected,
        "{pairs} {plan:?}"
    );
    expected
}

/// The fixed ones and many random ones.
fn all() -> Vec<PlannedRequest> {
    let mut list = sealings();
    let draw = &mut Generator::new(1);
    list.extend((0..2_000).map(|_| random_planned(draw)));
    list
}

/// 32 bytes a pair, and something behind them.
#[test]
fn the_pairs_have_something_behind_them() {
    for length in 0..=MESSAGE_MAX + 100 {
        let have_more_behind = (1..).take_while(|pair| 32 * pair < length);
        assert_eq!(pairs(length), have_more_behind.count());
    }
    let known = [(0, 0), (1, 0), (32, 0), (33, 1), (64, 1), (65, 2), (96, 2)];
    for (length, count) in known.into_iter().chain([(1_000, 31), (16_384, PAIRS_MAX)]) {
        assert_eq!(pairs(length), count);
    }
}

/// Every string of up to three entries over numbers and engines that matter, and each with one
/// byte or two behind.
#[test]
fn small_plans_are_accepted_by_the_words_of_the_wish() {
    let mut plans = vec![Vec::new()];
    let mut met = 0;
    for length in 0..=3 {
        if length > 0 {
            plans = longer_by_one(&plans);
        }
        for plan in &plans {
            let bytes = plan_bytes(plan);
            for pairs in 0..=4 {
                met += usize::from(check_acceptance(&bytes, pairs));
                for more in [&[0][..], &[0, 0]] {
                    assert!(!check_acceptance(&[&bytes[..], more].concat(), pairs));
                }
            }
        }
    }
    // Each order of the pairs, with two engines for each: 1, 2, 2 * 4 and 6 * 8.
    assert_eq!(met, 1 + 2 + 8 + 48);
}

fn longer_by_one(plans: &[Vec<Entry>]) -> Vec<Vec<Entry>> {
    let mut list = Vec::new();
    for plan in plans {
        for pair in [0, 1, 2, 3, 255, 256, 257, 65_535] {
            for engine in [0, 3, 4, 255] {
                list.push([&plan[..], &[Entry { pair, engine }]].concat());
            }
        }
    }
    list
}

/// None to two bits changed in plans that are accepted.
#[test]
fn changed_plans_are_accepted_by_the_words_of_the_wish() {
    let draw = &mut Generator::new(1);
    let (mut met, rounds) = (0, 20_000);
    for _ in 0..rounds {
        let pairs = draw.below(8);
        let mut plan = plan_bytes(&some_plan(draw, pairs));
        for _ in 0..draw.below(3) {
            draw.change_bit(&mut plan);
        }
        met += usize::from(check_acceptance(&plan, pairs));
    }
    assert!(met > rounds / 4 && met < rounds * 3 / 4, "{met}");
}

#[test]
fn every_sound_plan_is_accepted() {
    let draw = &mut Generator::new(1);
    for pairs in (0..=100).chain([255, 256, 257, 510, PAIRS_MAX]) {
        for plan in sound_plans(draw, pairs) {
            assert!(check_acceptance(&plan_bytes(&plan), pairs));
        }
    }
}

/// At every place of a short plan.
#[test]
fn every_kind_of_damage_is_refused() {
    let draw = &mut Generator::new(1);
    for pairs in (0..=40).chain([255, 256, 257, 510, PAIRS_MAX]) {
        let places: Vec<usize> = match pairs {
            0..=40 => (0..pairs).collect(),
            _ => vec![0, draw.below(pairs), pairs - 1],
        };
        for plan in [planner(pairs), some_plan(draw, pairs)] {
            for damaged in damaged(draw, &plan, &places) {
                assert!(!check_acceptance(&damaged, pairs));
            }
            for _ in 0..20 {
                assert!(!check_acceptance(&some_damage(draw, &plan), pairs));
            }
        }
    }
}

/// A plan for two pairs by hand, and what is done to it.
#[test]
fn the_kinds_of_damage_by_hand() {
    let plan = &planner(2);
    assert_eq!(plan_bytes(plan), bytes("000000000101"));
    let damaged = damaged(&mut Generator::new(1), plan, &[1]);
    for expected in [
        "000000000001",
        "000000000101000101",
        "000000",
        "000000000201",
        "000000ffff01",
        "000000000104",
        "0000000001ff",
        "00000000",
        "0000000001",
        "00000000010100",
        "-",
        "000000000101000202",
        "000000000101000000000101",
        "000000010001",
    ] {
        assert!(damaged.contains(&field(expected)), "{expected}");
    }
}

/// For every length: accepted, of exact size, and no two engines differ by more than one pair.
#[test]
fn the_planners_plans_are_accepted_and_even() {
    for length in 0..=MESSAGE_MAX {
        let pairs = pairs(length);
        let mut output = vec![FILL; 3 * pairs + 2];
        let answer = plan(length, &mut output);
        assert_eq!(told(&answer), (0, 3 * pairs, 0));
        assert_eq!(output[3 * pairs..], [FILL; 2]);
        let plan = accepted(&output[..3 * pairs], pairs).unwrap();
        let mut loads = [0; 4];
        for (place, entry) in plan.iter().enumerate() {
            let (pair, engine) = (usize::from(entry.pair), usize::from(entry.engine));
            assert_eq!((pair, engine), (place, place % 4));
            loads[usize::from(entry.engine)] += 1;
        }
        assert!(loads.iter().max().unwrap() - loads.iter().min().unwrap() <= 1);
    }
    for pairs in [0, 1, 2, 5, 257, PAIRS_MAX] {
        assert!(is_accepted(&plan_bytes(&planner(pairs)), pairs));
    }
}

#[test]
fn the_planner_answers_by_length_and_room() {
    let draw = &mut Generator::new(1);
    let mut list = plannings();
    list.extend((0..1_000).map(|_| random_planning(draw)));
    let mut met = [0; 7];
    for planning in list {
        let Planning { length, room } = planning;
        let (answer, output) = planning.call();
        let number = match (length, room) {
            (16_385.., _) => 5,
            _ if room < 3 * pairs(length) => 6,
            _ => 0,
        };
        assert_eq!(answer.number, number, "{length} {room}");
        assert_eq!((output.len(), answer.runs), (room, 0));
        let kept = &output[answer.length..];
        assert!(kept.iter().all(|&byte| byte == FILL));
        met[usize::from(number)] += 1;
    }
    assert!([0, 5, 6].iter().all(|&number: &usize| met[number] > 10));
}

#[test]
fn the_masks_from_u_alone_are_those_of_repeated_doubling() {
    let draw = &mut Generator::new(1);
    let mut blocks: Vec<Block> = (0..10)
        .map(|_| draw.bytes(16).try_into().unwrap())
        .collect();
    blocks.extend([
        [0; 16],
        [0xff; 16],
        block("80000000000000000000000000000001"),
    ]);
    for u in blocks {
        let (mut doubled, mut stepped) = (u, Masks::third(&u));
        for i in 0..=2 * PAIRS_MAX {
            let masks = masks_of(&u, i);
            assert_eq!(times_power_of_2(&u, i), doubled);
            assert_eq!((masks.l(), masks.l_sharp()), (doubled, times_3(&doubled)));
            assert_eq!(
                (stepped.l(), stepped.l_sharp()),
                (masks.l(), masks.l_sharp())
            );
            doubled = double(&doubled);
            stepped.step();
        }
    }
}

/// 2^128 is the modulus without its x^128, 87; and 2^(i + j) is 2^i times 2^j.
#[test]
fn powers_of_2_by_hand() {
    let one = block("00000000000000000000000000000001");
    for (i, power) in [
        (0, "00000000000000000000000000000001"),
        (1, "00000000000000000000000000000002"),
        (127, "80000000000000000000000000000000"),
        (128, "00000000000000000000000000000087"),
        (129, "0000000000000000000000000000010e"),
        (248, "87000000000000000000000000000000"),
        (249, "0e000000000000000000000000000087"),
    ] {
        assert_eq!(times_power_of_2(&one, i), block(power));
    }
    for (i, j) in [(1, 510), (127, 1), (128, 128), (200, 311)] {
        let power = times_power_of_2(&one, j);
        assert_eq!(times_power_of_2(&power, i), times_power_of_2(&one, i + j));
    }
}

/// Messages of every length up to 400 bytes and of some longer, each by several plans.
#[test]
fn planned_sealing_is_ordinary_sealing() {
    let draw = &mut Generator::new(1);
    for length in (0..=400).chain([1_000, 8_224, 8_225, 16_353, 16_383, 16_384]) {
        let data = [0, 1, 16, 17, 4_096][length % 5];
        let key = [16, 24, 32][length % 3];
        let mut sealing = sealing(THIRD_PARALLEL, key, data, length);
        sealing.nonce = rules::nonce(1 + length % 15);
        sealing.t = 4 + length % 13;
        for plan in sound_plans(draw, pairs(length)) {
            check_ordinary(&PlannedRequest::of(&sealing, &plan));
        }
    }
}

fn told(answer: &Answer) -> (u8, usize, usize) {
    (answer.number, answer.length, answer.runs)
}

/// What a request gives is what it gives without its plan.
fn check_ordinary(request: &PlannedRequest) {
    let ((planned, by_plan), (ordinary, at_once)) = (request.call(), request.sealing.call());
    assert_eq!(told(&planned), told(&ordinary));
    assert_eq!(by_plan, at_once);
}

/// All requests: by an accepted plan the ordinary sealing; by another the ordinary refusal, and
/// 13 in the place of 0.
#[test]
fn every_request_is_answered_as_the_ordinary_one_or_with_13() {
    let mut met = [0; 14];
    for mut request in all() {
        request.sealing.mode = THIRD_PARALLEL;
        let sound = is_accepted(&request.plan, request.pairs());
        let (answer, output) = request.call();
        if sound || request.sealing.call().0.number != 0 {
            check_ordinary(&request);
        } else {
            assert_eq!(answer.number, 13);
        }
        if answer.number == 0 {
            let Request { data, body, t, .. } = &request.sealing;
            assert_eq!(answer.length, body.len() + t);
            assert_eq!(answer.runs, parallel_formula(data.len(), body.len()));
        } else {
            assert_eq!((answer.length, answer.runs), (0, 0));
        }
        assert_eq!(output.len(), request.sealing.room);
        let kept = &output[answer.length..];
        assert!(kept.iter().all(|&byte| byte == FILL));
        met[usize::from(answer.number)] += 1;
    }
    for number in FAULTS.into_iter().chain([0]) {
        assert!(met[usize::from(number)] >= 10, "{number} {met:?}");
    }
}

/// Over the stand-in cipher the blocks that it gets are the ordinary ones, those of the pairs
/// in the plan's order.
#[test]
fn the_cipher_gets_the_blocks_in_the_plans_order() {
    let draw = &mut Generator::new(1);
    for length in [0, 1, 33, 64, 65, 161, 1_000] {
        let u: Block = draw.bytes(BLOCK_BYTES).try_into().unwrap();
        let message = draw.bytes(length);
        let handed_over = RefCell::new(Vec::new());
        let e = |b: &Block| {
            handed_over.borrow_mut().push(*b);
            stand_in(b)
        };
        let ordinary = ef(&e, Masks::third(&u), &message);
        let blocks = handed_over.take();
        for plan in sound_plans(draw, pairs(length)) {
            assert_eq!(ef_by_plan(&e, &u, &plan, &message), ordinary);
            let (of_pairs, others) = blocks.split_at(2 * plan.len());
            let pair = |entry: &Entry| &of_pairs[2 * usize::from(entry.pair)..][..2];
            let in_its_order: Vec<&[Block]> = plan.iter().map(pair).collect();
            assert_eq!(
                handed_over.take(),
                [&in_its_order.concat(), others].concat()
            );
        }
    }
}

/// The README's first exchange, which has no pair.
#[test]
fn a_sealing_that_is_known() {
    let (key, nonce): (Vec<u8>, Vec<u8>) = ((0..16).collect(), (0..12).collect());
    let mut output = vec![FILL; 20];
    let answer = seal_planned(&key, &nonce, &[], b"west", &[], 16, &mut output);
    assert_eq!(told(&answer), (0, 20, 3));
    assert_eq!(output, bytes("79081e3a7c90329febe6c2d1c04f3f395a796462"));
}

/// A pair and one block that is full: 01, step by step, on whichever engine.
#[test]
fn one_pair_by_hand() {
    let (key, nonce, message) = (rules::key(16), rules::nonce(12), rules::message(48));
    let aes = Aes::new(&key).unwrap();
    let [p, r, last] = [0, 16, 32].map(|place| full(&message[place..place + 16]));
    let u = aes.cipher(&format(16, &nonce));
    let first = xor(&aes.cipher(&xor(&u, &p)), &r);
    let second = xor(&aes.cipher(&xor(&times_3(&u), &first)), &p);
    let b = double(&u);
    let third = xor(&aes.cipher(&b), &last);
    let te = aes.cipher(&xor(&times_7(&b), &xor(&r, &last)));
    for engine in 0..4 {
        let mut output = vec![FILL; 64];
        let answer = seal_planned(
            &key,
            &nonce,
            &[],
            &message,
            &[0, 0, engine],
            16,
            &mut output,
        );
        assert_eq!(told(&answer), (0, 64, 5));
        assert_eq!(output, [first, second, third, te].concat());
    }
}

/// What was sealed by a plan opens.
#[test]
fn what_a_plan_sealed_opens() {
    let draw = &mut Generator::new(1);
    for length in MESSAGES {
        let sealing = sealing(THIRD_PARALLEL, 16, 5, length);
        let (_, output) = PlannedRequest::of(&sealing, &some_plan(draw, pairs(length))).call();
        let opening = sealing.opening().unwrap();
        let by_plan = Request {
            body: output,
            ..opening
        };
        assert_eq!(by_plan.call().1, sealing.body);
    }
}

/// A request with every fault, mended one by one: what is refused next.
#[test]
fn each_check_comes_in_its_place() {
    let length = 161;
    let sound = &PlannedRequest::of(
        &sealing(THIRD_PARALLEL, 16, 5, length),
        &planner(pairs(length)),
    );
    let mut request = with_every_fault(sound);
    assert_eq!(request.call().0.number, 1);
    let mut mended = |mend: fn(&mut PlannedRequest, &PlannedRequest), number| {
        mend(&mut request, sound);
        assert_eq!(request.call().0.number, number);
    };
    mended(|r, s| r.sealing.key = s.sealing.key.clone(), 2);
    mended(|r, s| r.sealing.nonce = s.sealing.nonce.clone(), 3);
    mended(|r, s| r.sealing.t = s.sealing.t, 4);
    mended(|r, s| r.sealing.data = s.sealing.data.clone(), 5);
    mended(|r, s| r.sealing.body = s.sealing.body.clone(), 6);
    mended(|r, s| r.sealing.room = s.sealing.room - 1, 6);
    mended(|r, s| r.sealing.room = s.sealing.room, 13);
    mended(|r, _| r.plan.truncate(15), 13);
    mended(|r, _| r.plan[12..].copy_from_slice(&[0, 4, 4]), 13);
    mended(|r, _| r.plan[14] = 3, 0);
}

/// The plan has a byte too many, pair 3 twice and no pair 4.
fn with_every_fault(sound: &PlannedRequest) -> PlannedRequest {
    let mut request = sound.clone();
    request.sealing.key = Key::Raw(rules::key(17));
    request.sealing.nonce = Vec::new();
    request.sealing.t = 3;
    request.sealing.data = rules::data(4_097);
    request.sealing.body = rules::message(16_385);
    request.sealing.room = 0;
    request.plan[13] = 3;
    request.plan.push(0);
    request
}

#[test]
fn of_two_faults_the_one_checked_first_is_the_answer() {
    let requests = two_faults(&mut Generator::new(1));
    assert_eq!(requests.len(), 7 + 21);
    for (request, (first, second)) in requests.iter().zip(every_two(&FAULTS)) {
        assert!(has(request, first) && has(request, second));
        assert_eq!(request.call().0.number, first);
    }
}

/// By the rule, each by itself.
fn has(request: &PlannedRequest, number: u8) -> bool {
    let sealing = &request.sealing;
    match number {
        1 => ![16, 24, 32].contains(&sealing.key.raw().unwrap().len()),
        2 => sealing.nonce.is_empty() || sealing.nonce.len() > 15,
        3 => sealing.t < 4 || sealing.t > 16,
        4 => sealing.data.len() > 4_096,
        5 => sealing.body.len() > 16_384,
        6 => sealing.room < sealing.body.len() + sealing.t,
        _ => !is_accepted(&request.plan, request.pairs()),
    }
}

#[test]
fn a_plan_that_is_not_accepted_writes_nothing() {
    let draw = &mut Generator::new(1);
    for length in [0, 1, 32, 33, 64, 65, 96, 1_000] {
        let plan = some_plan(draw, pairs(length));
        let places: Vec<usize> = (0..plan.len()).collect();
        for plan in damaged(draw, &plan, &places) {
            let mut sealing = sealing(THIRD_PARALLEL, 24, 17, length);
            sealing.room += AMPLE;
            let (answer, output) = PlannedRequest { sealing, plan }.call();
            assert_eq!(told(&answer), (13, 0, 0));
            assert_eq!(output, vec![FILL; length + 16 + AMPLE]);
        }
    }
}

#[test]
fn the_lines_of_wish_13() {
    let planning = Planning {
        length: 65,
        room: 8,
    };
    let planned = Exchange::of_planning(&planning);
    assert_eq!(planned.request, "plan 65 8\n");
    assert_eq!(planned.answer, "0 6 0 000000000101a5a5\n");
    let of = |length, room| Exchange::of_planning(&Planning { length, room }).answer;
    assert_eq!(of(32, 0), "0 0 0 -\n");
    assert_eq!(of(33, 2), "6 0 0 a5a5\n");
    assert_eq!(of(16_385, 0), "5 0 0 -\n");

    let mut request = PlannedRequest::of(&sealing(THIRD_PARALLEL, 16, 0, 33), &planner(1));
    request.sealing.room = 50;
    let line = "seal-planned 02132435465768798a9bacbdcedff001 010e1b2835424f5c69768390 - \
                MESSAGE 000000 16 50\n";
    let message = hex::field(&request.sealing.body);
    assert_eq!(request.request_line(), line.replace("MESSAGE", &message));
    let done = Exchange::of_planned(&request).answer;
    assert!(done.starts_with("0 49 5 ") && done.ends_with("a5\n"));
    request.plan.clear();
    let line = line.replace("000000", "-");
    assert_eq!(request.request_line(), line.replace("MESSAGE", &message));
    let refused = format!("13 0 0 {}\n", "a5".repeat(50));
    assert_eq!(Exchange::of_planned(&request).answer, refused);
}

/// What stands in the line is all that the answer comes from.
#[test]
fn the_answers_are_those_of_the_lines() {
    let draw = &mut Generator::new(1);
    let mut exchanges = fixed();
    exchanges.extend((0..2_000).map(|_| random_exchange(draw)));
    for Exchange { request, answer } in exchanges {
        assert!(request.len() <= 65_000 && answer.len() <= 65_000);
        assert_eq!(answer_line(&request), answer);
    }
}

fn answer_line(request: &str) -> String {
    let fields: Vec<&str> = request.trim_end().split(' ').collect();
    let number = |place: usize| fields[place].parse::<usize>().unwrap();
    let mut output = vec![FILL; number(fields.len() - 1)];
    let answer = match (fields[0], fields.len()) {
        ("plan", 3) => plan(number(1), &mut output),
        ("seal-planned", 8) => {
            let [key, nonce, data, message, plan] = [1, 2, 3, 4, 5].map(|p| field(fields[p]));
            seal_planned(&key, &nonce, &data, &message, &plan, number(6), &mut output)
        }
        _ => panic!("{request}"),
    };
    let (number, length, runs) = (answer.number, answer.length, answer.runs);
    format!("{number} {length} {runs} {}\n", hex::field(&output))
}

/// Every message of the seams by the planner's plan, backwards, and by plans that are refused.
#[test]
fn the_fixed_requests_have_every_message_by_every_plan() {
    let requests = sealings();
    for length in MESSAGES {
        let pairs = pairs(length);
        let mut backwards = planner(pairs);
        backwards.reverse();
        let of = |number: u8| {
            let of = move |request: &&PlannedRequest| {
                request.sealing.body.len() == length && request.call().0.number == number
            };
            requests.iter().filter(of).collect::<Vec<_>>()
        };
        for plan in [planner(pairs), backwards] {
            let plan = plan_bytes(&plan);
            assert!(of(0).iter().any(|request| request.plan == plan));
        }
        assert!(of(0).len() >= 7 && of(13).len() >= 5, "{length}");
    }
}

#[test]
fn the_fixed_requests_have_every_other_length() {
    let requests = sealings();
    let done = |has: &dyn Fn(&Request) -> bool| {
        let sound = |request: &&PlannedRequest| has(&request.sealing);
        let mut sound = requests.iter().filter(sound);
        assert!(sound.any(|request| request.call().0.number == 0));
    };
    for k in 1..=15 {
        for t in 4..=16 {
            done(&|request| request.nonce.len() == k && request.t == t);
        }
    }
    for key in [16, 24, 32] {
        for data in [0, 1, 16, 17, 4_096] {
            done(&|request| request.key.raw().unwrap().len() == key && request.data.len() == data);
        }
    }
}
