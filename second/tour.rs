//! The command `tour`: a session with the console that shows each answer, and what it
//! must print.

use crate::call::DATA_MAX;
use crate::carry_request::CarryRequest;
use crate::console_sealer::ConsoleSealer;
use crate::edition::{FIRST, THIRD_PARALLEL, THIRD_SERIAL};
use crate::exchange::Exchange;
use crate::failure::Failure;
use crate::files;
use crate::hex;
use crate::key::Key;
use crate::plan::{entries, Entry};
use crate::planned_request::{PlannedRequest, Planning};
use crate::request::{Kind, Request};
use crate::rules;

const KEY_BYTES: usize = 16;
/// 70 bytes.
const LIST: &[u8] = b"three steps west, two steps north, then hold until the next list comes";

pub fn command(file_requests: &str, file_answers: &str) -> Result<String, Failure> {
    let mut tour = Tour::default();
    let sealing = sealing();
    tour.call("0: sealed. The message `three steps west`, then 16 bytes of tag; what the call left alone holds a5. The cipher ran 5 times.", &sealing);
    let opening = opening(&sealing);
    tour.call("0: opened.", &opening);
    empty_messages(&mut tour, &sealing);
    let longest = Request {
        nonce: rules::nonce(15),
        t: 15,
        ..sealing.clone()
    };
    tour.call(
        "0: sealed with a nonce of 15 bytes, the longest, and a tag of 15.",
        &longest,
    );
    serial(&mut tour, &sealing);
    first_edition(&mut tour, &sealing);
    prepared(&mut tour, &sealing);
    parts(&mut tour, &sealing);
    carrying(&mut tour, &sealing);
    refusals(&mut tour, &sealing, &opening);
    bad_lines(&mut tour);
    planned(&mut tour, &sealing);
    files::write(file_requests, &tour.requests)?;
    files::write(file_answers, &tour.answers)?;
    Ok(String::new())
}

fn sealing() -> Request {
    Request {
        kind: Kind::Seal,
        mode: THIRD_PARALLEL,
        key: Key::Raw(rules::key(KEY_BYTES)),
        nonce: rules::nonce(12),
        data: b"mount 2".to_vec(),
        body: b"three steps west".to_vec(),
        t: 16,
        room: 36,
    }
}

fn opening(sealing: &Request) -> Request {
    Request {
        room: sealing.body.len() + 4,
        ..sealing.opening().expect("the tour's sealing is done")
    }
}

fn empty_messages(tour: &mut Tour, sealing: &Request) {
    let with_data = Request {
        body: Vec::new(),
        room: sealing.room - sealing.body.len(),
        ..sealing.clone()
    };
    let without_data = Request {
        data: Vec::new(),
        ..with_data.clone()
    };
    tour.call(
        "0: an empty message without data runs the cipher twice: for the nonce block and for the tag.",
        &without_data,
    );
    tour.call(
        "0: an empty message with data of one block runs it 4 times: twice more, for the data.",
        &with_data,
    );
}

fn serial(tour: &mut Tour, sealing: &Request) {
    let mut sealing = sealing.clone();
    sealing.mode.form = 1;
    tour.call("0: sealed in the serial form.", &sealing);
    let opening = opening(&sealing);
    tour.call("0: opened.", &opening);
    tour.changed(
        "7: what one form sealed the other refuses.",
        &opening,
        |request| request.mode.form = 0,
    );
}

/// Wish 7 of 02.
fn first_edition(tour: &mut Tour, sealing: &Request) {
    let sealing = Request {
        mode: FIRST,
        ..sealing.clone()
    };
    tour.call(
        "0: sealed by the first edition, for as many runs as the third takes.",
        &sealing,
    );
    let opening = opening(&sealing);
    tour.call("0: opened.", &opening);
    tour.changed(
        "7: what one edition sealed the other refuses.",
        &opening,
        |request| request.mode.edition = 3,
    );
    let shorter = Request {
        t: 4,
        ..sealing.clone()
    };
    tour.call(
        "0: sealed with a tag of 4 bytes: the same ciphertext, and the first 4 bytes of the tag of 16, since the first edition does not take in the tag length.",
        &shorter,
    );
    editions_and_forms_that_are_none(tour, &sealing);
}

fn editions_and_forms_that_are_none(tour: &mut Tour, sealing: &Request) {
    tour.changed(
        "8: the first edition with the serial form: it has the parallel one alone.",
        sealing,
        |request| request.mode.form = 1,
    );
    tour.changed(
        "10: an edition that is neither the first (1) nor the third (3).",
        sealing,
        |request| request.mode.edition = 2,
    );
    tour.changed(
        "10 before 8: such an edition, and a form that is none.",
        sealing,
        |request| {
            request.mode.edition = 2;
            request.mode.form = 2;
        },
    );
}

/// Wish 9 of 02.
fn prepared(tour: &mut Tour, sealing: &Request) {
    tour.prepare(
        "0 1: a key prepared, which is one run: 10 rounds, their round keys with zeros behind, and the cipher of the zero block.",
        &rules::key(KEY_BYTES),
    );
    let sealing = sealing.under_record(|_| ());
    tour.call(
        "0: sealed under that record: the bytes that its key seals, and one run less.",
        &sealing,
    );
    tour.call("0: opened.", &opening(&sealing));
    tour.changed(
        "0: sealed by the first edition under the same record.",
        &sealing,
        |request| request.mode = FIRST,
    );
    tour.call(
        "0: a record whose first mask is not the cipher of the zero block: another tag.",
        &sealing.under_record(|record| record.zero = rules::lent_mask()),
    );
    tour.call(
        "1: a record with 11 rounds.",
        &sealing.under_record(|record| record.rounds = 11),
    );
    tour.prepare(
        "1 0: a key of 17 bytes is not prepared, and its record is of zeros.",
        &rules::key(17),
    );
}

/// Wish 3 of 02: 20 bytes, 20 more and 30 more.
fn parts(tour: &mut Tour, sealing: &Request) {
    let (first, others) = LIST.split_at(20);
    let (second, third) = others.split_at(20);
    let sealing = Request {
        body: LIST.to_vec(),
        room: LIST.len() + sealing.t,
        ..sealing.clone()
    };
    let refused = Request {
        key: Key::Raw(rules::key(17)),
        ..sealing.clone()
    };
    let mut console = ConsoleSealer::default();
    for (words, exchange) in [
        ("9: fed before any beginning.", console.feed(first, 4)),
        (
            "0: a sealer begun. The cipher ran 3 times: for the nonce block and for the data.",
            console.begin(&sealing),
        ),
        (
            "0: 20 bytes fed. Nothing comes out yet, and the cipher does not run.",
            console.feed(first, 4),
        ),
        (
            "0: 20 more, 40 in all. The first 32 come out, for 2 runs.",
            console.feed(second, 36),
        ),
        (
            "6: 30 more, with room for one byte too few.",
            console.feed(third, 31),
        ),
        (
            "0: the same with room enough; the sealer had stayed as it was.",
            console.feed(third, 32),
        ),
        ("0: a part of no bytes.", console.feed(&[], 0)),
        ("6: ended, with room for one byte too few.", console.end(21)),
        (
            "0: ended. The 6 bytes that were left and 16 of tag, for 2 runs.",
            console.end(26),
        ),
        (
            "0: the outputs of these calls joined are what one call seals, and their runs, 3 and 2 and 2 and 2, add up to its 9.",
            Exchange::of_call(&sealing),
        ),
        ("9: fed after the end.", console.feed(first, 4)),
        ("9: ended after the end.", console.end(26)),
        (
            "1: begun with a key of 17 bytes. That sealer counts as ended.",
            console.begin(&refused),
        ),
        ("9: so it cannot be fed.", console.feed(first, 4)),
    ] {
        tour.exchange(words, &exchange);
    }
}

/// Wish 8 of 02.
fn carrying(tour: &mut Tour, sealing: &Request) {
    let from = Request {
        mode: FIRST,
        ..sealing.clone()
    };
    let to = Request {
        mode: THIRD_SERIAL,
        key: Key::Raw(rules::key(32)),
        nonce: rules::nonce(15),
        data: b"archive".to_vec(),
        ..sealing.clone()
    };
    let over = with_some_room(CarryRequest::of(&from, to));
    tour.carry(
        "0 0: carried over from the first edition to the third, with a key, a nonce and data of its own: the record sealed anew. In the work buffer there are zeros where the message stood. The cipher ran 5 times to open and 5 to seal.",
        &over,
    );
    let back = over.back().map(with_some_room);
    let back = back.expect("the tour's record is carried");
    tour.carry(
        "0 0: carried back with the sides exchanged: the first record again.",
        &back,
    );
    carryings_refused(tour, &over, &back);
}

fn with_some_room(mut request: CarryRequest) -> CarryRequest {
    request.new.room += 4;
    request.old.room += 4;
    request
}

fn carryings_refused(tour: &mut Tour, over: &CarryRequest, back: &CarryRequest) {
    tour.carry_changed(
        "7 1: one bit of the record changed. The old side does not open, for its 5 runs, and the output stays as it was.",
        over,
        |request| request.old.body[0] ^= 1,
    );
    tour.carry_changed("11 0: both keys the same.", over, |request| {
        request.new.key = request.old.key.clone();
    });
    tour.carry_changed("6 0: output for one byte too few.", over, |request| {
        request.new.room = request.old.body.len() - 1;
    });
    tour.carry_changed("6 0: work buffer for one byte too few.", over, |request| {
        request.old.room = request.new.body.len() - 1;
    });
    tour.carry_changed(
        "8 2: back to the serial form, which the first edition does not have.",
        back,
        |request| request.new.mode.form = 1,
    );
    tour.carry_changed(
        "1 1: a key of 17 bytes on the old side, and a nonce of 16 on the new one.",
        over,
        |request| {
            request.old.key = Key::Raw(rules::key(17));
            request.new.nonce = rules::nonce(16);
        },
    );
}

fn refusals(tour: &mut Tour, sealing: &Request, opening: &Request) {
    tour.changed(
        "8: a form that is neither parallel (0) nor serial (1).",
        sealing,
        |request| request.mode.form = 2,
    );
    tour.changed(
        "8 before 1: such a form, and a key of 17 bytes.",
        sealing,
        |request| {
            request.mode.form = 2;
            request.key = Key::Raw(rules::key(17));
        },
    );
    tour.changed("1: a key of 17 bytes.", sealing, |request| {
        request.key = Key::Raw(rules::key(17));
    });
    tour.changed("2: a nonce of 16 bytes.", sealing, |request| {
        request.nonce = rules::nonce(16);
    });
    tour.changed("3: a tag of 3 bytes.", sealing, |request| request.t = 3);
    tour.changed("5: shorter than its tag.", opening, |request| {
        request.body.truncate(15);
    });
    tour.changed("6: room for one byte too few.", sealing, |request| {
        request.room = 31;
    });
    tour.changed(
        "7: one bit changed. Where the message would stand there are zeros; the cipher's 5 runs are reported here too.",
        opening,
        |request| request.body[0] ^= 1,
    );
    tour.changed(
        "4: data of 4,097 bytes, in a long line.",
        sealing,
        |request| request.data = rules::data(DATA_MAX + 1),
    );
}

fn bad_lines(tour: &mut Tour) {
    tour.bad("A field too few.", "seal 3 0 00 01 02 03 16");
    tour.bad("No edition.", "seal 0 00 01 02 03 16 4");
    tour.bad("Two spaces.", "seal 3 0 00 01  02 03 16 4");
    tour.bad("Half a byte.", "seal 3 0 0 01 02 03 16 4");
    tour.bad("More room than there is.", "seal 3 0 00 01 02 03 16 20481");
    tour.bad(
        "An edition of six digits.",
        "seal 000003 0 00 01 02 03 16 4",
    );
    tour.bad("A form of six digits.", "seal 3 000000 00 01 02 03 16 4");
    tour.bad("Round keys of 239 bytes.", &under_zeros(239, 16));
    tour.bad("A first mask of 15 bytes.", &under_zeros(240, 15));
    tour.bad("An end that names no room.", "end");
    tour.bad("A part that names no room.", "feed 00");
    tour.bad(
        "A beginning with a field too many.",
        "begin 0 00 01 02 16 4",
    );
    tour.bad(
        "A carrying with a field too few.",
        "carry 1 0 00 01 02 4 03 0 04 05 06 4",
    );
    tour.bad(
        "A larger work buffer than there is.",
        "carry 1 0 00 01 02 4 03 0 04 05 06 4 20481",
    );
}

/// A sealing under a record of zeros, with so many bytes of round keys and of first mask.
fn under_zeros(round_keys: usize, zero: usize) -> String {
    let [words, zero] = [round_keys, zero].map(|len| hex::encode(&vec![0; len]));
    format!("seal-with 3 0 10 {words} {zero} 01 02 03 16 17")
}

/// Wish 13 of 02: 70 bytes, which are two pairs and 6 bytes more.
fn planned(tour: &mut Tour, sealing: &Request) {
    let planning = Planning {
        length: LIST.len(),
        room: 8,
    };
    tour.plan(
        "0: a plan for a message of 70 bytes: pair 0 on engine 0, and pair 1 on engine 1. The cipher does not run.",
        planning,
    );
    let sealing = Request {
        body: LIST.to_vec(),
        room: LIST.len() + sealing.t + 2,
        ..sealing.clone()
    };
    tour.call("0: such a message sealed without a plan.", &sealing);
    let (answer, output) = planning.call();
    let plan = entries(&output[..answer.length]).expect("the planner's entries are whole");
    let by_plan = PlannedRequest::of(&sealing, &plan);
    tour.seal_planned(
        "0: sealed by that plan: the same bytes, for as many runs.",
        &by_plan,
    );
    let [first, second] = [0, 1].map(|pair| Entry { pair, engine: 3 });
    tour.seal_planned(
        "0: and by another, which has pair 1 first, and both pairs on engine 3.",
        &PlannedRequest::of(&sealing, &[second, first]),
    );
    plans_refused(tour, &by_plan);
    planners_limits(tour);
    bad_lines_of_plans(tour);
}

fn plans_refused(tour: &mut Tour, by_plan: &PlannedRequest) {
    tour.planned_changed("13: pair 1 twice.", by_plan, |request| {
        request.plan = [0, 1, 0, 0, 1, 1].to_vec();
    });
    tour.planned_changed("13: no pair 1.", by_plan, |request| {
        request.plan.truncate(3);
    });
    tour.planned_changed(
        "13: a pair 2, which the message does not have.",
        by_plan,
        |request| request.plan.extend([0, 2, 2]),
    );
    tour.planned_changed("13: an engine 4.", by_plan, |request| {
        request.plan[2] = 4;
    });
    tour.planned_changed("13: an entry that is not whole.", by_plan, |request| {
        request.plan.truncate(5);
    });
    tour.planned_changed(
        "6 before 13: the same in too little room.",
        by_plan,
        |request| {
            request.plan.truncate(5);
            request.sealing.room = 85;
        },
    );
    tour.planned_changed(
        "0: a message of 32 bytes has no pair, and its plan no entry.",
        by_plan,
        |request| {
            request.sealing.body.truncate(32);
            request.sealing.room = 50;
            request.plan.clear();
        },
    );
}

fn planners_limits(tour: &mut Tour) {
    for (words, length, room) in [
        ("0: the plan of such a message.", 32, 2),
        ("6: a plan with room for one byte too few.", 70, 5),
        ("5: no plan for a message that is too long.", 16_385, 0),
    ] {
        tour.plan(words, Planning { length, room });
    }
}

fn bad_lines_of_plans(tour: &mut Tour) {
    tour.bad(
        "A sealing by a plan with a field too few.",
        "seal-planned 00 01 02 03 16 4",
    );
    tour.bad("A plan that names no room.", "plan 70");
    tour.bad("A plan with more room than there is.", "plan 70 20481");
}

fn after<R: Clone>(request: &R, change: fn(&mut R)) -> R {
    let mut changed = request.clone();
    change(&mut changed);
    changed
}

#[derive(Default)]
struct Tour {
    requests: String,
    answers: String,
}

impl Tour {
    fn call(&mut self, words: &str, request: &Request) {
        self.exchange(words, &Exchange::of_call(request));
    }

    fn prepare(&mut self, words: &str, key: &[u8]) {
        self.exchange(words, &Exchange::of_preparing(key));
    }

    fn exchange(&mut self, words: &str, exchange: &Exchange) {
        self.requests += &format!("# {words}\n{}", exchange.request);
        self.answers += &exchange.answer;
    }

    /// The call after a change to the request.
    fn changed(&mut self, words: &str, request: &Request, change: fn(&mut Request)) {
        self.call(words, &after(request, change));
    }

    fn carry(&mut self, words: &str, request: &CarryRequest) {
        self.exchange(words, &Exchange::of_carrying(request));
    }

    /// The carrying after a change to the request.
    fn carry_changed(
        &mut self,
        words: &str,
        request: &CarryRequest,
        change: fn(&mut CarryRequest),
    ) {
        self.carry(words, &after(request, change));
    }

    fn plan(&mut self, words: &str, request: Planning) {
        self.exchange(words, &Exchange::of_planning(&request));
    }

    fn seal_planned(&mut self, words: &str, request: &PlannedRequest) {
        self.exchange(words, &Exchange::of_planned(request));
    }

    /// The sealing by a plan after a change to the request.
    fn planned_changed(
        &mut self,
        words: &str,
        request: &PlannedRequest,
        change: fn(&mut PlannedRequest),
    ) {
        self.seal_planned(words, &after(request, change));
    }

    fn bad(&mut self, words: &str, line: &str) {
        self.requests += &format!("# {words}\n{line}\n");
        let number = self.requests.lines().count();
        self.answers += &format!("bad line {number}\n");
    }
}
