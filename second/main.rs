//! Shaftladder's independent second program: AES-OTR v3.1 with parallel and serial ADP and v1
//! with parallel ADP, written from the papers (000, 003) and the exact rules (01, and wishes 1,
//! 3, 5 to 9 and 13 of 02) alone. See README.md.

mod aes;
mod aes_rows;
mod archive;
mod bench;
mod bits;
mod block;
mod call;
mod carry_faults;
mod carry_keys;
mod carry_request;
mod carry_requests;
mod carrying;
#[cfg(test)]
mod carrying_tests;
mod console_sealer;
mod data_pass;
mod division;
#[cfg(test)]
mod early_tests;
mod edition;
mod exchange;
mod failure;
mod field;
#[cfg(test)]
mod field_tests;
mod files;
mod firmware;
#[cfg(test)]
mod first_tests;
mod form;
mod generator;
mod hex;
mod key;
mod known;
mod masks;
mod message_pass;
mod otr;
mod otr_parts;
mod parts;
#[cfg(test)]
mod parts_tests;
mod plan;
mod plan_damages;
mod planned;
mod planned_request;
mod planned_requests;
#[cfg(test)]
mod planned_tests;
mod prepared;
#[cfg(test)]
mod prepared_tests;
mod products;
mod random_carry;
mod random_planned;
mod random_prepared;
mod random_requests;
mod record;
mod request;
mod requests;
mod rows;
mod rules;
#[cfg(test)]
mod runs_tests;
mod sealer;
mod seam_lengths;
mod seam_requests;
mod seams;
#[cfg(test)]
mod serial_tests;
mod session;
#[cfg(test)]
mod session_tests;
mod sound_plans;
mod standin;
mod standin_parts;
#[cfg(test)]
mod tests;
mod tour;

use std::env;
use std::io::{self, Write};
use std::process::ExitCode;

use failure::{bad_input, Failure};

fn main() -> ExitCode {
    match arguments()
        .and_then(|words| run(&words))
        .and_then(|text| print(&text))
    {
        Ok(()) => ExitCode::SUCCESS,
        Err(failure) => {
            // Where stderr itself is closed the status alone has to tell.
            let _ = writeln!(io::stderr(), "{}", failure.text);
            ExitCode::from(failure.status)
        }
    }
}

fn arguments() -> Result<Vec<String>, Failure> {
    let not_text = |_| bad_input("an argument is not text".to_string());
    env::args_os()
        .skip(1)
        .map(|word| word.into_string().map_err(not_text))
        .collect()
}

fn run(words: &[String]) -> Result<String, Failure> {
    let Some((command, rest)) = words.split_first() else {
        return Err(usage());
    };
    match (command.as_str(), rest) {
        ("standin", []) => Ok(standin::command()),
        ("standin-lent", []) => Ok(standin::command_lent()),
        ("standin-parts", []) => Ok(standin_parts::command()),
        ("aes-rows", []) => Ok(aes_rows::command()),
        ("products", []) => Ok(products::command()),
        ("seams", [requests, answers]) => seams::command(requests, answers),
        ("tour", [requests, answers]) => tour::command(requests, answers),
        ("firmware", [edition, form, requests, answers]) => {
            firmware::command(edition, form, requests, answers)
        }
        ("requests", _) => requests::command(rest),
        ("prepared", _) => prepared::command(rest),
        ("parts", _) => parts::command(rest),
        ("carry", _) => carry_requests::command(rest),
        ("planned", _) => planned_requests::command(rest),
        ("archive", [archive, carried]) => archive::command(archive, carried),
        ("night", []) => Ok(bench::night()),
        ("bench", _) => bench::sealed(rest),
        ("known", _) => known::command(rest),
        _ => Err(usage()),
    }
}

fn usage() -> Failure {
    let text = "usage: second standin\n\
                \u{20}      second standin-lent\n\
                \u{20}      second standin-parts\n\
                \u{20}      second aes-rows\n\
                \u{20}      second products\n\
                \u{20}      second seams FILE_REQUESTS FILE_ANSWERS\n\
                \u{20}      second tour FILE_REQUESTS FILE_ANSWERS\n\
                \u{20}      second firmware EDITION FORM FILE_REQUESTS FILE_ANSWERS\n\
                \u{20}      second requests SEED COUNT FILE_REQUESTS FILE_ANSWERS\n\
                \u{20}      second prepared SEED COUNT FILE_REQUESTS FILE_ANSWERS\n\
                \u{20}      second parts SEED COUNT FILE_REQUESTS FILE_ANSWERS\n\
                \u{20}      second carry SEED COUNT FILE_REQUESTS FILE_ANSWERS\n\
                \u{20}      second planned SEED COUNT FILE_REQUESTS FILE_ANSWERS\n\
                \u{20}      second archive FILE_ARCHIVE FILE_CARRIED\n\
                \u{20}      second night\n\
                \u{20}      second bench EDITION FORM KEY_BYTES MESSAGE_BYTES\n\
                \u{20}      second known FILE...";
    bad_input(text.to_string())
}

fn print(text: &str) -> Result<(), Failure> {
    io::stdout()
        .write_all(text.as_bytes())
        .map_err(|error| bad_input(format!("standard output: {error}")))
}
