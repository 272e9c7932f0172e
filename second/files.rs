//! Files that a command leaves.

use std::fs;

use crate::exchange::Exchange;
use crate::failure::{bad_input, Failure};
use crate::request::Request;

pub fn write_requests(
    requests: &[Request],
    file_requests: &str,
    file_answers: &str,
) -> Result<(), Failure> {
    let exchanges = requests.iter().map(Exchange::of_call);
    write_exchanges(exchanges, file_requests, file_answers)
}

/// The request lines into one file, and line for line their answers into the other.
pub fn write_exchanges(
    exchanges: impl Iterator<Item = Exchange>,
    file_requests: &str,
    file_answers: &str,
) -> Result<(), Failure> {
    let (mut request_lines, mut answer_lines) = (String::new(), String::new());
    for exchange in exchanges {
        request_lines += &exchange.request;
        answer_lines += &exchange.answer;
    }
    write(file_requests, &request_lines)?;
    write(file_answers, &answer_lines)
}

pub fn write(file: &str, lines: &str) -> Result<(), Failure> {
    fs::write(file, lines).map_err(|error| bad_input(format!("{file}: {error}")))
}
