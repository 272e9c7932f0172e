//! The command `requests`, and what it shares with `prepared`, `parts`, `carry` and `planned`:
//! the file of requests and the file of answers.

use crate::exchange::Exchange;
use crate::failure::{bad_input, Failure};
use crate::files;
use crate::generator::Generator;
use crate::random_requests::random_request;
use crate::seam_requests::seam_requests;

/// All requests are held in memory.
const COUNT_MAX: u64 = 100_000;

pub fn command(arguments: &[String]) -> Result<String, Failure> {
    let fixed = || seam_requests().iter().map(Exchange::of_call).collect();
    let random = |draw: &mut Generator| [Exchange::of_call(&random_request(draw))];
    write_seeded("requests", arguments, fixed, random)
}

/// `SEED COUNT FILE_REQUESTS FILE_ANSWERS`: the fixed ones, then COUNT times random ones.
pub fn write_seeded<R: IntoIterator<Item = Exchange>>(
    command: &str,
    arguments: &[String],
    fixed: fn() -> Vec<Exchange>,
    random: fn(&mut Generator) -> R,
) -> Result<String, Failure> {
    let bad = |what: String| bad_input(format!("{command}: {what}"));
    let [seed, count, file_requests, file_answers] = arguments else {
        let usage = "expected SEED COUNT FILE_REQUESTS FILE_ANSWERS";
        return Err(bad(usage.to_string()));
    };
    let draw = &mut Generator::new(number("SEED", seed).map_err(bad)?);
    let count = number("COUNT", count).map_err(bad)?;
    if count > COUNT_MAX {
        return Err(bad(format!("COUNT is over {COUNT_MAX}")));
    }
    let mut exchanges = fixed();
    exchanges.extend((0..count).flat_map(|_| random(draw)));
    let written = format!("{command} {}\n", exchanges.len());
    files::write_exchanges(exchanges.into_iter(), file_requests, file_answers)?;
    Ok(written)
}

fn number(name: &str, text: &str) -> Result<u64, String> {
    text.parse()
        .map_err(|_| format!("{name} is not a number: {text}"))
}
