//! NIST's AES response files against this program's forward cipher.

use std::fs;

use crate::aes::Aes;
use crate::block::Block;
use crate::failure::{bad_input, differs, Failure};
use crate::hex;

pub fn command(files: &[String]) -> Result<String, Failure> {
    if files.is_empty() {
        return Err(bad_input("known: no file given".to_string()));
    }
    let mut compared = 0;
    for file in files {
        compared += compare_file(file)?;
    }
    Ok(format!("known answers {compared}\n"))
}

fn compare_file(file: &str) -> Result<usize, Failure> {
    let text = fs::read_to_string(file).map_err(|error| bad_input(format!("{file}: {error}")))?;
    let mut reader = Reader::default();
    for (index, line) in text.lines().enumerate() {
        let place = |problem: Problem| problem.at(file, index + 1);
        reader.line(line.trim()).map_err(place)?;
    }
    let end = text.lines().count();
    reader
        .no_open_record()
        .map_err(|problem| problem.at(file, end))?;
    if reader.compared == 0 {
        return Err(bad_input(format!("{file}: no records")));
    }
    Ok(reader.compared)
}

enum Problem {
    Unusable(String),
    Different(String),
}

impl Problem {
    fn at(self, file: &str, line: usize) -> Failure {
        match self {
            Problem::Unusable(what) => bad_input(format!("{file}:{line}: {what}")),
            Problem::Different(what) => differs(format!("{file}:{line}: {what}")),
        }
    }
}

fn unusable(what: &str) -> Problem {
    Problem::Unusable(what.to_string())
}

#[derive(Default)]
struct Record {
    aes: Option<Aes>,
    plaintext: Option<Block>,
    ciphertext: Option<Block>,
}

/// Reads a file line by line; a record runs from its COUNT to its third string.
#[derive(Default)]
struct Reader {
    in_section: bool,
    record: Option<Record>,
    compared: usize,
}

impl Reader {
    fn line(&mut self, line: &str) -> Result<(), Problem> {
        if line.is_empty() || line.starts_with('#') {
            return Ok(());
        }
        if line == "[ENCRYPT]" || line == "[DECRYPT]" {
            self.in_section = true;
            return self.no_open_record();
        }
        let Some((name, value)) = line.split_once('=') else {
            return Err(unusable("neither a section nor NAME = VALUE"));
        };
        match name.trim() {
            "COUNT" => self.count(value.trim()),
            name => self.string(name, value.trim()),
        }
    }

    fn count(&mut self, value: &str) -> Result<(), Problem> {
        self.no_open_record()?;
        if !self.in_section {
            return Err(unusable("COUNT before [ENCRYPT] or [DECRYPT]"));
        }
        if value.parse::<u64>().is_err() {
            return Err(unusable("COUNT is not a number"));
        }
        self.record = Some(Record::default());
        Ok(())
    }

    fn string(&mut self, name: &str, value: &str) -> Result<(), Problem> {
        let Some(record) = &mut self.record else {
            return Err(unusable("a line outside a record"));
        };
        let bytes = hex::decode(value).ok_or_else(|| unusable("not hexadecimal"))?;
        match name {
            "KEY" => set(&mut record.aes, keyed(&bytes)?)?,
            "PLAINTEXT" => set(&mut record.plaintext, one_block(&bytes)?)?,
            "CIPHERTEXT" => set(&mut record.ciphertext, one_block(&bytes)?)?,
            _ => return Err(unusable("unknown name")),
        }
        self.compare_if_complete()
    }

    fn compare_if_complete(&mut self) -> Result<(), Problem> {
        if let Some(Record {
            aes: Some(aes),
            plaintext: Some(p),
            ciphertext: Some(c),
        }) = &self.record
        {
            compare(aes, p, c)?;
            self.compared += 1;
            self.record = None;
        }
        Ok(())
    }

    fn no_open_record(&self) -> Result<(), Problem> {
        match self.record {
            Some(_) => Err(unusable("the record up to here is not complete")),
            None => Ok(()),
        }
    }
}

fn keyed(key: &[u8]) -> Result<Aes, Problem> {
    Aes::new(key).ok_or_else(|| unusable("the key has not 16, 24 or 32 bytes"))
}

fn one_block(bytes: &[u8]) -> Result<Block, Problem> {
    bytes
        .try_into()
        .map_err(|_| unusable("not one block of 16 bytes"))
}

fn set<T>(place: &mut Option<T>, value: T) -> Result<(), Problem> {
    match place.replace(value) {
        Some(_) => Err(unusable("the same name twice in a record")),
        None => Ok(()),
    }
}

/// In both sections the cipher of the plaintext must be the ciphertext.
fn compare(aes: &Aes, plaintext: &Block, ciphertext: &Block) -> Result<(), Problem> {
    let ours = aes.cipher(plaintext);
    if ours == *ciphertext {
        return Ok(());
    }
    let (file_has, ours) = (hex::encode(ciphertext), hex::encode(&ours));
    Err(Problem::Different(format!(
        "the file has {file_has}, this program gives {ours}"
    )))
}
