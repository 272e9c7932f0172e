//! How a message is divided into parts.

use crate::generator::Generator;

#[derive(Clone, Copy)]
pub enum Division {
    /// Parts of so many bytes, the last of what is left. An empty message has no part.
    Of(usize),
    /// One part, also of an empty message.
    Whole,
    /// As a solver has them ready, empty ones among them.
    Irregular,
}

impl Division {
    pub fn parts<'a>(self, draw: &mut Generator, message: &'a [u8]) -> Vec<&'a [u8]> {
        match self {
            Division::Of(len) => message.chunks(len).collect(),
            Division::Whole => vec![message],
            Division::Irregular => irregular(draw, message),
        }
    }
}

fn irregular<'a>(draw: &mut Generator, message: &'a [u8]) -> Vec<&'a [u8]> {
    let mut parts = Vec::new();
    let mut rest = message;
    while !rest.is_empty() {
        let len = some_length(draw, message.len()).min(rest.len());
        let (part, behind) = rest.split_at(len);
        parts.push(part);
        rest = behind;
    }
    parts
}

/// On both sides of the blocks and pairs, or any up to half of all.
fn some_length(draw: &mut Generator, all: usize) -> usize {
    if draw.one_in(2) {
        draw.pick(&[0, 1, 2, 15, 16, 17, 31, 32, 33, 63, 64, 65])
    } else {
        draw.below(all / 2 + 2)
    }
}
