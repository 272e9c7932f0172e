//! The command `archive`: a small archive of logs, and the archive that carrying it gives (wish
//! 8 of 02). The format is that of archive/README.md.

use crate::carry_requests::{carrying, WAYS};
use crate::failure::Failure;
use crate::files;
use crate::generator::Generator;
use crate::seam_lengths::Lengths;

const SEED: u64 = u64::MAX - 5;
const TITLE: &str = "# An example archive: its keys are known to everyone.\n";

/// For each way: the message's length and the tag's, then the key's, the nonce's and the data's
/// on the old side, and these on the new side.
const LOGS: [(usize, usize, [usize; 3], [usize; 3]); 6] = [
    (0, 16, [16, 12, 5], [32, 12, 7]),
    (1, 4, [24, 12, 0], [16, 15, 16]),
    (31, 15, [32, 1, 17], [24, 12, 0]),
    (32, 16, [16, 15, 16], [24, 1, 33]),
    (33, 8, [32, 12, 0], [32, 12, 0]),
    (300, 16, [24, 12, 40], [24, 8, 40]),
];

pub fn command(file_archive: &str, file_carried: &str) -> Result<String, Failure> {
    let [archive, carried] = archive_and_carried();
    files::write(file_archive, &archive)?;
    files::write(file_carried, &carried)?;
    Ok(String::new())
}

/// The remarks are the same in both.
pub fn archive_and_carried() -> [String; 2] {
    let draw = &mut Generator::new(SEED);
    let (mut archive, mut carried) = (TITLE.to_string(), TITLE.to_string());
    for way in WAYS {
        let remark = format!("\n# Edition and form {} and {}.\n", way.0, way.1);
        archive += &remark;
        carried += &remark;
        for lengths in LOGS {
            let over = carrying(draw, way, both_sides(lengths));
            let back = over.back().expect("the example's logs are carried");
            archive += &format!("{}\n", over.log());
            carried += &format!("{}\n", back.log());
        }
    }
    [archive, carried]
}

fn both_sides((message, t, old, new): (usize, usize, [usize; 3], [usize; 3])) -> [Lengths; 2] {
    [old, new].map(|[key, nonce, data]| Lengths {
        key,
        nonce,
        data,
        message,
        t,
    })
}
