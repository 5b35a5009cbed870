//! What the program prints for the bytes of its standard input.

use crate::maker::make;
use crate::sheet::read;
use std::fmt::Write;

pub const MOST_BYTES: usize = 1024;
pub const WORK_WORDS: usize = 16384;
pub const ANSWER_WORDS: usize = 33;

pub fn prints(bytes: &[u8]) -> String {
    if bytes.len() > MOST_BYTES || !bytes.len().is_multiple_of(4) {
        return "refused 12\n".to_string();
    }
    let word = |four: &[u8]| u32::from_le_bytes([four[0], four[1], four[2], four[3]]);
    let words: Vec<u32> = bytes.chunks_exact(4).map(word).collect();
    let mut answer = [0; ANSWER_WORDS];
    let refusal = make(&words, &mut vec![0; WORK_WORDS], &mut answer);
    match read(&words) {
        Ok(sheet) if refusal == 0 => {
            let (count, length) = (answer[0] >> 21 & 0x7F, answer[0] & 0x1F_FFFF);
            let mut text = format!("labels {count} length {length}\n");
            for (number, site) in sheet.sites.iter().enumerate() {
                let slot = answer[number + 1] & 0xFF;
                let _ = writeln!(text, "site {number} colour {} slot {slot}", site.colour);
            }
            text
        }
        _ => format!("refused {refusal}\n"),
    }
}
