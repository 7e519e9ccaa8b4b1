//! "The printed sheet": from the bytes on standard input to the lines.

use super::Reading;
use crate::answers::{Answer, Judgement};

/// The words of a sheet and of the use sheet behind it, if the bytes make
/// words. The sheet's length stands in its first word. A sheet cut short, and
/// one whose count is too large to tell where it ends, has no use sheet.
pub fn pair_of(bytes: &[u8]) -> Option<(Vec<u64>, Vec<u64>)> {
    let (chunks, spare) = bytes.as_chunks::<8>();
    let mut sheet: Vec<u64> = chunks.iter().map(|chunk| u64::from_le_bytes(*chunk)).collect();
    let length = match sheet.first() {
        Some(&count) if count <= 1024 => 2 * count as usize + 2,
        _ => sheet.len(),
    };
    let uses = sheet.split_off(length.min(sheet.len()));
    spare.is_empty().then_some((sheet, uses))
}

/// No scope sheet comes with the bytes.
pub fn printed(reading: &Reading, bytes: &[u8]) -> Vec<u8> {
    let judged =
        pair_of(bytes).ok_or(2).and_then(|(sheet, uses)| reading.judge(&sheet, &uses, &[]));
    lines(&judged)
}

pub fn lines(answer: &Answer<Judgement>) -> Vec<u8> {
    let judgement = match answer {
        Ok(judgement) => judgement,
        Err(number) => return format!("refused {number}\n").into_bytes(),
    };
    let [nodes, codes, names] = judgement.chart.counts();
    let mut text = format!("graph {nodes} {codes} {names}\nexits");
    for flag in &judgement.chart.reachable[..5] {
        text += &format!(" {flag}");
    }
    text += "\n";
    for (word, span) in judgement.finding_word.iter().zip(&judgement.finding_span) {
        let local = word % (1 << 32) / 2;
        let (start, end) = (span % (1 << 32), span >> 32);
        text += &if word % 2 == 0 {
            format!("unassigned {local} {} {start} {end}\n", (word >> 32) - 1)
        } else {
            format!("overwritten {local} {start} {end}\n")
        };
    }
    text.into_bytes()
}
