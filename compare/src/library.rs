//! The static library of `crates/waldimu` as a side, over its C functions.
//! `include/waldimu.h` says what they take and give.

use crate::answers::*;
use crate::lent::*;

unsafe extern "C" {
    fn waldimu_chart(
        sheet: *const u64,
        sheet_words: usize,
        first: *mut u64,
        first_cells: usize,
        second: *mut u64,
        second_cells: usize,
        start: *mut u64,
        start_cells: usize,
        reachable: *mut u64,
        reachable_cells: usize,
        code_span: *mut u64,
        code_span_cells: usize,
        code_node: *mut u64,
        code_node_cells: usize,
        name_span: *mut u64,
        name_span_cells: usize,
        name_node: *mut u64,
        name_node_cells: usize,
        name_end: *mut u64,
        name_end_cells: usize,
    ) -> u64;
    fn waldimu_judge(
        sheet: *const u64,
        sheet_words: usize,
        uses: *const u64,
        use_words: usize,
        scopes: *const u64,
        scope_words: usize,
        first: *mut u64,
        first_cells: usize,
        second: *mut u64,
        second_cells: usize,
        start: *mut u64,
        start_cells: usize,
        reachable: *mut u64,
        reachable_cells: usize,
        code_span: *mut u64,
        code_span_cells: usize,
        code_node: *mut u64,
        code_node_cells: usize,
        name_span: *mut u64,
        name_span_cells: usize,
        name_node: *mut u64,
        name_node_cells: usize,
        name_end: *mut u64,
        name_end_cells: usize,
        finding_word: *mut u64,
        finding_word_cells: usize,
        finding_span: *mut u64,
        finding_span_cells: usize,
        mark: *mut u64,
        mark_cells: usize,
    ) -> u64;
    fn waldimu_run(sheet: *const u64, sheet_words: usize, offset: u32) -> u64;
    fn waldimu_label_check(sheet: *const u64, sheet_words: usize) -> u64;
}

/// The word that the library's chart gives.
pub fn chart_word(sheet: &[u64], columns: &mut [Vec<u64>]) -> u64 {
    let [a, b, c, d, e, f, g, h, i] = &mut columns[..] else {
        panic!("chart takes nine columns");
    };
    // Safe: each pointer and count are those of a slice, and no two overlap.
    unsafe {
        waldimu_chart(
            sheet.as_ptr(),
            sheet.len(),
            a.as_mut_ptr(),
            a.len(),
            b.as_mut_ptr(),
            b.len(),
            c.as_mut_ptr(),
            c.len(),
            d.as_mut_ptr(),
            d.len(),
            e.as_mut_ptr(),
            e.len(),
            f.as_mut_ptr(),
            f.len(),
            g.as_mut_ptr(),
            g.len(),
            h.as_mut_ptr(),
            h.len(),
            i.as_mut_ptr(),
            i.len(),
        )
    }
}

/// The word that its judge gives. A scope sheet of 0 words is none.
pub fn judge_word(sheet: &[u64], uses: &[u64], scopes: &[u64], columns: &mut [Vec<u64>]) -> u64 {
    let [a, b, c, d, e, f, g, h, i, j, k, l] = &mut columns[..] else {
        panic!("judge takes twelve columns");
    };
    // Safe: each pointer and count are those of a slice, and no two overlap.
    unsafe {
        waldimu_judge(
            sheet.as_ptr(),
            sheet.len(),
            uses.as_ptr(),
            uses.len(),
            scopes.as_ptr(),
            scopes.len(),
            a.as_mut_ptr(),
            a.len(),
            b.as_mut_ptr(),
            b.len(),
            c.as_mut_ptr(),
            c.len(),
            d.as_mut_ptr(),
            d.len(),
            e.as_mut_ptr(),
            e.len(),
            f.as_mut_ptr(),
            f.len(),
            g.as_mut_ptr(),
            g.len(),
            h.as_mut_ptr(),
            h.len(),
            i.as_mut_ptr(),
            i.len(),
            j.as_mut_ptr(),
            j.len(),
            k.as_mut_ptr(),
            k.len(),
            l.as_mut_ptr(),
            l.len(),
        )
    }
}

pub struct Library;

/// A word's bits 0 to 3 are a refusal's number, 0 where the call is accepted.
/// A refusal has no other bits.
fn accepted(word: u64) -> Answer<u64> {
    match word % 16 {
        0 => Ok(word),
        number => {
            assert_eq!(word, number, "a refusal with more than its number");
            Err(number)
        }
    }
}

/// Nodes, codes and names.
fn counts(word: u64) -> Vec<u64> {
    vec![word >> 4 & 0xfff, word >> 16 & 0xffff, word >> 32 & 0xffff]
}

impl Lending for Library {
    fn name(&self) -> String {
        String::from("static library")
    }

    fn working_columns(&self, _call: Call) -> usize {
        0
    }

    fn cell_bits(&self, _column: usize) -> u32 {
        64
    }

    fn working_bits(&self) -> u32 {
        64
    }

    fn chart(&mut self, sheet: &[u64], lent: &mut Lent) -> Returned {
        let word = chart_word(sheet, &mut lent.written);
        assert_eq!(word >> 48, 0, "chart finds nothing");
        accepted(word).map(counts)
    }

    fn judge(&mut self, sheet: &[u64], uses: &[u64], scopes: &[u64], lent: &mut Lent) -> Returned {
        let word = judge_word(sheet, uses, scopes, &mut lent.written);
        accepted(word).map(|word| [counts(word), vec![word >> 48]].concat())
    }

    fn run(&mut self, sheet: &[u64], offset: u32) -> Answer<Run> {
        // Safe: the pointer and the count are those of a slice.
        let word = accepted(unsafe { waldimu_run(sheet.as_ptr(), sheet.len(), offset) })?;
        Ok(((word >> 32).checked_sub(1), word as u32 / 16 == 1))
    }

    fn label_check(&mut self, sheet: &[u64]) -> Answer<bool> {
        // Safe: the pointer and the count are those of a slice.
        let word = accepted(unsafe { waldimu_label_check(sheet.as_ptr(), sheet.len()) })?;
        Ok(word / 16 == 1)
    }
}
