//! The table "Turned back", one function a number.

use super::{Item, Slip, items_of, scopes, uses_of};

const LIMIT: u64 = 1024;
const TWO_32: u64 = 1 << 32;

/// The lowest number that applies for a call on a sheet alone.
pub fn of_sheet(sheet: &[u64]) -> Result<(), u64> {
    if is_miscounted(sheet, 2) {
        return Err(2);
    }
    numbers_3_to_7(sheet)
}

/// The lowest number that applies for a call on a sheet and a use sheet.
pub fn of_pair(sheet: &[u64], uses: &[u64]) -> Result<(), u64> {
    if is_miscounted(sheet, 2) || is_miscounted(uses, 1) {
        return Err(2);
    }
    numbers_3_to_7(sheet)?;
    if has_bad_use(sheet, uses) { Err(8) } else { Ok(()) }
}

/// The same with a scope sheet, whose number comes after all of the pair's.
pub fn of_judge(sheet: &[u64], uses: &[u64], words: &[u64], slip: Slip) -> Result<(), u64> {
    let pair = of_pair(sheet, uses);
    let asks_scopes = match pair {
        Ok(()) => true,
        Err(number) => slip == Slip::NineBeforeEight && number == 8,
    };
    if asks_scopes && scopes::is_refused(sheet, uses, words, slip) { Err(9) } else { pair }
}

fn numbers_3_to_7(sheet: &[u64]) -> Result<(), u64> {
    let items = items_of(sheet);
    if sheet[1] >= TWO_32 || items.iter().any(is_bad_item) {
        Err(3)
    } else if is_too_deep(&items) {
        Err(4)
    } else if is_badly_nested(&items) {
        Err(5)
    } else if is_off_the_line(&items, sheet[1]) {
        Err(6)
    } else if has_bad_name(&items) {
        Err(7)
    } else {
        Ok(())
    }
}

/// `fixed` words stand before the two arrays.
fn is_miscounted(words: &[u64], fixed: u64) -> bool {
    let length = words.len() as u64;
    length < fixed || words[0] > LIMIT || length != 2 * words[0] + fixed
}

fn is_bad_item(item: &Item) -> bool {
    let has_scope = item.scope_end() < TWO_32;
    let argument_fits = match item.kind {
        1 | 4 | 5 | 6 | 7 => has_scope && item.condition() == 0,
        2 | 3 => has_scope && item.condition() <= 18,
        10 | 12 | 13 => item.argument <= 65_535,
        11 => item.argument <= 7,
        16 => item.argument <= 1,
        17 => item.argument <= 127,
        8 | 9 | 14 | 15 | 18 | 19 => item.argument == 0,
        _ => false,
    };
    let span_fits = match item.kind {
        1 | 3 | 7 | 8 | 19 => item.span_word() == 0,
        _ => item.start <= item.end,
    };
    !(argument_fits && span_fits)
}

/// Bare counting: it may fall below zero and does not ask what pairs.
fn is_too_deep(items: &[Item]) -> bool {
    let mut surplus = 0;
    items.iter().any(|item| {
        match item.kind {
            1..=5 => surplus += 1,
            8 | 9 => surplus -= 1,
            _ => {}
        }
        surplus > 64
    })
}

fn is_badly_nested(items: &[Item]) -> bool {
    // The open items, and of an IF whether its ELSE was met.
    let mut open: Vec<(u64, bool)> = Vec::new();
    for (i, item) in items.iter().enumerate() {
        let before = if i == 0 { None } else { Some(items[i - 1].kind) };
        let next = items.get(i + 1).map(|next| next.kind);
        let fits = match item.kind {
            1..=5 => {
                open.push((item.kind, false));
                true
            }
            6 => open.last() == Some(&(5, false)),
            7 => {
                let fits = open.last() == Some(&(5, false));
                if fits {
                    open.pop();
                    open.push((5, true));
                }
                fits
            }
            8 => matches!(open.pop(), Some((1 | 2 | 4 | 5, _))),
            9 => matches!(open.pop(), Some((3, _))),
            10 => next == Some(11),
            11 => matches!(before, Some(10 | 11)),
            15 | 16 => matches!(next, None | Some(6..=9)),
            _ => true,
        };
        if !fits {
            return true;
        }
    }
    !open.is_empty()
}

/// Asked of well nested items only.
fn is_off_the_line(items: &[Item], outer_scope_end: u64) -> bool {
    let mut scope_ends = vec![outer_scope_end];
    let mut previous_end = 0;
    for item in items {
        // A header is held by the blocks around its statement, and a body's
        // block is gone once its closer or the next arm stands there.
        let closed = if matches!(item.kind, 6..=9) { scope_ends.pop() } else { None };
        if item.is_code() {
            if item.start < previous_end || scope_ends.iter().any(|&end| item.end > end) {
                return true;
            }
            previous_end = item.end;
        }
        if item.kind == 9 && closed != Some(item.end) {
            return true;
        }
        if matches!(item.kind, 1..=7) {
            scope_ends.push(item.scope_end());
        }
    }
    false
}

fn has_bad_name(items: &[Item]) -> bool {
    let mut local = None;
    let mut previous_end = 0;
    for item in items {
        if item.kind == 10 {
            local = Some(item);
            previous_end = 0;
        }
        if let (11, Some(local)) = (item.kind, local) {
            let is_empty = item.start == item.end;
            let is_outside = item.start < local.start || item.end > local.end;
            if is_empty || is_outside || item.start < previous_end {
                return true;
            }
            previous_end = item.end;
        }
    }
    false
}

fn has_bad_use(sheet: &[u64], uses: &[u64]) -> bool {
    let names = items_of(sheet).iter().filter(|item| item.kind == 11).count() as u64;
    uses_of(uses).iter().any(|used| {
        used.local >= names || !matches!(used.high, 0..=2 | 4..=6) || used.start > used.end
    })
}
