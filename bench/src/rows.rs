//! Rows: one byte for each variable, a value or the mark.

use crate::task::{Move, MARK};

/// Whether s has the mark or t's byte at each variable.
pub fn covers(s: &[u8], t: &[u8]) -> bool {
    s.iter().zip(t).all(|(&a, &b)| a == MARK || a == b)
}

/// Regresses a row over a move; tells whether it did. The buffer then holds the result.
pub fn regress(m: &Move, row: &[u8], out: &mut [u8]) -> bool {
    if !is_regressed(m, row) {
        return false;
    }
    for (((o, &g), &c), &e) in out.iter_mut().zip(row).zip(m.condition).zip(m.effect) {
        *o = if c != MARK {
            c
        } else if e != MARK {
            MARK
        } else {
            g
        };
    }
    true
}

/// The move brings about some value of the row, and contradicts none.
fn is_regressed(m: &Move, row: &[u8]) -> bool {
    let mut hits = false;
    for ((&g, &c), &e) in row.iter().zip(m.condition).zip(m.effect) {
        if g == MARK {
            continue;
        }
        if e == g {
            hits = true;
        } else if e != MARK || (c != MARK && c != g) {
            return false;
        }
    }
    hits
}
