//! Comparison by another road: two sheets of a net allow the same exactly where the words of their
//! short forms are equal (§11.9), which crossing out pairs has made.

use super::words::Words;
use super::{form, schedule_faults, sheet_faults, Faults, NOTHING};
use crate::call::{Call, Outcome};
use crate::model::MAX_WEIGHT;

/// The steps of the one sheet, then those of the other, then 22; the two lengths, whether both allow
/// the same, and no sheet.
pub fn faults_and_forms(
    call: &Call,
    net: &Words,
    faults: &mut Faults,
    left: &mut Outcome,
) -> Vec<u64> {
    let first = sheet(net, &call.sheet, 1, faults);
    let second = sheet(net, &call.others[0], 2, faults);
    let (Some(first), Some(second), true) = (first, second, faults.none()) else {
        return vec![0; 4];
    };
    let forms = [form::short_form(net, &first), form::short_form(net, &second)];
    for (out, form) in [&mut left.out, &mut left.list].into_iter().zip(&forms) {
        faults.note(out.len() < form.len(), 99, 22, NOTHING, 0);
        out.iter_mut().zip(form).for_each(|(to, &word)| *to = word as u32);
    }
    let same = u64::from(forms[0] == forms[1]);
    vec![forms[0].len() as u64, forms[1].len() as u64, same, 0]
}

/// One of the sheets, counted from 1, with all faults that it has as a schedule of the net.
fn sheet(net: &Words, words: &[u32], number: u64, faults: &mut Faults) -> Option<Words> {
    let mut own = Faults::default();
    let sheet = sheet_faults(net, words, (1, MAX_WEIGHT), &mut own);
    if let Some(sheet) = &sheet {
        schedule_faults(net, sheet, &mut own);
    }
    faults.note_sheet(own, number);
    sheet
}
