//! Updating: the items.

use std::cmp::min;

use super::conversion::fits;
use super::elements::{Element, Items};
use super::reading::within;
use super::table::Table;
use super::values::{is_value, Form};
use super::{Outcome, Refusal, MOST_ITEMS};

/// Tests the items, and notes where those of each element begin.
pub(super) fn test_items(table: &Table, elements: &mut [Element], buffer: &[u8]) -> Outcome<()> {
    let buffer = &buffer[..min(buffer.len(), MOST_ITEMS)];
    let mut at = 0;
    for element in elements {
        element.at = at as u16;
        let end = match element.kind {
            Items::Blanks | Items::Text => at + usize::from(element.form.length),
            Items::Count => at + 1,
            Items::Values => test_values(table, element, buffer, at)?,
        };
        at = within(end, buffer.len())?;
    }
    Ok(())
}

fn test_values(table: &Table, element: &Element, buffer: &[u8], mut at: usize) -> Outcome<usize> {
    for _ in element.occurrences() {
        for (_, field) in table.fields(element.first(), element.end()) {
            let from = if element.standard { field.form } else { element.form };
            for _ in 0..element.values_named() {
                let value = value_at(buffer, at, from)?;
                if !is_value(value, from) {
                    return Err(Refusal::BadValue);
                }
                if !fits(value, from, field.form) {
                    return Err(Refusal::NoFit);
                }
                at += value.len();
            }
        }
    }
    Ok(at)
}

pub(super) fn value_at(buffer: &[u8], at: usize, form: Form) -> Outcome<&[u8]> {
    let mut length = form.length;
    if form.is_variable() {
        length = *buffer.get(at).ok_or(Refusal::BeyondBuffer)?;
        if length == 0 || length == 255 {
            return Err(Refusal::BadValue);
        }
    }
    buffer.get(at..at + usize::from(length)).ok_or(Refusal::BeyondBuffer)
}
