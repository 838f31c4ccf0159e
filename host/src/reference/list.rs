//! The list that the proved functions are held to: by the definition alone where the text is short, else by a faster form.

use super::by_hits::finals_by_hits;
use super::definition1::{Mapping, finals_by_definition};
use super::faster::finals;
use super::score::Task;

/// Texts up to this many entries are listed by the definition alone.
pub const BY_DEFINITION: usize = 24;

/// Texts of more entries than this are listed over their hits.
const BY_INTERVALS: usize = 20_000;

/// How a list was made.
#[derive(Clone, Copy, Debug, PartialEq, Eq)]
pub enum Form {
    Definition,
    Faster,
}

/// The form by which a text of this task's length is listed.
pub fn form_of(task: &Task) -> Form {
    if task.text.len() <= BY_DEFINITION { Form::Definition } else { Form::Faster }
}

/// Every final interval, in the order of the list.
pub fn list_of(task: &Task) -> Vec<Mapping> {
    match form_of(task) {
        Form::Definition => finals_by_definition(task),
        Form::Faster if task.text.len() > BY_INTERVALS => finals_by_hits(task),
        Form::Faster => finals(task),
    }
}
