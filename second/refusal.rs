//! Which refusal is named, of those that apply: the first, in the order of the tests.

/// Ok if no refusal applies, else the number of the first that does.
pub fn none_of(refusals: &[(bool, u8)]) -> Result<(), u8> {
    match refusals.iter().find(|(applies, _)| *applies) {
        Some(&(_, number)) => Err(number),
        None => Ok(()),
    }
}
