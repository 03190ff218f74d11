//! From the numbers that the library returns to the types of this crate.
use crate::Refusal;

/// Whether the library answered. A number that is no refusal means that the library linked is not the one this crate was written for:
/// nothing it says can then be believed, so this panics rather than guess.
pub fn answered(number: u32) -> Result<(), Refusal> {
    match (number, Refusal::from_number(number)) {
        (0, _) => Ok(()),
        (_, Some(refusal)) => Err(refusal),
        (_, None) => panic!("libheddleplume.a returned {number}, which is no refusal: it is of another version than this crate"),
    }
}

/// The same for a value that must be one of a few.
pub fn unheard_of(what: &str, number: u32) -> ! {
    panic!("libheddleplume.a gave {number} as {what}: it is of another version than this crate")
}

/// A value that is 1 for yes and 0 for no.
pub fn yes_or_no(number: u32) -> bool {
    match number {
        0 => false,
        1 => true,
        _ => unheard_of("yes or no", number),
    }
}

#[cfg(test)]
mod tests {
    use super::*;

    #[test]
    fn known_numbers() {
        assert_eq!(answered(0), Ok(()));
        assert_eq!(answered(6), Err(Refusal::BadNumber));
    }

    #[test]
    #[should_panic(expected = "returned 16, which is no refusal")]
    fn a_number_that_no_library_of_ours_returns() {
        let _ = answered(16);
    }
}
