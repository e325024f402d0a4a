//! Answers: their size, the numbers and texts of the reasons, and an answer that is not known.

use std::error::Error;

use storage_unit::boundary::{RawFetch, call_fetch};
use storage_unit::{Answer, Completed, Processor, Reason, Refusal, Rule, Settings, UnknownReason};

/// Eight bytes come back in a register.
#[test]
fn an_answer_has_eight_bytes() {
    assert_eq!(size_of::<Answer>(), 8);
    assert_eq!(size_of::<Completed>(), 8);
    assert_eq!(size_of::<Refusal>(), 2);
}

#[test]
fn each_number_has_its_reason() {
    let expected = [
        (64, Reason::Configuration),
        (65, Reason::Record),
        (66, Reason::Operand),
        (1, Reason::Operation),
        (2, Reason::Privileged),
        (19, Reason::SpecialOperation),
        (6, Reason::Specification),
        (5, Reason::Addressing),
        (4, Reason::Protection),
    ];
    assert_eq!(expected.map(|(_, reason)| reason), Reason::ALL);
    for number in 0..=u16::MAX {
        let found = expected.iter().find(|(each, _)| *each == number);
        let reason = found
            .map(|(_, reason)| *reason)
            .ok_or(UnknownReason(number));
        assert_eq!(Reason::try_from(number), reason);
        if let Ok(reason) = reason {
            assert_eq!((reason.number(), u16::from(reason)), (number, number));
            let code = (number < 64).then_some(number);
            assert_eq!(reason.interruption_code(), code);
        }
    }
}

/// The place is shown where an access has one.
#[test]
fn refusals_in_words() {
    for reason in Reason::ALL {
        let text = Refusal { reason, place: 0 }.to_string();
        let expected = format!("{reason} (number {})", reason.number());
        match reason {
            Reason::Addressing | Reason::Protection => {
                assert_eq!(text, format!("{expected}, place 0"));
            }
            _ => assert_eq!(text, expected),
        }
    }
    let refusal = Refusal {
        reason: Reason::Protection,
        place: 255,
    };
    assert_eq!(
        refusal.to_string(),
        "protection exception (number 4), place 255"
    );
    assert_eq!(
        format!("{:>22}", Reason::Protection),
        "  protection exception"
    );
}

#[test]
fn they_are_errors() {
    fn text(error: impl Error + Send + Sync + 'static) -> String {
        let error: Box<dyn Error + Send + Sync> = error.into();
        assert!(error.source().is_none());
        error.to_string()
    }
    let refusal = Refusal {
        reason: Reason::Record,
        place: 0,
    };
    assert_eq!(text(refusal), refusal.to_string());
    assert_eq!(text(Reason::Record), Reason::Record.to_string());
    assert_eq!(text(UnknownReason(3)), "3 is not the number of a refusal");
}

macro_rules! fetch_that_gives {
    ($packed:expr) => {{
        unsafe extern "C" fn fetch(
            _: u32,
            _: *const u8,
            _: usize,
            _: *mut u8,
            _: usize,
            _: u64,
            _: u32,
            _: *mut u8,
            _: usize,
        ) -> u64 {
            $packed
        }
        answer_of(fetch)
    }};
}

fn answer_of(fetch: RawFetch) -> Answer {
    let (settings, own) = (Settings::default(), Processor::default());
    // SAFETY: the function uses none of the bytes.
    unsafe { call_fetch(fetch, settings, &[], &mut [], &own, 0, &mut []) }
}

/// An answer that this crate does not know is refused, with a place that shows it.
#[test]
fn answers_that_are_not_known() {
    let completed = Completed {
        word: 7,
        rule: Some(Rule::Prefix),
    };
    assert_eq!(fetch_that_gives!(0x0000_0200_0000_0007), Ok(completed));
    let refusal = Refusal {
        reason: Reason::Configuration,
        place: 255,
    };
    assert_eq!(
        refusal.to_string(),
        "the library that is linked is not of this crate's version"
    );
    let unknown = Err(refusal);
    // The number 67, the rule 4, a completed request with a place, a refused one with a word.
    assert_eq!(fetch_that_gives!(0x0043_0000_0000_0000), unknown);
    assert_eq!(fetch_that_gives!(0x0000_0400_0000_0000), unknown);
    assert_eq!(fetch_that_gives!(0x0000_0001_0000_0000), unknown);
    assert_eq!(fetch_that_gives!(0x0004_0000_0000_0001), unknown);
}
