//! The numbers of a C function's parameters taken for a request, and its answer as a number: what
//! [`storage_unit::boundary`] does in the other direction.

use storage_unit::boundary::{
    ANSWER_NUMBER, ANSWER_PLACE, ANSWER_RULE, EXTENSIONS, FETCH, FOUR_K, ISK, ISKE, RRB, RRBE,
    SET_PREFIX, SSK, SSKE, STORE, STORE_PREFIX,
};
use storage_unit::{Answer, Request, Settings};

/// The settings from their number, or `None` if another bit is on.
#[inline]
pub const fn decode_settings(settings: u32) -> Option<Settings> {
    if settings & !(FOUR_K | EXTENSIONS) != 0 {
        return None;
    }
    Some(Settings {
        four_k: settings & FOUR_K != 0,
        extensions: settings & EXTENSIONS != 0,
    })
}

/// The request from operation number and operands. A number that no operation has is
/// taken for a fetch of count 0 at `first`, which is refused with
/// [`Reason::Operand`](storage_unit::Reason::Operand).
#[inline]
pub const fn decode_request(operation: u32, first: u32, second: u32) -> Request {
    match operation {
        FETCH => Request::fetch(first, second),
        STORE => Request::store(first, second),
        ISK => Request::isk(first, second),
        SSK => Request::ssk(first, second),
        RRB => Request::rrb(second),
        ISKE => Request::iske(first, second),
        SSKE => Request::sske(first, second),
        RRBE => Request::rrbe(second),
        SET_PREFIX => Request::set_prefix(first),
        STORE_PREFIX => Request::store_prefix(),
        _ => Request::fetch(first, 0),
    }
}

/// The answer as one number: word in the low 32 bits, place in the next 8, rule in the
/// next 8 (0 for none), number in the highest 16.
#[inline]
pub const fn encode_answer(answer: Answer) -> u64 {
    match answer {
        Ok(completed) => {
            let rule = match completed.rule {
                Some(rule) => rule.number(),
                None => 0,
            };
            completed.word as u64 | (rule as u64) << ANSWER_RULE.trailing_zeros()
        }
        Err(refusal) => {
            (refusal.place as u64) << ANSWER_PLACE.trailing_zeros()
                | (refusal.reason.number() as u64) << ANSWER_NUMBER.trailing_zeros()
        }
    }
}

/// The number of an answer: 0 if it is completed.
#[inline]
pub const fn number(answer: Answer) -> u16 {
    match answer {
        Ok(_) => 0,
        Err(refusal) => refusal.reason.number(),
    }
}
