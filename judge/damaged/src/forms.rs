//! Which forms of cards are drawn: those that the library takes. Version 2 with blocks of 512 bytes stays the most frequent.
use model::Known;
use volumes::{Form, Rng};

/// The forms that are known.
pub fn forms(known: Known) -> &'static [Form] {
    match (known.version_1, known.code_1) {
        (false, false) => &[Form::V2],
        (true, false) => &[Form::V2, Form::V1],
        (false, true) => &[Form::V2, Form::Large],
        (true, true) => &[Form::V2, Form::V1, Form::Large],
    }
}

/// The form of a card at random; nothing is drawn where there is but one.
pub fn draw_form(known: Known, rng: &mut Rng) -> Form {
    let others = &forms(known)[1..];
    if others.is_empty() || !rng.one_in(3) {
        return Form::V2;
    }
    *rng.pick(others)
}

/// One that may have few blocks: no card of version 1 does.
pub fn draw_small_form(known: Known, rng: &mut Rng) -> Form {
    match draw_form(known, rng) {
        Form::V1 => Form::V2,
        form => form,
    }
}
