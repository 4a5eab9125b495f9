//! What a call answers: a value, or a refusal with its number and place.

/// A refusal of docs/RULES.md.
#[derive(Clone, Copy, Debug, PartialEq, Eq)]
pub struct Refusal {
    pub number: u64,
    pub place: u64,
}

pub type Answer<T> = Result<T, Refusal>;

/// Refuses unless the condition holds. Calls list their refusals with it, in their order.
pub fn require(condition: bool, number: u64, place: u64) -> Answer<()> {
    if condition {
        Ok(())
    } else {
        Err(Refusal { number, place })
    }
}
