//! Refusals: why a call is refused, by the numbers of docs/RULES.md.

/// Why a call of a line or of a session is refused. Packing is no call of
/// these, so its number 16 is not here.
#[derive(Clone, Copy, Debug, PartialEq, Eq)]
pub enum Refusal {
    SuiteCount = 1,
    NodeCount = 2,
    RepeatedNode = 3,
    MemorySize = 4,
    NoSuchSlot = 5,
    SlotState = 6,
    UnknownNode = 7,
    MoveFull = 8,
    NoVersion = 9,
    LineFull = 10,
    NothingWaiting = 11,
    AllTaken = 12,
    NotRuled = 13,
    MessageLength = 14,
    NoSuchMessage = 15,
}

impl Refusal {
    pub fn number(self) -> u8 {
        self as u8
    }

    /// The words in which a program tells the refusal.
    pub fn words(self) -> String {
        format!("no {}", self.number())
    }
}

#[cfg(test)]
mod tests {
    use super::*;

    #[test]
    fn refusals_have_their_numbers() {
        let refusals = [
            Refusal::SuiteCount,
            Refusal::NodeCount,
            Refusal::RepeatedNode,
            Refusal::MemorySize,
            Refusal::NoSuchSlot,
            Refusal::SlotState,
            Refusal::UnknownNode,
            Refusal::MoveFull,
            Refusal::NoVersion,
            Refusal::LineFull,
            Refusal::NothingWaiting,
            Refusal::AllTaken,
            Refusal::NotRuled,
            Refusal::MessageLength,
            Refusal::NoSuchMessage,
        ];
        for (refusal, number) in refusals.into_iter().zip(1..) {
            assert_eq!(refusal.number(), number);
        }
    }
}
