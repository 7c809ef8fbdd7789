//! The answer numbers.

/// The answer of a record that is taken, and of a start that isn't refused.
pub const TAKEN: u8 = 0;

/// Why a call is refused. Each case's value is its number in the answer table.
#[derive(Clone, Copy, Debug, PartialEq, Eq, PartialOrd, Ord)]
#[repr(u8)]
pub enum Refusal {
    /// The state isn't well shaped.
    State = 1,
    /// The state is torn.
    Torn = 2,
    /// A lent slice doesn't have the length asked for.
    Length = 3,
    /// The kind isn't 1 to 6.
    Kind = 4,
    /// An unused field or byte 2 or 3 isn't zero.
    Filler = 5,
    /// The sender may not send this kind.
    Sender = 6,
    /// The epoch is out of range.
    Epoch = 7,
    /// The name is all zero or already in the table.
    Name = 8,
    /// The name spoken of isn't in the table.
    Unknown = 9,
    /// The epoch isn't above the one it must be above.
    Order = 10,
    /// It is another node's turn to propose.
    Turn = 11,
    /// The same was taken before.
    Repeat = 12,
    /// No block may be voted for.
    Nothing = 13,
    /// 64 blocks are held.
    Full = 14,
    /// The start's counts are out of range.
    Start = 15,
    /// In a hall: the receiver isn't an honest node.
    Receiver = 20,
    /// In a hall: an honest node never cast this vote.
    NeverCast = 21,
    /// In a hall: the name stands for another block.
    Renamed = 22,
}

impl Refusal {
    /// The number of the answer table.
    pub fn number(self) -> u8 {
        self as u8
    }
}
