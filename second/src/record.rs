//! The 96-byte record.

use crate::state::{Epoch, Name, NodeNo, Payload, NAME_LEN, NO_EPOCH, PAYLOAD_LEN};

/// Bytes of a record.
pub const RECORD_LEN: usize = 96;
/// Bytes 2 and 3.
const FILLER_LEN: usize = 2;

/// What a record is about. Each case's value is its kind byte.
#[derive(Clone, Copy, Debug, PartialEq, Eq)]
#[repr(u8)]
pub enum Kind {
    /// Proposal heard.
    Proposal = 1,
    /// Vote heard.
    Vote = 2,
    /// Clock heard.
    Clock = 3,
    /// Propose now.
    Propose = 4,
    /// Cast a vote now.
    Cast = 5,
    /// The minute is up.
    Minute = 6,
}

/// The column "fields used" of the kinds' table.
struct FieldsUsed {
    epoch: bool,
    name: bool,
    parent: bool,
    payload: bool,
}

impl FieldsUsed {
    const NONE: FieldsUsed = FieldsUsed {
        epoch: false,
        name: false,
        parent: false,
        payload: false,
    };
    const ALL: FieldsUsed = FieldsUsed {
        epoch: true,
        name: true,
        parent: true,
        payload: true,
    };
}

impl Kind {
    const KINDS: [Kind; 6] = [
        Kind::Proposal,
        Kind::Vote,
        Kind::Clock,
        Kind::Propose,
        Kind::Cast,
        Kind::Minute,
    ];

    /// The kind byte.
    pub fn number(self) -> u8 {
        self as u8
    }

    /// The kind of a kind byte, if there is one.
    pub fn read(byte: u8) -> Option<Kind> {
        Kind::KINDS.into_iter().find(|kind| kind.number() == byte)
    }

    /// Kinds 1 to 3 come from other nodes, kinds 4 to 6 from the own host.
    pub fn is_heard(self) -> bool {
        matches!(self, Kind::Proposal | Kind::Vote | Kind::Clock)
    }

    fn fields_used(self) -> FieldsUsed {
        match self {
            Kind::Proposal => FieldsUsed::ALL,
            Kind::Vote => FieldsUsed {
                name: true,
                ..FieldsUsed::NONE
            },
            Kind::Clock => FieldsUsed {
                epoch: true,
                ..FieldsUsed::NONE
            },
            Kind::Propose => FieldsUsed {
                name: true,
                payload: true,
                ..FieldsUsed::NONE
            },
            Kind::Cast | Kind::Minute => FieldsUsed::NONE,
        }
    }
}

/// A record's fields, in the order of its bytes.
#[derive(Clone, Debug, Default, PartialEq, Eq)]
pub struct Record {
    /// Byte 0: the kind byte as it stands.
    pub kind: u8,
    /// Byte 1.
    pub sender: NodeNo,
    /// Bytes 2 and 3.
    pub filler: [u8; FILLER_LEN],
    /// Bytes 4 to 7, low byte first.
    pub epoch: Epoch,
    /// Bytes 8 to 39.
    pub name: Name,
    /// Bytes 40 to 71.
    pub parent: Name,
    /// Bytes 72 to 95.
    pub payload: Payload,
}

impl Record {
    /// The fields of exactly 96 bytes; none of any other length.
    pub fn read(bytes: &[u8]) -> Option<Record> {
        let ([kind, sender], rest) = bytes.split_first_chunk()?;
        let (filler, rest) = rest.split_first_chunk()?;
        let (epoch, rest) = rest.split_first_chunk()?;
        let (name, rest) = rest.split_first_chunk()?;
        let (parent, rest) = rest.split_first_chunk()?;
        Some(Record {
            kind: *kind,
            sender: NodeNo(u32::from(*sender)),
            filler: *filler,
            epoch: Epoch(u32::from_le_bytes(*epoch)),
            name: *name,
            parent: *parent,
            payload: rest.try_into().ok()?,
        })
    }

    /// Writes the fields over a buffer of 96 bytes.
    pub fn write(&self, out: &mut [u8]) {
        let [sender, ..] = self.sender.0.to_le_bytes();
        let head = [self.kind, sender];
        let epoch = self.epoch.0.to_le_bytes();
        let fields: [&[u8]; 6] = [
            &head,
            &self.filler,
            &epoch,
            &self.name,
            &self.parent,
            &self.payload,
        ];
        for (byte, value) in out.iter_mut().zip(fields.into_iter().flatten()) {
            *byte = *value;
        }
    }

    /// "Fields a kind doesn't use are zero", and so are bytes 2 and 3.
    pub fn unused_zero(&self, kind: Kind) -> bool {
        let used = kind.fields_used();
        self.filler == [0; FILLER_LEN]
            && (used.epoch || self.epoch == NO_EPOCH)
            && (used.name || self.name == [0; NAME_LEN])
            && (used.parent || self.parent == [0; NAME_LEN])
            && (used.payload || self.payload == [0; PAYLOAD_LEN])
    }
}
