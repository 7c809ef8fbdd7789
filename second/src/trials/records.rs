//! A record of each kind, laid out in its 96 bytes.

use crate::record::{Kind, Record, RECORD_LEN};
use crate::state::{Epoch, Name, NodeNo, Payload};

/// A whole record.
pub type RecordBytes = [u8; RECORD_LEN];

/// The fields laid out.
pub fn bytes(record: &Record) -> RecordBytes {
    let mut bytes = [0; RECORD_LEN];
    record.write(&mut bytes);
    bytes
}

/// A stretch of a hall's recording: the receiver, then its record.
pub fn stretch(receiver: NodeNo, record: &[u8]) -> Vec<u8> {
    [&[receiver.0 as u8], record].concat()
}

/// Kind 1 with a block's fields.
pub fn proposal(
    epoch: Epoch,
    sender: NodeNo,
    name: Name,
    parent: Name,
    payload: Payload,
) -> Record {
    Record {
        kind: Kind::Proposal.number(),
        sender,
        epoch,
        name,
        parent,
        payload,
        ..Record::default()
    }
}

/// Kind 2.
pub fn vote(sender: NodeNo, name: Name) -> Record {
    Record {
        kind: Kind::Vote.number(),
        sender,
        name,
        ..Record::default()
    }
}

/// Kind 3.
pub fn clock(sender: NodeNo, epoch: Epoch) -> Record {
    Record {
        kind: Kind::Clock.number(),
        sender,
        epoch,
        ..Record::default()
    }
}

/// Kind 4.
pub fn propose(own: NodeNo, name: Name, payload: Payload) -> Record {
    Record {
        kind: Kind::Propose.number(),
        sender: own,
        name,
        payload,
        ..Record::default()
    }
}

/// Kind 5.
pub fn cast(own: NodeNo) -> Record {
    Record {
        kind: Kind::Cast.number(),
        sender: own,
        ..Record::default()
    }
}

/// Kind 6.
pub fn minute(own: NodeNo) -> Record {
    Record {
        kind: Kind::Minute.number(),
        sender: own,
        ..Record::default()
    }
}
