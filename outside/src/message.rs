//! Message blocks: the header of 16 bits, and which bytes make a message.

use crate::code::Code;

pub const NAK: [u8; 2] = [0x02, 0x00];

/// "The box keeps the first 64 bytes of an unfinished message."
pub const HELD: usize = 64;

/// The actual length of a data item whose length field is 0.
pub const LARGEST_DATA_ITEM: usize = 8194;

#[derive(Clone, Copy, Debug, PartialEq, Eq)]
pub struct Header {
    /// bits 13 to 15
    pub kind: u8,
    /// bits 0 to 12
    pub length: u16,
}

impl Header {
    pub fn parse(bytes: [u8; 2]) -> Self {
        let word = u16::from_le_bytes(bytes);
        Header { kind: (word >> 13) as u8, length: word & 0x1FFF }
    }

    pub fn bytes(self) -> [u8; 2] {
        (u16::from(self.kind) << 13 | self.length).to_le_bytes()
    }

    pub fn is_data_item(self) -> bool {
        self.kind >= 4
    }

    /// How many bytes the message takes in all.
    pub fn total(self) -> usize {
        match self.length {
            0 if self.is_data_item() => LARGEST_DATA_ITEM,
            length => usize::from(length).max(2),
        }
    }
}

/// The three kinds of control message that the box looks into.
#[derive(Clone, Copy, Debug, PartialEq, Eq)]
pub enum Kind {
    Set,
    Request,
    Range,
}

#[derive(Clone, Copy, Debug, PartialEq, Eq)]
pub enum Class {
    Unanswered,
    Control(Kind),
    Refused(Code),
}

/// What a finished message is, by its header (and, for an acknowledgement, by the item it names).
pub fn classify(header: Header, message: &[u8]) -> Class {
    match (header.kind, header.length) {
        (0, 2) => Class::Unanswered,
        (_, 1) | (0..=3, 0) | (1..=3, 2) | (0..=2, 3) => Class::Refused(Code::BadHeader),
        (4.., _) => Class::Unanswered,
        (3, 3) if message[2] <= 3 => Class::Unanswered,
        (3, _) => Class::Refused(Code::BadHeader),
        (0..=2, 65..) => Class::Refused(Code::TooLong),
        (0, _) => Class::Control(Kind::Set),
        (1, _) => Class::Control(Kind::Request),
        (2, _) => Class::Control(Kind::Range),
    }
}

#[cfg(test)]
mod tests {
    use super::*;

    #[test]
    fn headers_split_and_build() {
        for word in 0..=u16::MAX {
            let bytes = word.to_le_bytes();
            assert_eq!(Header::parse(bytes).bytes(), bytes);
        }
        assert_eq!(Header::parse([0xA4, 0x85]), Header { kind: 4, length: 1444 });
    }

    #[test]
    fn data_items_of_length_zero_are_8194_bytes() {
        assert_eq!(Header::parse([0x00, 0x80]).total(), 8194);
        assert_eq!(Header::parse([0x00, 0xE0]).total(), 8194);
        assert_eq!(Header::parse([0x00, 0x60]).total(), 2);
        assert_eq!(Header::parse([0x01, 0x80]).total(), 2);
    }

    #[test]
    fn acknowledgements() {
        for (item, class) in [(0, Class::Unanswered), (3, Class::Unanswered), (4, Class::Refused(Code::BadHeader))] {
            assert_eq!(classify(Header::parse([0x03, 0x60]), &[0x03, 0x60, item]), class);
        }
        assert_eq!(classify(Header::parse([0x04, 0x60]), &[0x04, 0x60, 0, 0]), Class::Refused(Code::BadHeader));
    }
}
