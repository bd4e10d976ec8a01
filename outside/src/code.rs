//! What comes back: the codes of document 01 in its table's order, then those of document 02. Their names, and nothing else here, are taken from the
//! proved crates, so that a difference can be told in one set of words.

#[derive(Clone, Copy, Debug, PartialEq, Eq)]
#[repr(u8)]
pub enum Code {
    Waiting = 0,
    Done = 1,
    NoReplyDue = 2,
    BadHeader = 11,
    TooLong = 10,
    NotListed = 12,
    NotOffered = 14,
    WrongLength = 13,
    ChannelNotAllowed = 15,
    ValueNotAllowed = 16,
    NotWhileRunning = 17,
    NoRoom = 20,
    Broken = 21,
    WhileIdle = 22,
    WrongCount = 23,
    NotASample = 24,
    CaptureFull = 25,
    NotASerial = 26,
    NotAReply = 28,
    NotAPacket = 30,
    NoFirstPacket = 31,
    FormChanged = 32,
    PastLast = 33,
    NotAHead = 40,
    OtherVersion = 41,
    WouldLose = 42,
}
