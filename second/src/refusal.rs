//! Document 01, "Numbers a caller may get".

/// A refusal by its number. 11 is not given again (request C-20): SHAPE comes first and already
/// asks that outside LOST the holder is on line. 14 to 19 are the reasons to refuse an order
/// (request C-12).
#[derive(Clone, Copy, Debug, PartialEq, Eq)]
pub enum Refusal {
    Shape = 1,
    Row = 2,
    Register = 3,
    Value = 4,
    NotReady = 5,
    Direction = 6,
    Busy = 7,
    Online = 8,
    Page = 9,
    Duplicate = 10,
    Alone = 12,
    Room = 13,
    Length = 14,
    Mark = 15,
    OrderId = 16,
    Flags = 17,
    Name = 18,
    Twice = 19,
}

impl Refusal {
    pub fn number(self) -> u8 {
        self as u8
    }

    pub fn name(self) -> &'static str {
        match self {
            Refusal::Shape => "SHAPE",
            Refusal::Row => "ROW",
            Refusal::Register => "REGISTER",
            Refusal::Value => "VALUE",
            Refusal::NotReady => "NOTREADY",
            Refusal::Direction => "DIRECTION",
            Refusal::Busy => "BUSY",
            Refusal::Online => "ONLINE",
            Refusal::Page => "PAGE",
            Refusal::Duplicate => "DUPLICATE",
            Refusal::Alone => "ALONE",
            Refusal::Room => "ROOM",
            Refusal::Length => "LENGTH",
            Refusal::Mark => "MARK",
            Refusal::OrderId => "ORDER-ID",
            Refusal::Flags => "FLAGS",
            Refusal::Name => "NAME",
            Refusal::Twice => "TWICE",
        }
    }
}
