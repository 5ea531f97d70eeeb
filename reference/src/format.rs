//! The two formats of a message, of which a slot speaks one from its attaching on.

#[derive(Clone, Copy, Debug, Default, PartialEq, Eq)]
pub enum Format {
    #[default]
    Json,
    MsgPack,
}

impl Format {
    pub const BOTH: [Format; 2] = [Format::Json, Format::MsgPack];

    pub fn other(self) -> Format {
        match self {
            Format::Json => Format::MsgPack,
            Format::MsgPack => Format::Json,
        }
    }
}
