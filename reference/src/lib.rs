//! An independent reading of the hub's protocol (docs/PROTOCOL.md, the texts of WAMP that it names, RFC 8259,
//! RFC 3629, MessagePack), to compare the proved hub with. It shares no code with the crates of the product.
//!
//! From the bottom up:
//! - `format`: the two formats of a message;
//! - `utf8`, `strings`, `json`, `msgpack`, `ids`: the bytes of a message;
//! - `values`, `payload`: what a payload stands for, and its conversion between JSON and MessagePack;
//! - `uri`, `matching`: URI texts, and which row a URI goes to;
//! - `receivers`: the options of PUBLISH that choose who receives its events;
//! - `message`, `output`: the messages taken in and sent;
//! - `state`: the lent state and its rules;
//! - `settings`, `settings_file`: the lent settings and their rules, and the file that they are kept in;
//! - `hub`: one step.
//!
//! For the programs that make or compare test cases:
//! - `layout`: where each part of the lent state stands, byte by byte;
//! - `made`: the files of the repository that they make.

#![forbid(unsafe_code)]

pub mod format;
pub mod hub;
pub mod ids;
pub mod json;
pub mod layout;
pub mod made;
pub mod matching;
pub mod message;
pub mod msgpack;
pub mod output;
pub mod payload;
pub mod receivers;
pub mod settings;
pub mod settings_file;
pub mod state;
pub mod strings;
pub mod uri;
pub mod utf8;
pub mod values;
