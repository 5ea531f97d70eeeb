//! The cases: the worked step of docs/PROTOCOL.md, and both sides of each of its edges. They follow its sections.

mod escapes;
mod messages;
mod msgpack;
mod receivers;
mod refusals;
mod requests;
mod rows;
mod rules;
mod sessions;

use crate::script::Script;

pub fn all(script: &mut Script) {
    worked_step(script);
    refusals::all(script);
    messages::all(script);
    sessions::all(script);
    requests::all(script);
    receivers::all(script);
    escapes::all(script);
    rows::all(script);
    rules::all(script);
    msgpack::all(script);
    receivers::of_both_formats(script);
}

const HELLO: &str = r#"[1,"hub.bus",{}]"#;

/// 2^53, the last ID.
const LAST: u64 = 9007199254740992;

/// An empty hub with open sessions on the first slots. Slot k has the ID 100 + k.
fn open(script: &mut Script, slots: u64) {
    script.empty();
    for slot in 0..slots {
        script.attach(slot).is_silent();
        script.lent(slot, 100 + slot, HELLO).says("[2,");
    }
}

/// An empty hub but for one open session, on slot 0, whose last request number is this. Its bytes are put into
/// the state, so that a case of one message takes one step.
fn alone(script: &mut Script, requests: u64) {
    script.empty();
    script.poke(0, &[&[2][..], &100u64.to_be_bytes(), &requests.to_be_bytes()].concat());
}

/// A text of so many bytes.
fn text(length: usize) -> String {
    "t".repeat(length)
}

fn worked_step(script: &mut Script) {
    script.heading("Output layout: one whole step");
    open(script, 2);
    script.send(1, r#"[64,1,{"match":"prefix"},"hub.donor"]"#).says("[65,1,1]");
    let call = r#"[48,1,{},"hub.donor.defer",["D17"]]"#;
    let invocation = r#"[68,1,1,{"procedure":"hub.donor.defer"},["D17"]]"#;
    script.tight(|s| s.send(0, call)).is(53, 1, invocation);
    script.tight(|s| s.send(1, r#"[70,1,{},["held"]]"#)).is(23, 0, r#"[50,1,{},["held"]]"#);
}
