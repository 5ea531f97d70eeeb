//! Sessions: realms, what an attached and an open slot take, GOODBYE and ABORT, and a session's end.

use super::{open, HELLO};
use crate::script::Script;

pub fn all(script: &mut Script) {
    realms(script);
    attached(script);
    goodbye_and_abort(script);
    ends(script);
    ends_with_32(script);
}

fn realms(script: &mut Script) {
    script.heading("realms: hub.bus, and any other");
    script.empty();
    script.attach(0).is_silent();
    for realm in ["hub.bu", "hub.buss", "Hub.bus", "", " hub.bus", "hub\\\\u002ebus", "hub.bus\u{e9}", "hub"]
    {
        script.send(0, &format!(r#"[1,"{realm}",{{}}]"#)).says(r#"[3,{},"wamp.error.no_such_realm"]"#);
        script.attach(0).is_silent();
    }
    script.send(0, r#"[ 1 , "hub.bus" , {"roles":{"caller":{}},"x":[1]} ]"#).says("[2,4711,");
}

fn attached(script: &mut Script) {
    script.heading("an attached slot takes HELLO and ABORT alone");
    script.empty();
    for text in [
        r#"[6,{},"r"]"#,
        r#"[8,68,1,{},"e"]"#,
        r#"[16,1,{},"t"]"#,
        r#"[32,1,{},"t"]"#,
        "[34,1,1]",
        r#"[48,1,{},"p"]"#,
        r#"[64,1,{},"p"]"#,
        "[66,1,1]",
        "[70,1,{}]",
        "",
    ] {
        script.attach(4).is_silent();
        script.send(4, text).violates();
    }
    script.attach(4).is_silent();
    script.send(4, r#"[3,{},"r"]"#).is_silent();
    script.heading("an open slot takes all but HELLO, of whatever realm");
    for hello in [HELLO, r#"[1,"other",{}]"#] {
        open(script, 1);
        script.send(0, hello).violates();
    }
}

fn goodbye_and_abort(script: &mut Script) {
    script.heading("GOODBYE leaves the slot attached, ABORT closes it; a reason is any string");
    open(script, 1);
    script.send(0, r#"[6,{"message":"bye"},""]"#).says(r#"[6,{},"wamp.close.goodbye_and_out"]"#);
    script.send(0, r#"[6,{},""]"#).violates();
    open(script, 1);
    script.send(0, r#"[6,{},"not a URI \\"]"#).says("[6,");
    script.lent(0, 100, HELLO).says("[2,100,");
    script.send(0, r#"[32,1,{},"t"]"#).says("[33,1,1]");
    script.send(0, r#"[3,{},"not a URI"]"#).is_silent();
    script.send(0, r#"[3,{},"r"]"#).refuses(3);
    script.attach(0).is_silent();
    script.lent(0, 100, HELLO).says("[2,100,");
    script.send(0, r#"[32,1,{},"t"]"#).says("[33,1,2]");
}

/// Slot 1 serves calls of slots 0 and 2 and of its own, calls slot 0, and shares a subscription with slot 0.
fn busy(script: &mut Script) {
    open(script, 3);
    script.send(1, r#"[64,1,{},"a"]"#).says("[65,1,1]");
    script.send(0, r#"[64,1,{},"b"]"#).says("[65,1,2]");
    script.send(1, r#"[32,2,{},"t"]"#).says("[33,2,1]");
    script.send(0, r#"[32,2,{},"t"]"#).says("[33,2,1]");
    script.send(1, r#"[32,3,{},"u"]"#).says("[33,3,2]");
    script.send(2, r#"[48,1,{},"a"]"#).says("[68,1,1,{}]");
    script.send(1, r#"[48,4,{},"a"]"#).says("[68,2,1,{}]");
    script.send(1, r#"[48,5,{},"b"]"#).says("[68,1,2,{}]");
    script.send(0, r#"[48,3,{},"a"]"#).says("[68,3,1,{}]");
}

fn ends(script: &mut Script) {
    script.heading("a session's end: its own message first, then canceled by row; none for its own calls");
    busy(script);
    let saved = script.state.clone();
    script.tight(|s| s.detach(1)).reaches(&[2, 0]);
    script.restore(&saved);
    script.tight(|s| s.send(1, r#"[3,{},"r"]"#)).reaches(&[2, 0]);
    script.restore(&saved);
    script.tight(|s| s.send(1, "x")).reaches(&[1, 2, 0]);
    script.restore(&saved);
    script.tight(|s| s.send(1, r#"[6,{},"r"]"#)).reaches(&[1, 2, 0]);
    script.heading("what is left of it: nothing is served, its calls are answered to nobody, rows are free");
    script.send(0, "[70,1,{}]").is_silent();
    script.send(0, r#"[48,4,{},"a"]"#).errs("wamp.error.no_such_procedure");
    script.send(0, "[34,5,2]").errs("wamp.error.no_such_subscription");
    script.send(0, r#"[32,6,{},"u"]"#).says("[33,6,3]");
    script.lent(1, 101, HELLO).says("[2,101,");
    script.send(1, "[70,1,{}]").violates();
    script.heading("the end of a session that was only called for: its callee's answer is dropped");
    script.restore(&saved);
    script.tight(|s| s.detach(2)).is_silent();
    script.send(1, "[70,1,{}]").is_silent();
    script.send(1, "[70,1,{}]").is_silent();
    script.send(1, "[70,3,{}]").says("[50,3,{}]");
}

fn ends_with_32(script: &mut Script) {
    script.heading("a session's end with 32 held calls, all canceled");
    open(script, 2);
    script.send(1, r#"[64,1,{},"p"]"#).says("[65,1,1]");
    for request in 1..=32 {
        script.send(0, &format!(r#"[48,{request},{{}},"p"]"#)).says("[68,");
    }
    let saved = script.state.clone();
    script.tight(|s| s.send(1, "no message")).says(r#"[3,{},"wamp.error.protocol_violation"]"#);
    script.restore(&saved);
    script.tight(|s| s.send(1, r#"[6,{},"r"]"#)).says("[6,");
    script.restore(&saved);
    script.tight(|s| s.send(1, r#"[3,{},"r"]"#)).says("[8,48,1,{},");
    script.restore(&saved);
    script.tight(|s| s.detach(1)).says("[8,48,1,{},");
    script.heading(
        "the end of the session that made them: nobody hears of it, and they are answered to nobody",
    );
    script.restore(&saved);
    script.tight(|s| s.detach(0)).is_silent();
    script.send(1, "[70,32,{}]").is_silent();
}
