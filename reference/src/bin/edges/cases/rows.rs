//! Subscription and registration rows: 32 of each, the lowest free place, and their ID counters.

use super::{open, LAST};
use crate::script::Script;
use reference::layout::Table;

pub fn all(script: &mut Script) {
    subscriptions(script);
    registrations(script);
    counters(script);
}

fn subscribe(request: u64, name: &str) -> String {
    format!(r#"[32,{request},{{}},"{name}"]"#)
}

fn register(request: u64, name: &str) -> String {
    format!(r#"[64,{request},{{}},"{name}"]"#)
}

fn subscriptions(script: &mut Script) {
    script.heading("subscription 32 is taken, the next gets no room; joining a row needs none");
    open(script, 3);
    for request in 1..=32 {
        script
            .send(0, &subscribe(request, &format!("t{request}")))
            .says(&format!("[33,{request},{request}]"));
    }
    script.send(0, &subscribe(33, "t33")).errs("hub.error.no_room");
    script.send(0, r#"[32,34,{"match":"prefix"},"t1"]"#).errs("hub.error.no_room");
    script.send(0, &subscribe(35, "t32")).says("[33,35,32]");
    script.send(1, &subscribe(1, "t5")).says("[33,1,5]");
    script.heading("the last subscriber's leaving frees the row; new rows take the lowest free place");
    script.send(0, "[34,36,5]").says("[35,36]");
    script.send(0, "[34,37,5]").errs("wamp.error.no_such_subscription");
    script.send(2, "[34,1,5]").errs("wamp.error.no_such_subscription");
    script.send(2, &subscribe(2, "t34")).errs("hub.error.no_room");
    script.send(1, "[34,2,5]").says("[35,2]");
    script.send(0, "[34,38,3]").says("[35,38]");
    script.send(2, &subscribe(3, "t34")).says("[33,3,33]");
    script.send(2, &subscribe(4, "t5")).says("[33,4,34]");
    script.send(2, &subscribe(5, "t35")).errs("hub.error.no_room");
    script.heading("events come by row, not by ID");
    open(script, 2);
    script.send(0, &subscribe(1, "a")).says("[33,1,1]");
    script.send(0, r#"[32,2,{"match":"prefix"},"a"]"#).says("[33,2,2]");
    script.send(0, "[34,3,1]").says("[35,3]");
    script.send(0, &subscribe(4, "a")).says("[33,4,3]");
    script.send(1, r#"[16,1,{},"a"]"#).says("[36,3,4711,{}]");
    script.heading("a session's end frees its memberships, and the rows that it alone held");
    script.send(1, r#"[32,2,{"match":"prefix"},"a"]"#).says("[33,2,2]");
    script.send(0, r#"[6,{},"r"]"#).says("[6,");
    script.send(1, "[34,3,3]").errs("wamp.error.no_such_subscription");
    script.send(1, "[34,4,2]").says("[35,4]");
}

fn registrations(script: &mut Script) {
    script.heading("registration 32 is taken, the next gets no room; one already there is told first");
    open(script, 2);
    for request in 1..=32 {
        script.send(0, &register(request, &format!("p{request}"))).says(&format!("[65,{request},{request}]"));
    }
    script.send(0, &register(33, "p33")).errs("hub.error.no_room");
    script.send(0, &register(34, "p32")).errs("wamp.error.procedure_already_exists");
    script.send(1, &register(1, "p1")).errs("wamp.error.procedure_already_exists");
    script.send(1, &register(2, "p.")).errs("wamp.error.invalid_uri");
    script.heading("the owner's UNREGISTER frees the row; new rows take the lowest free place");
    script.send(1, "[66,3,7]").errs("wamp.error.no_such_registration");
    script.send(1, "[66,4,33]").errs("wamp.error.no_such_registration");
    script.send(0, "[66,35,9]").says("[67,35]");
    script.send(0, "[66,36,7]").says("[67,36]");
    script.send(0, "[66,37,7]").errs("wamp.error.no_such_registration");
    script.send(1, &register(5, "p33")).says("[65,5,33]");
    script.send(1, &register(6, "p7")).says("[65,6,34]");
    script.send(1, &register(7, "p9")).errs("hub.error.no_room");
    script.send(0, "[66,38,33]").errs("wamp.error.no_such_registration");
    script.send(0, r#"[48,39,{},"p33"]"#).says("[68,1,33,{}]");
    script.heading("a session's end frees its registrations, and cancels the call that it serves");
    script.detach(1).errs("wamp.error.canceled");
    script.send(0, r#"[48,40,{},"p33"]"#).errs("wamp.error.no_such_procedure");
    script.send(0, &register(41, "p33")).says("[65,41,35]");
}

fn counters(script: &mut Script) {
    script.heading("the ID counters at 2^53 - 1 and at 2^53");
    open(script, 2);
    script.poke_number(Table::Subscriptions.counter(), LAST - 1);
    script.poke_number(Table::Registrations.counter(), LAST - 1);
    script.tight(|s| s.send(0, &subscribe(1, "t"))).says("[33,1,9007199254740992]");
    script.tight(|s| s.send(0, &subscribe(2, "u"))).errs("hub.error.no_room");
    script.send(1, &subscribe(1, "t")).says("[33,1,9007199254740992]");
    script.tight(|s| s.send(0, &register(3, "p"))).says("[65,3,9007199254740992]");
    script.tight(|s| s.send(0, &register(4, "q"))).errs("hub.error.no_room");
    script.send(0, &register(5, "p")).errs("wamp.error.procedure_already_exists");
    script.send(0, &register(6, "wamp.p")).errs("wamp.error.invalid_uri");
    script.tight(|s| s.lent(1, LAST, r#"[16,2,{},"t"]"#)).says("[36,9007199254740992,9007199254740992,{}]");
    script.tight(|s| s.send(1, r#"[48,3,{},"p"]"#)).says("[68,1,9007199254740992,{}]");
    script.heading("a freed row does not free its ID");
    script.send(0, "[34,7,9007199254740992]").says("[35,7]");
    script.send(1, "[34,4,9007199254740992]").says("[35,4]");
    script.send(1, &subscribe(5, "t")).errs("hub.error.no_room");
    script.send(0, "[66,8,9007199254740992]").says("[67,8]");
    script.send(0, &register(9, "p")).errs("hub.error.no_room");
}
