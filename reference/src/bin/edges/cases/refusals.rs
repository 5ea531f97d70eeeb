//! The five refusals: slots, times, lent numbers, room, and their order. State rules have a part of their own.

use super::{open, HELLO, LAST};
use crate::script::{Script, MOST};

pub fn all(script: &mut Script) {
    slots(script);
    times(script);
    lent_numbers(script);
    numbers_in_use(script);
    room_of_a_silent_step(script);
    room_of_each_message(script);
    room_of_many_messages(script);
    order(script);
}

fn slots(script: &mut Script) {
    script.heading("BAD SLOT: 7 and 8, and numbers that are 0 in their low bits");
    script.empty();
    script.attach(7).is_silent();
    script.lent(7, 107, HELLO).says("[2,107,");
    script.attach(0).is_silent();
    for slot in [8, 15, 255, 256, 1 << 32, u64::MAX] {
        script.attach(slot).refuses(2);
        script.detach(slot).refuses(2);
        script.lent(slot, 108, HELLO).refuses(2);
    }
    script.detach(7).is_silent();
}

fn times(script: &mut Script) {
    script.heading("WRONG TIME: each step on a closed, an attached and an open slot");
    script.empty();
    script.detach(3).refuses(3);
    script.send(3, HELLO).refuses(3);
    script.send(3, "").refuses(3);
    script.attach(3).is_silent();
    script.attach(3).refuses(3);
    script.detach(3).is_silent();
    script.attach(3).is_silent();
    script.lent(3, 103, HELLO).says("[2,103,");
    script.attach(3).refuses(3);
    script.detach(3).is_silent();
    script.detach(3).refuses(3);
}

fn lent_numbers(script: &mut Script) {
    script.heading("BAD NUMBER: 0, 1, 2^53 and 2^53 + 1, on an attached and an open slot");
    script.empty();
    script.attach(0).is_silent();
    script.attach(1).is_silent();
    for number in [0, LAST + 1, u64::MAX] {
        script.lent(0, number, HELLO).refuses(4);
        script.lent(0, number, "no message").refuses(4);
    }
    script.lent(0, 1, HELLO).says("[2,1,");
    script.lent(1, LAST, HELLO).says("[2,9007199254740992,");
    for number in [0, LAST + 1, u64::MAX] {
        script.lent(0, number, r#"[32,1,{},"t"]"#).refuses(4);
        script.lent(0, number, "no message").refuses(4);
    }
    script.heading("the lent number becomes the publication ID, and is otherwise unused");
    script.lent(0, 1, r#"[32,1,{},"t"]"#).says("[33,1,1]");
    script.lent(0, 1, r#"[32,2,{},"u"]"#).says("[33,2,2]");
    script.lent(1, 1, r#"[16,1,{"acknowledge":true},"t"]"#).says("[17,1,1]");
    script.lent(1, LAST, r#"[16,2,{"acknowledge":true},"t"]"#).says("[17,2,9007199254740992]");
    script.lent(1, LAST, r#"[16,3,{},"t"]"#).says("[36,1,9007199254740992,");
}

fn numbers_in_use(script: &mut Script) {
    script.heading("BAD NUMBER: a HELLO otherwise accepted while the number is an open session's");
    open(script, 2);
    script.attach(2).is_silent();
    script.lent(2, 100, HELLO).refuses(4);
    script.lent(2, 101, HELLO).refuses(4);
    script.room(0);
    script.lent(2, 101, HELLO).refuses(4);
    script.lent(2, 102, HELLO).refuses(5);
    script.room(MOST);
    script.heading("another realm, and what is no HELLO, are not refused for it");
    script.lent(2, 100, r#"[1,"hub.bu",{}]"#).says(r#"[3,{},"wamp.error.no_such_realm"]"#);
    script.attach(2).is_silent();
    script.lent(2, 100, "[").violates();
    script.attach(2).is_silent();
    script.lent(2, 100, r#"[3,{},"r"]"#).is_silent();
    script.attach(2).is_silent();
    script.lent(2, 100, r#"[6,{},"r"]"#).violates();
    script.heading("nor is HELLO on an open slot, a violation; the ended session's number is free");
    script.lent(1, 101, HELLO).violates();
    script.attach(2).is_silent();
    script.lent(2, 101, HELLO).says("[2,101,");
    script.lent(0, 100, r#"[6,{},"r"]"#).says("[6,");
    script.lent(0, 100, HELLO).says("[2,100,");
}

fn room_of_a_silent_step(script: &mut Script) {
    script.heading("NO ROOM: a silent step needs 2 bytes");
    script.empty();
    for (slot, room) in [(0, 2), (1, 3)] {
        for short in [0, 1] {
            script.room(short);
            script.attach(slot).refuses(5);
        }
        script.room(room);
        script.attach(slot).is_silent();
    }
    script.room(1);
    script.detach(0).refuses(5);
    script.send(1, r#"[3,{},"r"]"#).refuses(5);
    script.room(2);
    script.detach(0).is_silent();
    script.send(1, r#"[3,{},"r"]"#).is_silent();
    script.room(MOST);
}

/// Each message sent, with room just enough and one byte short.
fn room_of_each_message(script: &mut Script) {
    script.heading("NO ROOM: each message sent, one byte short and just enough");
    script.empty();
    script.attach(0).is_silent();
    script.attach(1).is_silent();
    script.attach(2).is_silent();
    script.tight(|s| s.lent(0, LAST, HELLO)).says("[2,");
    script.tight(|s| s.lent(1, 1, HELLO)).says("[2,");
    script.tight(|s| s.send(2, r#"[1,"",{}]"#)).says(r#"[3,{},"wamp.error.no_such_realm"]"#);
    script.tight(|s| s.send(0, r#"[32,1,{"match":"wildcard"},"a."]"#)).says("[33,1,1]");
    script.tight(|s| s.send(0, r#"[64,2,{},"p"]"#)).says("[65,2,1]");
    script.tight(|s| s.send(0, r#"[32,3,{},"a..b"]"#)).errs("wamp.error.invalid_uri");
    script.tight(|s| s.lent(1, LAST, r#"[16,1,{},"a.b",["x"],{"k":null}]"#)).says("[36,");
    script.tight(|s| s.lent(1, LAST, r#"[16,2,{"acknowledge":true},"q"]"#)).says("[17,");
    script.tight(|s| s.lent(1, LAST, r#"[16,3,{"acknowledge":true},"a.b"]"#)).reaches(&[1, 0]);
    script.tight(|s| s.send(1, r#"[48,4,{},"p",[]]"#)).says("[68,1,1,{},[]]");
    script.tight(|s| s.send(0, r#"[70,1,{},[ ]]"#)).says("[50,4,{},[ ]]");
    script.tight(|s| s.send(1, r#"[48,5,{},"p"]"#)).says("[68,2,1,{}]");
    script.tight(|s| s.send(0, r#"[8,68,2,{},"e.f",[0],{}]"#)).says(r#"[8,48,5,{},"e.f",[0],{}]"#);
    script.tight(|s| s.send(0, "[66,4,1]")).says("[67,4]");
    script.tight(|s| s.send(0, "[34,5,1]")).says("[35,5]");
    script.tight(|s| s.send(0, r#"[6,{},"r"]"#)).says("[6,");
    script.tight(|s| s.send(1, "[]")).violates();
}

fn room_of_many_messages(script: &mut Script) {
    script.heading("NO ROOM: an event to the 7 other members of 3 rows, one byte short and just enough");
    open(script, 8);
    for slot in 0..8 {
        script.send(slot, r#"[32,1,{"match":"prefix"},"a"]"#).says("[33,1,1]");
        script.send(slot, r#"[32,2,{},"a.b"]"#).says("[33,2,2]");
        script.send(slot, r#"[32,3,{"match":"wildcard"},".b"]"#).says("[33,3,3]");
    }
    script.tight(|s| s.lent(5, LAST, r#"[16,4,{},"a.b",[1]]"#)).says("[36,1,");
    script.tight(|s| s.lent(5, LAST, r#"[16,5,{"acknowledge":true},"a.b",[1]]"#)).says("[17,5,");
    script.heading("NO ROOM: a session's end with a call to cancel for each of the 7 others");
    script.send(3, r#"[64,4,{},"p"]"#).says("[65,4,1]");
    for slot in 0..8 {
        let request = if slot == 3 || slot == 5 { 5 } else { 4 };
        let request = if slot == 5 { request + 1 } else { request };
        script.send(slot, &format!(r#"[48,{request},{{}},"p"]"#)).says("[68,");
    }
    script.tight(|s| s.detach(3)).reaches(&[0, 1, 2, 4, 5, 6, 7]);
}

fn order(script: &mut Script) {
    script.heading("the checks run in their order: each step here is refused for all that follow, too");
    open(script, 1);
    script.attach(1).is_silent();
    script.room(0);
    script.poke(0, &[3]);
    script.lent(8, 0, HELLO).refuses(1);
    script.poke(0, &[2]);
    script.lent(8, 0, HELLO).refuses(2);
    script.lent(7, 0, HELLO).refuses(3);
    script.lent(1, 0, HELLO).refuses(4);
    script.lent(1, 100, HELLO).refuses(4);
    script.lent(1, 101, HELLO).refuses(5);
    script.attach(0).refuses(3);
    script.attach(7).refuses(5);
    script.detach(7).refuses(3);
    script.detach(0).refuses(5);
    script.room(MOST);
}
