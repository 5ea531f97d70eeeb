//! Settings files: each refusal in each way, alone and beside each later one, by the readers of both versions.

use crate::lines::{shown, Lines};

mod kind {
    pub const REALM: u8 = 0;
    pub const RULES: u8 = 1;
    pub const WAIT: u8 = 2;
}

pub fn all(lines: &mut Lines) {
    good_files(lines);
    any_order(lines);
    versions(lines);
    cut_short(lines);
    past_the_end(lines);
    overlaps(lines);
    overlaps_of_one_byte(lines);
    overlaps_of_more(lines);
    empty_sections(lines);
    kinds(lines);
    realm_bodies(lines);
    other_bodies(lines);
    many_rules(lines);
    equal_rules(lines);
    equal_rules_apart(lines);
    texts(lines);
    numbers(lines);
    pairs(lines);
}

/// A section: its kind and its body.
pub type Section = (u8, Vec<u8>);

pub fn realm(text: &[u8]) -> Section {
    (kind::REALM, [&[text.len() as u8], text].concat())
}

pub fn rules(rules: &[Vec<u8>]) -> Section {
    (kind::RULES, rules.concat())
}

pub fn rule(slot: u8, action: u8, verdict: u8, prefix: &[u8]) -> Vec<u8> {
    [&[slot, action, verdict, prefix.len() as u8], prefix].concat()
}

pub fn wait(milliseconds: u32) -> Section {
    (kind::WAIT, milliseconds.to_be_bytes().to_vec())
}

/// So many rules of one slot and action, each with a prefix of its own.
pub fn distinct(count: u8) -> Vec<Vec<u8>> {
    (0..count).map(|number| rule(number % 8, number % 4, number % 2, &[b'0' + number])).collect()
}

/// A file whose sections stand one after the other, in the order of its contents.
pub fn packed(version: u8, sections: &[Section]) -> Vec<u8> {
    let mut place = page(sections.len());
    let mut entries = Vec::new();
    for (kind, body) in sections {
        entries.push((*kind, place, body.len() as u32));
        place += body.len() as u32;
    }
    let bodies: Vec<_> = sections.iter().map(|(_, body)| &**body).collect();
    placed(version, &entries, &bodies.concat())
}

/// A file with these kinds, places and lengths in its contents, and these bytes behind them.
fn placed(version: u8, entries: &[(u8, u32, u32)], behind: &[u8]) -> Vec<u8> {
    let mut file = vec![version, entries.len() as u8];
    for (kind, place, length) in entries {
        file.push(*kind);
        file.extend(place.to_be_bytes());
        file.extend(length.to_be_bytes());
    }
    file.extend(behind);
    file
}

/// The length of the contents of so many sections.
fn page(sections: usize) -> u32 {
    2 + 9 * sections as u32
}

/// A short good file of version 2.
fn second() -> Vec<u8> {
    packed(2, &[realm(b"a"), rules(&[rule(1, 2, 1, b"b")]), wait(9)])
}

/// A short good file of version 1.
fn first() -> Vec<u8> {
    packed(1, &[realm(b"a"), rules(&[rule(1, 2, 1, b"b")])])
}

/// A file of version 2 with one section for that of its kind.
fn with(section: Section) -> Vec<u8> {
    let mut sections = [realm(b"a"), rules(&[rule(1, 2, 1, b"b")]), wait(9)];
    let place = usize::from(section.0);
    sections[place] = section;
    packed(2, &sections)
}

/// A file of version 1 with one section for that of its kind.
fn with_1(section: Section) -> Vec<u8> {
    let mut sections = [realm(b"a"), rules(&[rule(1, 2, 1, b"b")])];
    let place = usize::from(section.0);
    sections[place] = section;
    packed(1, &sections)
}

/// A file for both readers.
fn both(lines: &mut Lines, file: &[u8], what: &str) {
    lines.settings(file, what);
    lines.settings_1(file, what);
}

/// A section for both versions, each read by its own reader.
fn in_both(lines: &mut Lines, section: Section, what: &str) {
    lines.settings_1(&with_1(section.clone()), what);
    lines.settings(&with(section), what);
}

fn good_files(lines: &mut Lines) {
    lines.heading("Settings files: good ones, of both versions, by both readers");
    both(lines, &second(), "version 2");
    both(lines, &first(), "version 1");
    let defaults = [realm(b"hub.bus"), rules(&[]), wait(30_000)];
    both(lines, &packed(2, &defaults), "version 2, no rules");
    both(lines, &packed(1, &defaults[..2]), "version 1, no rules");
    let several = [
        rule(1, 0, 0, b"hub"),
        rule(1, 0, 1, b"hub.donor"),
        rule(7, 3, 0, b"hub."),
        rule(0, 1, 1, b"wamp"),
        rule(0, 2, 0, b"\xff\"\\"),
    ];
    both(lines, &packed(2, &[realm(b"depot.shift"), rules(&several), wait(258)]), "five rules");
    both(lines, &packed(1, &[realm(b"depot.shift"), rules(&several)]), "five rules");
    lines.settings(&packed(1, &[realm(b"a"), rules(&distinct(32))]), "32 rules");
    let long = [rule(3, 1, 0, &[b'p'; 128]), rule(4, 1, 0, &[b'p'; 127])];
    lines.settings(&packed(2, &[realm(&[b'r'; 128]), rules(&long), wait(60_000)]), "texts of 128 bytes");
}

fn any_order(lines: &mut Lines) {
    lines.heading("Settings files: sections in any order, with gaps, and bytes that no section has");
    let sections = [realm(b"a"), rules(&[rule(1, 2, 1, b"b")]), wait(9)];
    for order in [[0, 2, 1], [1, 0, 2], [1, 2, 0], [2, 0, 1], [2, 1, 0]] {
        let sections = order.map(|place: usize| sections[place].clone());
        lines.settings(&packed(2, &sections), &format!("kinds {order:?}"));
    }
    both(lines, &packed(1, &[sections[1].clone(), sections[0].clone()]), "kinds [1, 0]");
    // The contents in one order, the bodies in another.
    let file = placed(2, &[(0, 38, 2), (1, 29, 5), (2, 34, 4)], b"\x01\x02\x01\x01b\x00\x00\x00\x09\x01a");
    lines.settings(&file, "bodies in the order 1, 2, 0");
    let gaps = b"??\x01a?\x01\x02\x01\x01b???\x00\x00\x00\x09?";
    lines
        .settings(&placed(2, &[(0, 31, 2), (1, 34, 5), (2, 42, 4)], gaps), "gaps before, between and behind");
    let gaps = b"?\x01a??\x01\x02\x01\x01b?";
    both(lines, &placed(1, &[(0, 21, 2), (1, 25, 5)], gaps), "gaps before, between and behind");
    both(lines, &[&*first(), b"\x00"].concat(), "a byte past the last section");
    both(lines, &[&*second(), b"left over"].concat(), "bytes past the last section");
}

fn versions(lines: &mut Lines) {
    lines.heading("Settings files: the version");
    for version in [0, 1, 2, 3, 255] {
        for (file, what) in [(second(), "version 2's sections"), (first(), "version 1's sections")] {
            let file = [&[version], &file[1..]].concat();
            both(lines, &file, &format!("version {version}, {what}"));
        }
        both(lines, &[version], "a version byte alone");
        both(lines, &[version, 0], "no sections");
    }
}

fn cut_short(lines: &mut Lines) {
    lines.heading("Settings files: cut short");
    both(lines, b"", "no version byte");
    both(lines, b"\x01", "no number of sections");
    lines.settings(b"\x02", "no number of sections");
    for (good, length) in [(first(), 20), (second(), 29)] {
        for length in [2, 3, length - 9, length - 8, length - 4, length - 1, length, length + 1] {
            both(lines, &good[..length], &format!("the first {length} bytes"));
        }
        both(lines, &good[..good.len() - 1], "a byte less than the last section");
    }
    both(lines, &[&[1, 255], &first()[2..]].concat(), "255 sections");
}

fn past_the_end(lines: &mut Lines) {
    lines.heading("Settings files: sections past the end");
    // The wait is in the bytes 31 to 35, and the file ends there.
    let behind = b"\x01a\x00\x00\x00\x09";
    for (place, length) in [
        (35, 0),
        (36, 0),
        (35, 1),
        (34, 2),
        (30, 6),
        (0x7fff_ffff, 0),
        (0x8000_0000, 0),
        (0xffff_ffff, 0),
        (0xffff_ffff, 1),
        (0xffff_ffff, 30),
        (0xffff_ffff, 36),
        (29, 0xffff_ffff),
        (1, 0xffff_ffff),
        (35, 0xffff_ffdd),
        (0x8000_0000, 0x8000_0000),
        (0x8000_0000, 0x8000_0023),
        (0xffff_ffff, 0xffff_ffff),
        (0x0100_0023, 0),
        (0x23, 0x0100_0000),
    ] {
        let file = placed(2, &[(0, 29, 2), (1, place, length), (2, 31, 4)], behind);
        lines.settings(&file, &format!("rules at {place}, {length} bytes, of {}", file.len()));
    }
    for (place, length) in [(22, 0), (23, 0), (22, 1), (0xffff_ffff, 0), (0xffff_ffff, 1), (0xffff_ffff, 23)]
    {
        let file = placed(1, &[(0, 20, 2), (1, place, length)], b"\x01a");
        both(lines, &file, &format!("rules at {place}, {length} bytes, of {}", file.len()));
    }
    lines.settings(&placed(2, &[(0, 33, 2), (1, 29, 0), (2, 29, 4)], &behind[2..]), "realm past the end");
    lines.settings(&placed(2, &[(0, 29, 2), (1, 29, 0), (2, 31, 4)], &behind[..5]), "wait past the end");
    lines.settings(
        &placed(2, &[(0, 38, 2), (1, 38, 0), (2, 40, 4), (2, 45, 0)], behind),
        "the fourth past the end",
    );
}

fn overlaps(lines: &mut Lines) {
    lines.heading("Settings files: a section's byte in the contents");
    // What is taken twice makes sense: the last byte of the contents is a length of 5, and then a slot.
    let entries = |place| [(0, place + 5, 2), (2, place + 7, 4), (1, place, 5)];
    let behind = b"\x05\x02\x01\x01b\x01a\x00\x00\x00\x09";
    let file = placed(2, &entries(page(3) - 1), &behind[1..]);
    lines.settings(&file, "rules from the last byte of the contents on");
    lines.settings(&placed(2, &entries(page(3)), behind), "rules behind the contents");
    let file = placed(1, &[(0, 24, 2), (1, 19, 5)], b"\x02\x01\x01b\x01a");
    both(lines, &file, "rules from the last byte of the contents on");
    // A length in the contents, taken for the wait.
    for (place, what) in [(7, "realm's"), (25, "wait's")] {
        let file = placed(2, &[(0, 29, 2), (1, 31, 0), (2, place, 4)], b"\x01a");
        lines.settings(&file, &format!("the wait is the {what} length"));
    }
    lines.settings(
        &placed(2, &[(0, 33, 2), (1, 33, 0), (2, 26, 4)], b"\x09\x00\x00\x00\x01a"),
        "wait, three bytes in them",
    );
    lines.settings(&placed(2, &[(0, 29, 2), (1, 31, 0), (2, 0, 4)], b"\x01a"), "wait in their first bytes");
    lines.settings(
        &placed(2, &[(0, 0, 31), (1, 31, 0), (2, 31, 4)], b"\x01a\x00\x00\x00\x09"),
        "realm round them",
    );
    // The page is as long as its number of sections says, also where the last is of an unknown kind.
    lines.settings(
        &placed(2, &[(0, 38, 2), (1, 40, 0), (2, 34, 4), (3, 40, 0)], b"\x01a"),
        "wait in the fourth entry",
    );
}

fn overlaps_of_one_byte(lines: &mut Lines) {
    lines.heading("Settings files: a section's byte in another section");
    // The realm is 1, a or 1, 0; the rules are one of slot 0; the wait is 0, 0, 0, 1. Each meets another in one byte.
    let sections = |realm, rules, wait| [(0, realm, 2), (1, rules, 5), (2, wait, 4)];
    for (places, behind, what) in [
        (sections(29, 31, 36), b"\x01a\x00\x02\x01\x01b\x00\x00\x00\x09" as &[u8], "none"),
        (sections(29, 30, 36), b"\x01a\x00\x02\x01\x01b\x00\x00\x00\x09", "realm's last, rules' first"),
        (sections(32, 36, 29), b"\x00\x00\x00\x01a\x00\x00\x01\x01\x01\x01b", "wait's last, realm's first"),
        (sections(33, 36, 29), b"\x00\x00\x00\x01\x01a\x00\x00\x00\x01\x01b", "none"),
        (sections(29, 34, 31), b"\x01a\x00\x00\x00\x00\x00\x00\x01b", "wait's last, rules' first"),
        (sections(29, 31, 35), b"\x01a\x00\x02\x01\x01\x00\x00\x00\x09", "rules' last, wait's first"),
        (sections(40, 31, 30), b"??\x02\x01\x01\x01b\x00\x00\x00\x09\x01a", "wait round rules' first"),
        (sections(31, 31, 36), b"??\x01a\x00\x01b\x00\x00\x00\x09", "realm at rules' start"),
        (sections(34, 31, 36), b"??\x01\x02\x01\x01b\x00\x00\x00\x09", "realm at rules' end"),
        (sections(32, 31, 36), b"??\x01\x01a\x01b\x00\x00\x00\x09", "realm within rules"),
    ] {
        lines.settings(&placed(2, &places, behind), &format!("one byte of two: {what}"));
    }
}

fn overlaps_of_more(lines: &mut Lines) {
    let same = |order: [u8; 2]| order.map(|kind| (kind, 29, 2)).to_vec();
    for order in [[0, 1], [1, 0]] {
        let entries = [&*same(order), &[(2, 31, 4)]].concat();
        lines.settings(&placed(2, &entries, b"\x01a\x00\x00\x00\x09"), "realm and rules are the same bytes");
    }
    // Equal kinds would be refused too, but later.
    lines.settings(
        &placed(2, &[(0, 38, 2), (1, 40, 0), (2, 40, 4), (2, 40, 4)], b"\x01a\x00\x00\x00\x09"),
        "the same wait twice",
    );
    for (rules, what) in [((1, 21, 5), "realm's last, rules' first"), ((1, 22, 5), "none")] {
        let file = placed(1, &[(0, 20, 2), rules], b"\x01a\x00\x02\x01\x01b");
        both(lines, &file, &format!("one byte of two: {what}"));
    }
    both(
        lines,
        &placed(1, &[(1, 20, 5), (0, 24, 2)], b"\x00\x00\x00\x01\x01a"),
        "one byte of two: rules' last, realm's first",
    );
}

fn empty_sections(lines: &mut Lines) {
    lines.heading("Settings files: an empty section has no byte, wherever it is");
    let behind = b"\x01a\x00\x00\x00\x09";
    for (place, what) in [
        (0, "at the version"),
        (1, "in the contents"),
        (15, "in the contents"),
        (28, "in the contents"),
        (29, "at the realm"),
        (30, "in the realm"),
        (31, "at the wait"),
        (32, "in the wait"),
        (35, "at the end"),
    ] {
        let entries = [(0, 29, 2), (1, place, 0), (2, 31, 4)];
        lines.settings(&placed(2, &entries, behind), &format!("no rules, {what}"));
    }
    for place in [0, 19, 20, 21, 22] {
        both(
            lines,
            &placed(1, &[(1, place, 0), (0, 20, 2)], b"\x01a"),
            &format!("no rules, at {place} of 22"),
        );
    }
}

fn kinds(lines: &mut Lines) {
    lines.heading("Settings files: kinds unknown, missing and twice");
    let all = [realm(b"a"), rules(&[rule(1, 2, 1, b"b")]), wait(9)];
    for unknown in [3, 4, 127, 128, 255] {
        let added = [&all[..], &[(unknown, vec![])]].concat();
        lines.settings(&packed(2, &added), &format!("an empty section of the kind {unknown} too"));
        let added = [&all[..2], &[(unknown, vec![])]].concat();
        both(lines, &packed(1, &added), &format!("an empty section of the kind {unknown} too"));
    }
    lines.settings(&packed(2, &[&[(3, vec![1])], &all[..]].concat()), "the kind 3 first");
    both(lines, &packed(1, &all), "version 1 with a wait");
    both(lines, &packed(1, &[all[0].clone(), all[1].clone(), (2, vec![])]), "version 1 with an empty wait");
    for kind in 0..3 {
        let mut some = all.to_vec();
        some.remove(kind);
        lines.settings(&packed(2, &some), &format!("no section of the kind {kind}"));
        let twice = [&all[..], &all[kind..=kind]].concat();
        lines.settings(&packed(2, &twice), &format!("two sections of the kind {kind}"));
        some.push(all[(kind + 1) % 3].clone());
        lines.settings(&packed(2, &some), &format!("the kind {} for the kind {kind}", (kind + 1) % 3));
    }
    for kind in 0..2 {
        both(lines, &packed(1, &all[1 - kind..2 - kind]), &format!("no section of the kind {kind}"));
        let twice = [&all[..2], &all[kind..=kind]].concat();
        both(lines, &packed(1, &twice), &format!("two sections of the kind {kind}"));
    }
    let empty = [realm(b"a"), rules(&[]), wait(9)];
    lines.settings(&packed(2, &[&empty[..], &empty[1..2]].concat()), "no rules twice");
    lines.settings(&packed(2, &empty[..2]), "version 2 without a wait");
}

fn realm_bodies(lines: &mut Lines) {
    lines.heading("Settings files: a realm's body whose length is not that of its text");
    for (body, what) in [
        (b"" as &[u8], "empty"),
        (b"\x01", "the length 1, no text"),
        (b"\x02a", "one byte too few"),
        (b"\x00a", "one byte too many"),
        (b"\x01ab", "one byte too many"),
        (b"\x01a\x00", "a zero behind"),
        (b"\xffa", "254 bytes too few"),
        (b"a", "no length"),
    ] {
        in_both(lines, (kind::REALM, body.to_vec()), what);
    }
    // A length of 128 that the body does not have, and one that it has.
    in_both(lines, (kind::REALM, [vec![128], vec![b'a'; 127]].concat()), "127 bytes of 128");
    in_both(lines, (kind::REALM, [vec![128], vec![b'a'; 129]].concat()), "129 bytes of 128");
}

fn other_bodies(lines: &mut Lines) {
    lines.heading("Settings files: rules that are cut, and waits of other than 4 bytes");
    let good = rule(1, 2, 1, b"bc");
    for length in 1..good.len() {
        in_both(lines, (kind::RULES, good[..length].to_vec()), &format!("{length} bytes of a rule of 6"));
    }
    for length in [1, 3, 4, 5] {
        let body = [&*good, &rule(1, 2, 1, b"de")[..length]].concat();
        in_both(lines, (kind::RULES, body), &format!("a rule, and {length} bytes of a rule of 6"));
    }
    in_both(lines, (kind::RULES, [&*good, b"\x00"].concat()), "a rule and a zero");
    in_both(lines, (kind::RULES, vec![1, 2, 1, 255, b'b']), "a rule whose prefix has 1 byte of 255");
    for length in [0, 1, 2, 3, 5, 8] {
        let body = [0, 0, 0, 9, 0, 0, 0, 9][..length].to_vec();
        lines.settings(&with((kind::WAIT, body)), &format!("a wait of {length} bytes"));
    }
}

fn many_rules(lines: &mut Lines) {
    lines.heading("Settings files: 32 rules, and more");
    for count in [32, 33] {
        in_both(lines, rules(&distinct(count)), &format!("{count} rules"));
    }
    lines.settings(&with(rules(&vec![rule(0, 0, 0, b""); 33])), "33 rules, without a prefix");
    lines.settings(&with(rules(&vec![rule(0, 0, 0, b""); 256])), "256 rules, without a prefix");
}

fn equal_rules(lines: &mut Lines) {
    lines.heading("Settings files: rules of one slot, action and prefix");
    let base = rule(1, 2, 1, b"b");
    for (other, what) in [
        (rule(1, 2, 1, b"b"), "equal"),
        (rule(1, 2, 0, b"b"), "another verdict"),
        (rule(1, 2, 2, b"b"), "another verdict, which is none"),
        (rule(0, 2, 1, b"b"), "another slot"),
        (rule(9, 2, 1, b"b"), "another slot, which is none"),
        (rule(1, 3, 1, b"b"), "another action"),
        (rule(2, 1, 1, b"b"), "slot and action changed about"),
        (rule(1, 2, 1, b"c"), "another prefix"),
        (rule(1, 2, 1, b"B"), "another prefix"),
        (rule(1, 2, 1, b"b."), "a longer prefix"),
        (rule(1, 2, 1, b"bb"), "a longer prefix"),
    ] {
        in_both(lines, rules(&[base.clone(), other]), &format!("two rules: {what}"));
    }
    for (one, what) in [
        (rule(8, 2, 1, b"b"), "a slot that is none"),
        (rule(1, 4, 1, b"b"), "an action that is none"),
        (rule(1, 2, 2, b"b"), "a verdict that is none"),
        (rule(1, 2, 1, b""), "no prefix"),
        (rule(1, 2, 1, b".b"), "no prefix text"),
    ] {
        in_both(lines, rules(&[one.clone(), one]), &format!("two equal rules, {what}"));
    }
}

/// Equal rules among many, and of long prefixes.
fn equal_rules_apart(lines: &mut Lines) {
    let twice = |one: usize, other: usize| {
        let mut all = distinct(32);
        all[other] = all[one].clone();
        rules(&all)
    };
    for (one, other) in [(0, 31), (30, 31)] {
        lines.settings(&with(twice(one, other)), &format!("of 32 rules those of {one} and {other}"));
    }
    let long = |last: u8| rule(1, 2, 1, &[&[b'p'; 127][..], &[last]].concat());
    lines.settings(&with(rules(&[long(b'a'), long(b'b')])), "two of 128 bytes, their last differs");
    lines.settings(&with(rules(&[long(b'a'), long(b'a')])), "two of 128 bytes");
    // What is past the 128th byte counts too.
    let longer = |last: u8| rule(1, 2, 1, &[&[b'p'; 128][..], &[last]].concat());
    lines.settings(&with(rules(&[longer(b'a'), longer(b'a')])), "two of 129 bytes");
    lines.settings(&with(rules(&[longer(b'a'), longer(b'b')])), "two of 129 bytes, their last differs");
}

/// Texts of which some are realms, some prefixes too, and some none of them.
const TEXTS: [&[u8]; 27] = [
    b"", b"a", b"a.b", b"a.b.", b"a.", b".a", b"a..b", b"a..", b".", b"..", b"a b", b"a#", b"#", b"\x00",
    b"\x1f", b"\x20", b"\x21", b"\x22", b"\x24", b"\x7f", b"\x80", b"\xff", b"a\"\\", b"wamp", b"wamp.",
    b"wamp.e", b"hub.bus",
];

fn texts(lines: &mut Lines) {
    lines.heading("Settings files: realms");
    for text in TEXTS {
        lines.settings(&with(realm(text)), &format!("the realm {}", shown(text)));
    }
    for text in [b"" as &[u8], b"a.b", b"a.", b"a b", b"wamp"] {
        lines.settings_1(&with_1(realm(text)), &format!("the realm {}", shown(text)));
    }
    lines.heading("Settings files: prefixes");
    for text in TEXTS {
        lines.settings(&with(rules(&[rule(1, 2, 1, text)])), &format!("the prefix {}", shown(text)));
    }
    for text in [b"" as &[u8], b"a.", b".a", b"a b", b"wamp"] {
        lines.settings_1(&with_1(rules(&[rule(1, 2, 1, text)])), &format!("the prefix {}", shown(text)));
    }
    lines.heading("Settings files: long texts");
    for length in [127, 128, 129, 255] {
        let text = vec![b'a'; length];
        lines.settings(&with(realm(&text)), &format!("a realm of {length} bytes"));
        lines.settings(&with(rules(&[rule(1, 2, 1, &text)])), &format!("a prefix of {length} bytes"));
    }
    lines.settings_1(&with_1(realm(&[b'a'; 129])), "a realm of 129 bytes");
    lines.settings_1(&with_1(rules(&[rule(1, 2, 1, &[b'a'; 129])])), "a prefix of 129 bytes");
    // A dot at the 128th byte, which ends a prefix and no realm.
    let dotted = [&[b'a'; 127][..], b"."].concat();
    lines.settings(&with(realm(&dotted)), "a realm whose 128th byte is a dot");
    lines.settings(&with(rules(&[rule(1, 2, 1, &dotted)])), "a prefix whose 128th byte is a dot");
}

fn numbers(lines: &mut Lines) {
    lines.heading("Settings files: slots, actions, verdicts and waits");
    for slot in [0, 7, 8, 9, 255] {
        in_both(lines, rules(&[rule(slot, 2, 1, b"b")]), &format!("the slot {slot}"));
    }
    for action in [0, 1, 2, 3, 4, 255] {
        in_both(lines, rules(&[rule(1, action, 1, b"b")]), &format!("the action {action}"));
    }
    for verdict in [0, 1, 2, 255] {
        in_both(lines, rules(&[rule(1, 2, verdict, b"b")]), &format!("the verdict {verdict}"));
    }
    let mut all = distinct(32);
    all[31] = rule(8, 2, 1, b"b");
    lines.settings(&with(rules(&all)), "the slot 8 in the last of 32 rules");
    for milliseconds in [
        0,
        1,
        2,
        255,
        256,
        30_000,
        59_999,
        60_000,
        60_001,
        65_535,
        65_536,
        0x0001_ea60,
        0x6000_0000,
        0x0100_0000,
        0x7fff_ffff,
        0x8000_0000,
        0x8000_0001,
        0xffff_ffff,
    ] {
        lines.settings(&with(wait(milliseconds)), &format!("a wait of {milliseconds}"));
    }
}

/// A file with these faults and no other, each by the number of its refusal. Version 1 has no wait, and so not the
/// fault 8, for which the wait is a length in the contents.
fn faulty(version: u8, faults: &[u8]) -> Vec<u8> {
    let has = |fault| faults.contains(&fault);
    let mut some = distinct(if has(11) { 33 } else { 3 });
    if has(12) {
        some[1] = some[0].clone();
    }
    if has(13) {
        some[2][0] = 8;
    }
    let mut sections = vec![realm(b"a"), rules(&some)];
    if has(10) {
        sections[0].1.push(b'a');
    }
    if version == 2 {
        sections.insert(0, wait(9));
    }
    if has(9) {
        sections.insert(0, (3, vec![]));
    }
    let mut file = packed(version, &sections);
    if has(8) {
        let entry = 2 + 9 * usize::from(has(9));
        // The entry of the wait; that of the realm stands next, and its length is 2 or 3.
        file[entry + 1..entry + 5].copy_from_slice(&(entry as u32 + 9 + 5).to_be_bytes());
    }
    if has(7) {
        file.pop();
    }
    if has(6) {
        file[0] = 3;
    }
    file
}

fn pairs(lines: &mut Lines) {
    lines.heading("Settings files: one fault, by the number of its refusal, and each two in one file");
    for one in 6..=13 {
        lines.settings(&faulty(2, &[one]), &format!("version 2, fault {one}"));
        for other in one + 1..=13 {
            lines.settings(&faulty(2, &[one, other]), &format!("version 2, faults {one} and {other}"));
        }
        let later: Vec<_> = (one..=13).collect();
        lines.settings(&faulty(2, &later), &format!("version 2, each fault from {one} on"));
    }
    let of_version_1 = [6, 7, 9, 10, 11, 12, 13];
    for (place, one) in of_version_1.into_iter().enumerate() {
        both(lines, &faulty(1, &[one]), &format!("version 1, fault {one}"));
        if let Some(next) = of_version_1.get(place + 1) {
            lines.settings_1(&faulty(1, &[one, *next]), &format!("version 1, faults {one} and {next}"));
        }
    }
    let twice = [rule(8, 2, 1, b"b"), rule(8, 2, 0, b"b")];
    lines.settings(&with(rules(&twice)), "faults 12 and 13 in one rule");
    lines.settings(&packed(2, &[realm(b"a."), rules(&twice[..1]), wait(0)]), "three faults 13");
}
