//! Calls of the settings functions, in turns as steps are: good files and settings, wrong ones by construction, with bytes
//! changed at random, and any bytes; with each room.

use crate::faults::{self, FAULTS};
use crate::filed::{Kind, Like};
use crate::files::{Content, Draft, Laid, RULES, USUAL_WAIT};
use crate::random::Random;
use crate::run::Run;
use crate::unlawful::BREACHES;
use crate::{dump, trap};
use against::side::Filing;
use reference::settings::BYTES;

/// Room for the longest file and for settings, and more.
const ROOM: usize = 5000;

/// The turns, and how often each is taken, of 100.
const TURNS: [(usize, Turn); 8] = [
    (20, Run::good_file),
    (40, Run::faulty_file),
    (12, Run::changed_file),
    (4, Run::random_file),
    (12, Run::broken_settings),
    (8, Run::changed_settings),
    (1, Run::random_settings),
    (3, Run::default_settings),
];

type Turn = fn(&mut Run) -> Result<(), String>;

impl Run {
    /// Makes calls until there are so many. They draw from a generator of their own, so that the steps of a seed are the
    /// same with them and without.
    pub fn file_calls(&mut self, calls: u64) -> Result<(), String> {
        while self.tally.filed.calls() < calls {
            let (_, turn) = TURNS[self.files.weighted(&TURNS.map(|(share, _)| share))];
            turn(self)?;
        }
        Ok(())
    }

    /// One call on both sides; answers the refusal. Where one is wanted it is the generator's own word.
    fn call(
        &mut self,
        kind: Kind,
        filing: Filing,
        lent: &[u8],
        room: usize,
        wanted: Option<u64>,
    ) -> Result<u64, String> {
        let number = self.tally.filed.calls();
        if self.trace {
            eprintln!("file call {number}: {kind:?}, {}, room {room}, {}", filing.name(), dump::hex(lent));
        }
        trap::note_file_call(self.seed, number);
        let mut done = self.pair.file(filing, lent, room);
        let refusal = self.pair.reference.refusal();
        if done.is_ok() && wanted.is_some_and(|wanted| refusal != wanted) {
            done = Err("both give another refusal than the call was made for");
        }
        if let Err(what) = done {
            let told = dump::told_filing(what, filing, lent, room, &self.pair);
            return Err(format!("file call {number}, {kind:?}: {told}"));
        }
        self.tally.filed.call(kind, filing, refusal);
        Ok(refusal)
    }

    /// A done call that must write these bytes, with room enough; then with less, with one byte less or with just enough.
    fn writes(&mut self, kind: Kind, filing: Filing, lent: &[u8], wanted: &[u8]) -> Result<(), String> {
        self.call(kind, filing, lent, ROOM, Some(0))?;
        if self.pair.reference.written() != wanted {
            let what = "both write other bytes than the call was made for";
            let told = dump::told_filing(what, filing, lent, ROOM, &self.pair);
            return Err(format!("file call {}, {kind:?}: {told}", self.tally.filed.calls()));
        }
        let (kind, room, wanted) = match self.files.below(4) {
            0 => (Kind::OneByteShort, wanted.len() - 1, 5),
            1 => (Kind::ExactRoom, wanted.len(), 0),
            2 => (Kind::SmallRoom, self.files.below(wanted.len()), 5),
            _ => return Ok(()),
        };
        self.call(kind, filing, lent, room, Some(wanted))?;
        Ok(())
    }

    /// A good file is read to the settings that it holds, they are written in both versions, and both are read back.
    fn good_file(&mut self) -> Result<(), String> {
        let version = self.files.pick(&[1, 2, 2]);
        let mut content = Content::random(&mut self.files);
        let laid = Draft::new(version, &content).laid_out(&mut self.files);
        self.count_like(&content, &laid);
        let file = laid.bytes();
        let with_usual_wait = Content { wait: USUAL_WAIT, ..content.clone() };
        if version == 1 {
            content = with_usual_wait.clone();
            self.writes(Kind::Good, Filing::Read1, &file, &content.lent())?;
        } else {
            self.call(Kind::Good, Filing::Read1, &file, ROOM, Some(6))?;
        }
        self.writes(Kind::Good, Filing::Read, &file, &content.lent())?;
        let settings = content.lent();
        let [first, second] = [content.written(1), content.written(2)];
        self.writes(Kind::Good, Filing::Write1, &settings, &first)?;
        self.writes(Kind::Good, Filing::Write, &settings, &second)?;
        self.writes(Kind::ReadBack, Filing::Read, &second, &settings)?;
        self.writes(Kind::ReadBack, Filing::Read, &first, &with_usual_wait.lent())?;
        self.writes(Kind::ReadBack, Filing::Read1, &first, &with_usual_wait.lent())
    }

    fn count_like(&mut self, content: &Content, laid: &Laid) {
        let filed = &mut self.tally.filed;
        let mut like = |is_like: bool, what| {
            if is_like {
                filed.like(what);
            }
        };
        like(content.rules.is_empty(), Like::NoRules);
        like(content.rules.len() == RULES, Like::AllRules);
        like(laid.version == 1, Like::Version1);
        like(!laid.entries.is_sorted_by_key(|entry| entry.place), Like::OutOfOrder);
        let held: usize = laid.entries.iter().map(|entry| entry.length as usize).sum();
        like(held < laid.behind.len(), Like::Gaps);
        let empty = laid.entries.iter().find(|entry| entry.length == 0).map(|entry| entry.place);
        like(empty.is_some_and(|place| place > 0 && (place as usize) < laid.page()), Like::EmptyInContents);
        let is_in =
            |place| laid.entries.iter().any(|entry| entry.place < place && (place as usize) < entry.end());
        like(empty.is_some_and(is_in), Like::EmptyInSection);
    }

    /// The refusal of a file by the reader of version 1, given that by the reader of version 2.
    fn by_first_reader(file: &[u8], refusal: u64) -> u64 {
        match file.first() {
            Some(version) if *version != 1 => 6,
            _ => refusal,
        }
    }

    /// One fault, or two of different numbers. Whatever the room is, the first fault is told.
    fn faulty_file(&mut self) -> Result<(), String> {
        let random = &mut self.files;
        let one = random.below(FAULTS.len());
        let mut faults = vec![one];
        if random.once_in(3) {
            let others = (0..FAULTS.len()).filter(|&other| FAULTS[other].0 != FAULTS[one].0);
            faults.extend(random.pick_of(others));
        }
        let draft = Draft::new(random.pick(&[1, 2, 2]), &Content::random(random));
        let (file, refusal, made) = faults::made(random, &draft, &faults);
        self.tally.filed.faults(&made);
        for (reader, wanted) in
            [(Filing::Read, refusal), (Filing::Read1, Run::by_first_reader(&file, refusal))]
        {
            let room = if wanted == 0 { ROOM } else { self.files.pick(&[0, BYTES - 1, BYTES, ROOM]) };
            self.call(Kind::Faulty, reader, &file, room, Some(wanted))?;
        }
        Ok(())
    }

    /// A good or faulty file with some bytes changed, put in or taken out. The contents are hit half of the time.
    fn changed_file(&mut self) -> Result<(), String> {
        let random = &mut self.files;
        let draft = Draft::new(random.pick(&[1, 2, 2]), &Content::random(random));
        let mut file = if random.once_in(4) {
            let fault = random.below(FAULTS.len());
            faults::made(random, &draft, &[fault]).0
        } else {
            draft.laid_out(random).bytes()
        };
        for _ in 0..random.between(1, 3) {
            let end = if random.once_in(2) { file.len().min(29) } else { file.len() };
            change(random, &mut file, end);
        }
        for reader in Filing::READERS {
            let room = self.files.pick(&[0, BYTES - 1, BYTES, ROOM, ROOM]);
            self.call(Kind::Changed, reader, &file, room, None)?;
        }
        Ok(())
    }

    /// Any bytes; mostly they begin as a file does.
    fn random_file(&mut self) -> Result<(), String> {
        let random = &mut self.files;
        let length = random.pick(&[0, 1, 2, 11, 20, 29, 38, 60, 300, 2400]);
        let most = random.pick(&[2, 40, 255]);
        let mut file: Vec<u8> =
            (0..random.between(0, length)).map(|_| random.between(0, most) as u8).collect();
        if random.once_in(2) {
            let begin = [random.between(0, 3) as u8, random.between(0, 4) as u8];
            file.splice(..file.len().min(2), begin);
        }
        for reader in Filing::READERS {
            self.call(Kind::RandomBytes, reader, &file, ROOM, None)?;
        }
        Ok(())
    }

    /// One rule of settings broken by construction: the refusal is 1 whatever the room is.
    fn broken_settings(&mut self) -> Result<(), String> {
        let place = self.files.below(BREACHES.len());
        let mut settings = Content::random(&mut self.files).lent();
        // Where the settings have nothing to break in that way, others are drawn until some have.
        while BREACHES[place].1(&mut self.files, &mut settings).is_none() {
            settings = Content::random(&mut self.files).lent();
        }
        self.tally.filed.breach(place);
        for writer in Filing::WRITERS {
            let room = self.files.pick(&[0, 20, ROOM]);
            self.call(Kind::Broken, writer, &settings, room, Some(1))?;
        }
        Ok(())
    }

    /// A few bytes of good settings changed at random. They may still keep the rules.
    fn changed_settings(&mut self) -> Result<(), String> {
        let random = &mut self.files;
        let mut settings = Content::random(random).lent();
        for _ in 0..random.between(1, 3) {
            let at = random.below(BYTES);
            // Half of the changes hit a byte in use, or one next to it.
            let used = (at..BYTES).find(|&at| settings[at] != 0).unwrap_or(at);
            let at = if random.once_in(2) { used } else { at };
            settings[at] = changed(random, settings[at]);
        }
        for writer in Filing::WRITERS {
            let room = self.files.pick(&[0, 60, ROOM, ROOM]);
            self.call(Kind::Changed, writer, &settings, room, None)?;
        }
        Ok(())
    }

    fn random_settings(&mut self) -> Result<(), String> {
        let random = &mut self.files;
        let most = random.pick(&[0, 1, 8, 255]);
        let length = random.pick(&[BYTES, BYTES, BYTES, 0, 4386]);
        let settings: Vec<u8> = (0..length).map(|_| random.between(0, most) as u8).collect();
        for writer in Filing::WRITERS {
            self.call(Kind::RandomBytes, writer, &settings, ROOM, None)?;
        }
        Ok(())
    }

    fn default_settings(&mut self) -> Result<(), String> {
        let wanted = Content { realm: b"hub.bus".to_vec(), rules: Vec::new(), wait: USUAL_WAIT };
        self.writes(Kind::Default, Filing::Default, &[], &wanted.lent())
    }
}

/// A byte is changed, put in or taken out, at a place below `end`.
fn change(random: &mut Random, bytes: &mut Vec<u8>, end: usize) {
    let Some(at) = random.pick_of(0..end) else { return };
    match random.below(8) {
        0 => drop(bytes.remove(at)),
        1 => bytes.insert(at, random.byte()),
        _ => bytes[at] = changed(random, bytes[at]),
    }
}

/// Another value, or any.
pub fn changed(random: &mut Random, byte: u8) -> u8 {
    match random.below(4) {
        0 => random.byte(),
        1 => byte.wrapping_add(1),
        2 => byte.wrapping_sub(1),
        _ => byte ^ 1 << random.below(8),
    }
}
