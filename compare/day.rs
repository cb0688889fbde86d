//! What `day` prints (docs/PROGRAMS.md): the fitter's day on this program's own tool, cards and swap file.

use crate::card::Card;
use crate::frame::{self, Address, Block, Number};
use crate::hex;
use crate::listing::frame_line;
use crate::record::{Record, LABEL, RAW};
use crate::swap::{self, LONG};
use crate::tool::{Outcome, Request, Tool};
use crate::utf8::{self, Characters, Fit, Octets};

const FLAT: Address = [0x11, 0x22, 0x33, 0x44, 0x55, 0x66];
const NEIGHBOURS: [Address; 2] = [[0x11, 0x22, 0x33, 0x44, 0x55, 0x77], [0x11, 0x22, 0x33, 0x44, 0x55, 0x88]];
const FLAT_KEY: Block = [0x13, 0x34, 0x57, 0x79, 0x9B, 0xBC, 0xDF, 0xF1];
const WRONG_KEY: Block = [0x0E, 0x32, 0x92, 0x32, 0xEA, 0x6D, 0x0D, 0x73];
const NEIGHBOURS_KEY: Block = [0x01, 0x23, 0x45, 0x67, 0x89, 0xAB, 0xCD, 0xEF];
const NA1: Block = [0x01, 0x23, 0x45, 0x67, 0x89, 0xAB, 0xCD, 0xEF];
const NA2: Block = [0xFE, 0xDC, 0xBA, 0x98, 0x76, 0x54, 0x32, 0x10];

/// The TAB of the logger's curve in the swap file; the flat's cards have no such record.
const CURVE: u8 = 0x03;
/// The meter's index this morning, in Wh, which TAB 01 of the old card holds and the curve ends with.
const INDEX: u32 = 100_000;
const HALF_HOURS: u32 = 48;
const PER_HALF_HOUR: u32 = 250;

/// The words of 01's table, Numbers handed back.
fn words(number: Number) -> &'static str {
    match number {
        1 => "length N out of range",
        2 => "CRC wrong",
        3 => "gap inside a frame",
        4 => "command not known",
        5 => "length not of this command",
        6 => "address of the wrong sort",
        7 => "data too long",
        8 => "ill-formed text",
        9 => "too many characters",
        10 => "no such record",
        11 => "not open",
        12 => "setup rule broken",
        13 => "cipher wrong",
        14 => "echo wrong",
        15 => "session ended",
        16 => "tool busy",
        17 => "wrong length lent",
        18 => "swap file faulty",
        19 => "unexpected frame",
        21 => "weak key",
        _ => "rejected",
    }
}

fn raw(tab: u8, octets: usize, data: &[u8]) -> Record {
    label(tab, octets, 0, data, RAW)
}

fn text(tab: u8, octets: usize, characters: usize, data: &str) -> Record {
    label(tab, octets, characters, data.as_bytes(), LABEL)
}

fn label(tab: u8, octets: usize, characters: usize, data: &[u8], kind: u8) -> Record {
    Record {
        tab,
        kind,
        octet_limit: Octets(octets),
        character_limit: Characters(characters),
        readable: 1,
        open_to_programming: 1,
        open_to_transfer: 0,
        data: data.to_vec(),
    }
}

fn card(ads: Address, key: Block, records: &[Record]) -> Card {
    Card::setup(&ads, &key, records).expect("an acceptable setup")
}

fn old_card() -> Card {
    let records = [
        raw(0x01, 4, &INDEX.to_be_bytes()),
        raw(0x02, 8, &[0x06, 0x17, 0x21, 0x0A]),
        // 02, E1: é as e and U+0301, so that these are the three characters that the new card takes.
        text(0x0A, 16, 16, "Zoe\u{301}"),
        text(0x0B, 40, 40, "Résidence du Château"),
    ];
    card(FLAT, FLAT_KEY, &records)
}

fn new_card() -> Card {
    let records = [raw(0x01, 4, &[]), raw(0x02, 8, &[]), text(0x0A, 16, 3, ""), text(0x0B, 17, 20, "")];
    card(FLAT, FLAT_KEY, &records)
}

fn neighbours() -> [Card; 2] {
    let first = [raw(0x01, 4, &[0x00, 0x00, 0x0B, 0xB8]), text(0x0A, 16, 16, "Inès")];
    let second: Vec<Record> = (1..=6).map(|tab| raw(tab, 4, &[0x00, 0x00, 0xC3, 0x50 + tab - 1])).collect();
    [card(NEIGHBOURS[0], NEIGHBOURS_KEY, &first), card(NEIGHBOURS[1], NEIGHBOURS_KEY, &second)]
}

/// 02, E10: the logger's curve, the index at each half hour up to this morning, three octets each, the most
/// significant first.
pub fn curve() -> Vec<u8> {
    let index = |half_hour: u32| INDEX - PER_HALF_HOUR * (HALF_HOURS - 1 - half_hour);
    (0..HALF_HOURS).flat_map(|half_hour| index(half_hour).to_be_bytes()[1..].to_vec()).collect()
}

/// `raw octets N DATA`, `label octets N characters M "TEXT"`, or `long octets N`, whose data would fill the page.
fn described(kind: u8, data: &[u8]) -> String {
    let octets = data.len();
    match kind {
        RAW => return format!("raw octets {octets} {}", hex::text(data)),
        LONG => return format!("long octets {octets}"),
        _ => {}
    }
    let Characters(characters) = utf8::characters(data).expect("a label is well-formed");
    let text = std::str::from_utf8(data).expect("a label is well-formed");
    format!("label octets {octets} characters {characters} \"{text}\"")
}

fn spaced(octets: &[u8]) -> String {
    let each: Vec<String> = octets.iter().map(|octet| hex::text(&[*octet])).collect();
    each.join(" ")
}

/// The bus with its three cards, the tool that is plugged in, and what has been printed.
struct Day {
    text: String,
    tool: Tool,
    adp: u8,
    cards: [Card; 3],
}

/// How a request has ended: well, for a reading with its DATA, or not.
enum Ended {
    Well(Vec<u8>),
    Failed,
}

impl Day {
    fn say(&mut self, line: &str) {
        self.text += line;
        self.text += "\n";
    }

    fn hour(&mut self, heading: &str) {
        if !self.text.is_empty() {
            self.say("");
        }
        self.say(heading);
    }

    fn say_frame(&mut self, speaker: &str, octets: &[u8]) {
        let frame = frame::read(octets).expect("a good frame");
        self.say(&format!("{speaker}  {}   | {}", frame_line(&frame), spaced(octets)));
    }

    /// All cards but the one at a place hear octets; a reply comes from one of them at most.
    fn cards_hear(&mut self, octets: &[u8], silent: Option<usize>) -> Option<(usize, Vec<u8>)> {
        let mut reply = None;
        for place in (0..3).filter(|place| Some(*place) != silent) {
            for octet in octets {
                let mut buffer = [0; 128];
                let answer = self.cards[place].octet(*octet, &NA2, &mut buffer);
                if let Some(number) = answer.number {
                    let ads = hex::text(&self.cards[place].address);
                    self.say(&format!("card  {ads} refused {number} ({})", words(number)));
                }
                if answer.reply > 0 {
                    reply = Some((place, buffer[..answer.reply].to_vec()));
                }
            }
        }
        reply
    }

    /// A frame of the tool, and the reply to it that the tool and the other cards hear, damaged at an offset or not.
    fn round(&mut self, frame: &[u8], damaged: Option<usize>) -> Outcome {
        self.say_frame("tool", frame);
        let Some((place, mut reply)) = self.cards_hear(frame, None) else { return Outcome::Nothing };
        self.say_frame("card", &reply);
        if let Some(at) = damaged {
            let (old, new) = (reply[at], !reply[at]);
            self.say(&format!("wire  octet {at} turns from {old:02X} to {new:02X}"));
            reply[at] = new;
        }
        assert!(self.cards_hear(&reply, Some(place)).is_none());
        self.tool_hears(&reply)
    }

    fn tool_hears(&mut self, octets: &[u8]) -> Outcome {
        let mut last = Outcome::Nothing;
        for octet in octets {
            let mut buffer = [0; 128];
            match self.tool.octet(*octet, &mut buffer) {
                Outcome::Nothing => {}
                Outcome::Dropped(number) => self.tool_refused(number),
                Outcome::Authenticate(length) => {
                    let frame = buffer[..length].to_vec();
                    last = self.round(&frame, None);
                }
                other => last = other,
            }
        }
        last
    }

    fn tool_refused(&mut self, number: Number) {
        self.say(&format!("tool  refused {number} ({})", words(number)));
    }

    /// A request to its end. Where nothing more comes, the hosts report a session end.
    fn play(&mut self, ads: Address, request: Request, damaged: Option<usize>) -> Ended {
        let mut buffer = [0; 128];
        let begun = self.tool.request(&ads, self.adp, &request, &mut buffer).expect("an acceptable request");
        if begun.wake_up {
            self.say("wake  AGN");
        }
        let mut outcome = self.round(&buffer[..begun.length], damaged);
        if outcome == Outcome::Nothing {
            outcome = self.tool.session_end();
            self.cards.iter_mut().for_each(|card| assert!(card.session_end().number.is_none()));
        }
        match outcome {
            Outcome::Done(data) => Ended::Well(data.unwrap_or_default()),
            Outcome::Failed(number) => {
                self.tool_refused(number);
                Ended::Failed
            }
            _ => Ended::Failed,
        }
    }

    /// Reads records of a station and adds them to a list.
    fn read(&mut self, list: &mut Vec<swap::Record>, ads: Address, tabs: &[u8], damaged: Option<u8>) {
        for tab in tabs {
            if damaged == Some(*tab) {
                self.play(ads, Request::Read { tab: *tab }, Some(10));
            }
            if let Ended::Well(data) = self.play(ads, Request::Read { tab: *tab }, None) {
                let kind = if *tab == 0x0A || *tab == 0x0B { LABEL } else { RAW };
                self.say(&format!("read  TAB {tab:02X} {}", described(kind, &data)));
                list.push(swap::Record { ads, tab: *tab, kind, data });
            }
        }
    }

    /// The flat's logger hands its curve over, and it goes into its place in the list.
    fn take_curve(&mut self, list: &mut Vec<swap::Record>) {
        let data = curve();
        self.say(&format!("curve TAB {CURVE:02X} {}", described(LONG, &data)));
        list.push(swap::Record { ads: FLAT, tab: CURVE, kind: LONG, data });
        list.sort_by_key(|record| (record.ads, record.tab));
    }

    fn say_file(&mut self, file: &[u8]) {
        self.say(&format!("file  octets {}   | {}", file.len(), spaced(file)));
        for record in swap::read(file).expect("a good swap file") {
            let ads = hex::text(&record.ads);
            self.say(&format!("file  {ads} TAB {:02X} {}", record.tab, described(record.kind, &record.data)));
        }
    }

    fn fit(&mut self, record: &swap::Record) -> Vec<u8> {
        if record.kind == RAW {
            return record.data.clone();
        }
        let wanted = new_card().records.into_iter().find(|new| new.tab == record.tab).expect("the same TABs");
        let (Octets(octets), Characters(characters)) = (wanted.octet_limit, wanted.character_limit);
        let Fit::Kept(Octets(end), _) = utf8::fit(&record.data, wanted.octet_limit, wanted.character_limit)
        else {
            panic!("a label of the file is well-formed")
        };
        let kept = record.data[..end].to_vec();
        let (old, new) = (described(LABEL, &record.data), described(LABEL, &kept));
        self.say(&format!("fit   TAB {:02X} {old} within {octets} and {characters}: {new}", record.tab));
        kept
    }

    fn program(&mut self, tab: u8, data: &[u8], key: Block) {
        let request = Request::Program { tab, data: data.to_vec(), key: key.to_vec(), na1: NA1.to_vec() };
        if let Ended::Well(_) = self.play(FLAT, request, None) {
            self.say(&format!("done  TAB {tab:02X} programmed"));
        }
    }
}

fn written(records: &[swap::Record]) -> Vec<u8> {
    let mut buffer = [0; 4096];
    let swap::Written::File(length) = swap::write(records, &mut buffer) else { panic!("a good swap file") };
    buffer[..length].to_vec()
}

/// The whole day.
pub fn played() -> String {
    let [second, third] = neighbours();
    let cards = [old_card(), second, third];
    let mut day = Day { text: String::new(), tool: Tool::fresh(), adp: 1, cards };
    let mut morning = vec![];
    day.hour("07:00 the fitter reads the old card");
    day.read(&mut morning, FLAT, &[0x01, 0x02, 0x0A, 0x0B], Some(0x0A));
    day.take_curve(&mut morning);

    day.hour("10:00 the fitter programs the new card from the swap file");
    let morning = written(&morning);
    day.say_file(&morning);
    day.cards[0] = new_card();
    let records = swap::read(&morning).expect("a good swap file");
    for record in records.iter().filter(|record| record.kind != LONG) {
        let data = day.fit(record);
        if record.tab == 0x0A {
            day.program(record.tab, &data, WRONG_KEY);
        }
        day.program(record.tab, &data, FLAT_KEY);
    }

    day.hour("12:00 the van polls the block");
    (day.tool, day.adp) = (Tool::fresh(), 2);
    let mut noon = vec![];
    day.read(&mut noon, FLAT, &[0x01, 0x02, 0x0A, 0x0B], None);
    day.read(&mut noon, NEIGHBOURS[0], &[0x01, 0x0A], None);
    day.read(&mut noon, NEIGHBOURS[1], &[1, 2, 3, 4, 5, 6], None);

    day.hour("21:00 the office opens the records");
    let noon = written(&noon);
    day.say_file(&noon);
    let noon = swap::read(&noon).expect("a good swap file");
    for old in records {
        let new = noon.iter().find(|new| (new.ads, new.tab) == (old.ads, old.tab));
        let new = new.map_or("none".to_string(), |new| described(new.kind, &new.data));
        day.say(&format!("TAB {:02X} old {}   | new {new}", old.tab, described(old.kind, &old.data)));
    }
    day.text
}
