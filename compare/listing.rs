//! What our programs print for an input, written from docs/PROGRAMS.md and 01 (swaplist).

use crate::cardlog;
use crate::day;
use crate::des;
use crate::frame::{Body, Frame};
use crate::hex;
use crate::receiver::{Heard, Receiver};
use crate::swap;

/// The text of a program by its name, if there is such a program.
pub fn of(program: &str, input: &[u8]) -> Option<String> {
    match program {
        "cardlog" => Some(cardlog::played(input).text),
        "day" => Some(octet_characters(&day::played())),
        "des_vectors" => Some(des_vectors(input)),
        "framelist" => Some(framelist(input)),
        "swaplist" => Some(swap::listing(input)),
        _ => None,
    }
}

/// One line of `framelist`: the command, its address and the fields that carry information.
pub fn frame_line(frame: &Frame) -> String {
    let head = |command: &str| format!("{command} ADS {} ADP {:02X}", hex::text(&frame.ads), frame.adp);
    let tail = |name: &str, octets: &[u8]| match octets {
        [] => format!(" {name}"),
        _ => format!(" {name} {}", hex::text(octets)),
    };
    let tab_data = |tab: &u8, data: &[u8]| tail("TAB", &[*tab]) + &tail("DATA", data);
    match &frame.body {
        Body::Enq { tab } => head("ENQ") + &tail("TAB", &[*tab]),
        Body::Dat { tab, data } => head("DAT") + &tab_data(tab, data),
        Body::Rec { na1, tab, data } => head("REC") + &tail("NA1", na1) + &tab_data(tab, data),
        Body::Ech { na1k, na2, tab, data } => {
            head("ECH") + &tail("NA1K", na1k) + &tail("NA2", na2) + &tab_data(tab, data)
        }
        Body::Aut { na2k } => head("AUT") + &tail("NA2K", na2k),
        Body::Aso { tabs } => head("ASO") + &tail("TABi", tabs),
        Body::Rso { tab, ads } => head("RSO") + &tail("TAB", &[*tab]) + &tail("ADS", ads),
        Body::Trf { tab, data } => head("TRF") + &tab_data(tab, data),
        Body::Trb { tab, data } => head("TRB") + &tab_data(tab, data),
        Body::Eos => head("EOS"),
        Body::Ib => head("IB"),
        Body::Drj => head("DRJ"),
        Body::Arj => head("ARJ"),
        Body::Tra => head("TRA"),
        Body::Pre => head("PRE"),
        Body::Sel => head("SEL"),
    }
}

/// The receiver run over the input, whose end is a gap.
fn framelist(input: &[u8]) -> String {
    let mut receiver = Receiver::Empty;
    let mut lines = String::new();
    let mut start = 0;
    for (at, octet) in input.iter().enumerate() {
        if receiver == Receiver::Empty {
            start = at;
        }
        match receiver.octet(*octet) {
            Heard::Nothing => {}
            Heard::Good(frame) => lines += &format!("{}\n", frame_line(&frame)),
            Heard::Bad(1) => {
                return lines + &format!("refused 1 at {start}\nskipped {} octets\n", input.len() - at - 1);
            }
            Heard::Bad(number) => lines += &format!("refused {number} at {start}\n"),
        }
    }
    if let Some(number) = receiver.gap() {
        lines += &format!("refused {number} at {start}\n");
    }
    lines
}

/// How many vectors were run, and how many came out right in each way.
#[derive(Clone, Copy, Default)]
struct Tally {
    run: usize,
    enciphered: usize,
    deciphered: usize,
}

impl Tally {
    fn line(&self, name: &str) -> String {
        format!("{name} {} enciphered {} deciphered {}\n", self.run, self.enciphered, self.deciphered)
    }

    fn add(&mut self, enciphered: bool, deciphered: bool) {
        self.run += 1;
        self.enciphered += enciphered as usize;
        self.deciphered += deciphered as usize;
    }
}

/// A line `SET KEY PLAINTEXT CIPHERTEXT`, numbers of sixteen hexadecimal digits, one space between.
fn vector(line: &[u8]) -> Option<(&[u8], [[u8; 8]; 3])> {
    let words: Vec<&[u8]> = line.split(|octet| *octet == b' ').collect();
    let [set, numbers @ ..] = &words[..] else { return None };
    let sixteen = |word: &[u8]| word.len() == 16 && word.iter().all(u8::is_ascii_hexdigit);
    if set.is_empty() || numbers.len() != 3 || !numbers.iter().all(|word| sixteen(word)) {
        return None;
    }
    let number = |k: usize| hex::field(std::str::from_utf8(numbers[k]).expect("hexadecimal digits"));
    Some((set, [number(0), number(1), number(2)]))
}

/// The eight S-boxes, a line for each row of sixteen.
fn boxes() -> String {
    let rows = des::S.iter().enumerate().flat_map(|(j, rows)| rows.iter().map(move |row| (j + 1, row)));
    rows.map(|(number, row)| format!("S{number} {}\n", hex::text(row))).collect()
}

/// The report of `des_vectors`: each set's counts, each wrong number, each line that is no vector, the
/// S-boxes where a line asks for them, the total.
fn des_vectors(input: &[u8]) -> String {
    if input.len() >= 65_536 {
        return "the input is over 65535 octets\n".to_string();
    }
    let mut report = String::new();
    let (mut set, mut tally, mut total) = (Vec::new(), Tally::default(), Tally::default());
    let text = input.strip_suffix(b"\n").unwrap_or(input);
    let lines = text.split(|octet| *octet == b'\n');
    for (number, line) in lines.enumerate().filter(|(_, line)| !line.is_empty() && line[0] != b'#') {
        if line == b"boxes" {
            report += &boxes();
            continue;
        }
        let Some((name, [key, plain, cipher])) = vector(line) else {
            report += &format!("line {} is not a vector\n", number + 1);
            continue;
        };
        if name != set {
            if tally.run > 0 {
                report += &tally.line(&latin(&set));
            }
            (set, tally) = (name.to_vec(), Tally::default());
        }
        let found = [
            ("enciphered", des::encipher(key, plain), cipher),
            ("deciphered", des::decipher(key, cipher), plain),
        ];
        for (way, gave, expected) in found.iter().filter(|(_, gave, expected)| gave != expected) {
            let (gave, expected) = (hex::text(gave), hex::text(expected));
            report += &format!("line {} {way} {gave} expected {expected}\n", number + 1);
        }
        let right = found.map(|(_, gave, expected)| gave == expected);
        tally.add(right[0], right[1]);
        total.add(right[0], right[1]);
    }
    if tally.run > 0 {
        report += &tally.line(&latin(&set));
    }
    report + &total.line("total")
}

/// A text whose octets stand each for one character, as `compare print` takes them back.
fn octet_characters(text: &str) -> String {
    latin(text.as_bytes())
}

/// A set's name, octet by octet.
fn latin(name: &[u8]) -> String {
    name.iter().map(|octet| *octet as char).collect()
}
