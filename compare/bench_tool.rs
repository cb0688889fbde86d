//! Self-tests on 01's rows of the tool: wake-ups, the order of refusals, every reply after every frame.

use crate::bench::{ADDRESS, FOREIGN, KEY, NA1, NA2};
use crate::des;
use crate::frame::{self, Address, Body, Command, Frame, Number, BROADCAST};
use crate::hex;
use crate::keys::{self, SEMI_WEAK, WEAK};
use crate::random_frames;
use crate::receiver::Receiver;
use crate::report::{same, Case, Disagreement};
use crate::rng::Rng;
use crate::tool::{After, Outcome, Request, Running, Tool};

/// A tool whose exchanges are answered well, or not at all and then ended by a session end.
struct ToolBench {
    tool: Tool,
    requests: usize,
}

impl ToolBench {
    /// Makes a request and expects a wake-up or none.
    fn expect(&mut self, ads: Address, request: &Request, answer: Option<Body>, wake_up: bool) -> Case {
        self.requests += 1;
        let mut buffer = [0; 128];
        let begun = self.tool.request(&ads, 1, request, &mut buffer).expect("an idle tool");
        let answer = answer.map_or(vec![], |body| Frame { ads, adp: 1, body }.octets().expect("no DATA"));
        for octet in answer {
            self.tool.octet(octet, &mut buffer);
        }
        self.tool.session_end();
        same(begun.wake_up, wake_up, || format!("request {}", self.requests))
    }

    fn read(&mut self, ads: Address, answered: bool, wake_up: bool) -> Case {
        let dat = Body::Dat { tab: 0x0A, data: vec![] };
        self.expect(ads, &Request::Read { tab: 0x0A }, answered.then_some(dat), wake_up)
    }
}

/// Five good reads of one station: one wake-up. The sixth: a second. Then the other clauses of the rule.
pub fn wake_ups() -> Result<usize, Disagreement> {
    let mut bench = ToolBench { tool: Tool::fresh(), requests: 0 };
    for wake_up in [true, false, false, false, false, true] {
        bench.read(ADDRESS, true, wake_up)?;
    }
    for _ in 0..9 {
        bench.read(ADDRESS, false, false)?; // a failed one isn't counted
    }
    for wake_up in [false, false, false, false, true] {
        bench.read(ADDRESS, true, wake_up)?;
    }
    bench.read(FOREIGN, false, true)?;
    bench.read(ADDRESS, true, true)?;
    let trf = Request::Transfer { tab: 0x0A, data: vec![] };
    bench.expect(ADDRESS, &trf, Some(Body::Tra), false)?;
    let (key, na1) = (KEY.to_vec(), NA1.to_vec());
    let program = Request::Program { tab: 0x0A, data: vec![], key, na1 };
    for (ads, request) in [
        (ADDRESS, program),
        (BROADCAST, Request::Broadcast { tab: 0x0A, data: vec![] }),
        (BROADCAST, Request::Initialise),
    ] {
        bench.expect(ads, &request, None, true)?;
        bench.expect(ads, &request, None, true)?;
        bench.read(ADDRESS, true, true)?;
        bench.read(ADDRESS, true, false)?;
    }
    Ok(bench.requests)
}

/// The tool's order of tests: 17, 16, 6, 21, 7 (12 stands below).
pub fn refusals() -> Result<usize, Disagreement> {
    let (mut tool, mut buffer) = (Tool::fresh(), [0; 128]);
    let program = |count, key: &[u8]| Request::Program {
        tab: 0,
        data: vec![0; count],
        key: key.to_vec(),
        na1: NA1.to_vec(),
    };
    let broadcast = |count| Request::Broadcast { tab: 0, data: vec![0; count] };
    let parity_turned = keys::with_parity(WEAK[1], 0x08);
    let rows: [(&[u8], Request, usize, Result<bool, Number>); 19] = [
        (&BROADCAST, program(101, &KEY), 127, Err(17)),
        (&BROADCAST[1..], program(101, &KEY), 128, Err(17)),
        (&BROADCAST, program(101, &KEY[1..]), 128, Err(17)),
        (&BROADCAST, program(101, &WEAK[0]), 127, Err(17)),
        (&BROADCAST, program(101, &WEAK[0][1..]), 128, Err(17)),
        (&BROADCAST, program(101, &WEAK[0]), 128, Err(6)),
        (&ADDRESS, program(101, &WEAK[0]), 128, Err(21)),
        (&ADDRESS, program(0, &WEAK[1]), 128, Err(21)),
        (&ADDRESS, program(0, &WEAK[2]), 128, Err(21)),
        (&ADDRESS, program(0, &WEAK[3]), 128, Err(21)),
        (&ADDRESS, program(100, &parity_turned), 128, Err(21)),
        (&ADDRESS, program(101, &SEMI_WEAK[0][0]), 128, Err(7)),
        (&BROADCAST, program(101, &KEY), 128, Err(6)),
        (&ADDRESS, program(101, &KEY), 128, Err(7)),
        (&ADDRESS, broadcast(117), 128, Err(6)),
        (&BROADCAST, broadcast(117), 128, Err(7)),
        (&BROADCAST, Request::Initialise, 128, Ok(true)),
        (&ADDRESS, program(100, &keys::turned(WEAK[0], 1)), 128, Ok(true)),
        (&BROADCAST, program(101, &WEAK[0]), 128, Err(16)),
    ];
    for (row, (ads, request, room, expected)) in rows.iter().enumerate() {
        let begun = tool.request(ads, 1, request, &mut buffer[..*room]);
        same(begun.map(|begun| begun.wake_up), *expected, || format!("request row {row}"))?;
    }
    Ok(rows.len())
}

/// A tool that holds a length over its limit or a partly received frame that cannot be is refused with 12,
/// before 6 and 21; one that runs under a weak key is not.
pub fn soundness() -> Result<usize, Disagreement> {
    let running = |count: usize, key: [u8; 8]| {
        let after = After::Rec { tab: 0, data: vec![0; count], key, na1: NA1 };
        Tool { running: Some(Running { ads: ADDRESS, adp: 1, after }), ..Tool::fresh() }
    };
    let holding = |octets: &[u8]| Tool { receiver: Receiver::Partial(octets.to_vec()), ..Tool::fresh() };
    let rows = [
        (running(100, KEY), false),
        (running(101, KEY), true),
        (running(100, WEAK[0]), false),
        (holding(&[10]), true),
        (holding(&[11; 10]), false),
        (holding(&[11; 11]), true),
    ];
    let (key, na1) = (WEAK[0].to_vec(), NA1.to_vec());
    let program = Request::Program { tab: 0, data: vec![0; 101], key, na1 };
    for (row, (tool, refused)) in rows.iter().enumerate() {
        let mut after = tool.clone();
        let requested = after.request(&BROADCAST, 1, &program, &mut [0; 128]) == Err(12);
        let outcomes = [after.octet(0, &mut [0; 128]), after.gap(), after.session_end()];
        let all_refused = requested && outcomes.iter().all(|outcome| *outcome == Outcome::Refused(12));
        let short_buffer = after.octet(0, &mut [0; 127]);
        same(all_refused && after == *tool, *refused, || format!("tool soundness row {row}"))?;
        same(short_buffer, Outcome::Refused(17), || format!("tool soundness row {row}"))?;
    }
    Ok(rows.len())
}

const DATA: &[u8] = b"data";

/// The tool after ENQ, TRF, REC and AUT.
fn waiting_tool(after: Command) -> Tool {
    let (tab, data, key, na1) = (0x0A, DATA.to_vec(), KEY.to_vec(), NA1.to_vec());
    let request = match after {
        Command::Enq => Request::Read { tab },
        Command::Trf => Request::Transfer { tab, data },
        _ => Request::Program { tab, data, key, na1 },
    };
    let mut tool = Tool::fresh();
    tool.request(&ADDRESS, 1, &request, &mut [0; 128]).expect("an idle tool");
    if after == Command::Aut {
        hear(&mut tool, ADDRESS, 1, echo(KEY, 0x0A, DATA));
    }
    tool
}

/// The last outcome of a frame's octets, and the frame that the tool then sends.
fn hear(tool: &mut Tool, ads: Address, adp: u8, body: Body) -> (Outcome, Option<Frame>) {
    let (mut last, mut buffer) = (Outcome::Nothing, [0; 128]);
    for octet in (Frame { ads, adp, body }).octets().expect("DATA within its limit") {
        last = tool.octet(octet, &mut buffer);
    }
    let sent = match last {
        Outcome::Authenticate(length) => frame::read(&buffer[..length]).ok(),
        _ => None,
    };
    (last, sent)
}

fn echo(key: [u8; 8], tab: u8, data: &[u8]) -> Body {
    Body::Ech { na1k: des::encipher(key, NA1), na2: NA2, tab, data: data.to_vec() }
}

/// A programming request that runs under a weak key, as no call begins it, goes on with that key to its end.
pub fn running_under_a_weak_key() -> Result<usize, Disagreement> {
    for key in WEAK {
        let input = || format!("running under {}", hex::text(&key));
        let after = After::Rec { tab: 0x0A, data: DATA.to_vec(), key, na1: NA1 };
        let mut tool = waiting_tool(Command::Rec);
        tool.running = Some(Running { ads: ADDRESS, adp: 1, after });
        let aut = Frame { ads: ADDRESS, adp: 1, body: Body::Aut { na2k: des::encipher(key, NA2) } };
        let echoed = hear(&mut tool, ADDRESS, 1, echo(key, 0x0A, DATA));
        same(echoed, (Outcome::Authenticate(27), Some(aut)), input)?;
        same(hear(&mut tool, ADDRESS, 1, Body::Eos), (Outcome::Done(None), None), input)?;
    }
    Ok(2 * WEAK.len())
}

/// The replies that mean something after one of the four frames; any other good frame is 19.
fn meaningful_replies(after: Command) -> Vec<(Body, Outcome)> {
    let dat = |tab| Body::Dat { tab, data: DATA.to_vec() };
    match after {
        Command::Enq => vec![
            (dat(0x0A), Outcome::Done(Some(DATA.to_vec()))),
            (dat(0x0B), Outcome::Failed(14)),
            (Body::Drj, Outcome::Failed(20)),
        ],
        Command::Trf => vec![(Body::Tra, Outcome::Done(None)), (Body::Drj, Outcome::Failed(20))],
        Command::Rec => vec![
            (echo(KEY, 0x0A, DATA), Outcome::Authenticate(27)),
            (echo(KEY, 0x0B, DATA), Outcome::Failed(14)),
            (echo(KEY, 0x0A, b"dat"), Outcome::Failed(14)),
            (echo(KEY, 0x0A, b"date"), Outcome::Failed(14)),
            (echo(NA2, 0x0A, DATA), Outcome::Failed(13)),
            (echo(NA2, 0x0B, b"dat"), Outcome::Failed(13)),
        ],
        _ => vec![
            (Body::Eos, Outcome::Done(None)),
            (Body::Arj, Outcome::Failed(13)),
            (Body::Drj, Outcome::Failed(20)),
        ],
    }
}

/// 01, The tool: every command as a reply after each of the four frames, and frames of another ADS or ADP.
pub fn replies(rng: &mut Rng) -> Result<usize, Disagreement> {
    let mut cases = 0;
    for after in [Command::Enq, Command::Trf, Command::Rec, Command::Aut] {
        let mut rows = meaningful_replies(after);
        for command in frame::COMMANDS {
            if rows.iter().all(|(body, _)| body.command() != command) {
                rows.push((random_frames::body(rng, command), Outcome::Failed(19)));
            }
        }
        for (body, expected) in rows {
            reply(after, &body, expected)?;
            cases += 1;
        }
    }
    Ok(cases)
}

/// From elsewhere it is dropped and the wait goes on; then it counts;
/// then no request runs and it is dropped again.
fn reply(after: Command, body: &Body, expected: Outcome) -> Case {
    let input = || format!("after {after:?}: {body:?}");
    let mut tool = waiting_tool(after);
    for (ads, adp) in [(FOREIGN, 1), (ADDRESS, 2), (BROADCAST, 1)] {
        same(hear(&mut tool, ads, adp, body.clone()), (Outcome::Nothing, None), input)?;
        same(&tool, &waiting_tool(after), input)?;
    }
    let na2k = des::encipher(KEY, NA2);
    let aut = Frame { ads: ADDRESS, adp: 1, body: Body::Aut { na2k } };
    let sent = (expected == Outcome::Authenticate(27)).then_some(aut);
    same(hear(&mut tool, ADDRESS, 1, body.clone()), (expected, sent.clone()), input)?;
    if sent.is_none() {
        same(hear(&mut tool, ADDRESS, 1, body.clone()), (Outcome::Nothing, None), input)?;
        same(tool.session_end(), Outcome::Nothing, input)?;
    }
    Ok(())
}
