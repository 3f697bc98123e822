//! the program run_calls at work: whole calls through pipes, what their
//! answers are held against, and calls that are to be refused.

use std::io::{Read, Write};
use std::process::{Child, ChildStdin, ChildStdout, Command, Stdio};

use cases::calling::{Call, KIND_VOICES, Returned};
use cases::configuring::{record_of, voice_of};
use cases::layout::{LONGEST, ORDER, SIZES, packed};
use cases::{Random, VALUES};
use zakuro_core::services::dsp_voices::{ProbeVoice, VOICES};

use crate::same;

const PROGRAM: &str = concat!(env!("CARGO_MANIFEST_DIR"), "/../../crates/run_calls/out/run_calls");

/// the program at work.
pub struct Port {
    child: Child,
    stdin: ChildStdin,
    stdout: ChildStdout,
}

impl Port {
    pub fn start() -> Result<Port, String> {
        let started = Command::new(PROGRAM).stdin(Stdio::piped()).stdout(Stdio::piped()).spawn();
        let mut child = started.map_err(|error| format!("{PROGRAM}: {error}"))?;
        let (stdin, stdout) = (child.stdin.take().unwrap(), child.stdout.take().unwrap());
        Ok(Port { child, stdin, stdout })
    }

    /// it reads a job whole before it answers.
    pub fn answer(&mut self, call: &Call) -> Result<Returned, String> {
        let mut answer = vec![0; call.answered()];
        let done = self.stdin.write_all(&call.bytes()).and_then(|()| self.stdout.read_exact(&mut answer));
        done.map_err(|error| format!("run_calls: {error}, {answer:02X?}"))?;
        Ok(call.returned(&answer))
    }

    pub fn end(mut self) -> Result<(), String> {
        drop(self.stdin);
        let ended = self.child.wait().map_err(|error| error.to_string())?;
        if ended.success() { Ok(()) } else { Err(format!("run_calls: {ended}")) }
    }
}

/// the same of everything, or the first that differs.
pub fn held(call: &Call, oracle: &Returned, port: &Returned) -> Result<(), String> {
    fn first<T: PartialEq>(oracle: &[T], port: &[T]) -> Option<usize> {
        (0..oracle.len()).find(|&at| oracle[at] != port[at])
    }
    let kind = call.kind;
    same!(oracle.number, port.number, "kind {kind}, the number");
    same!(oracle.refused, port.refused, "kind {kind}, the voices refused");
    if let Some(voice) = first(&oracle.records, &port.records) {
        let [given, oracle, port] = [&call.records, &oracle.records, &port.records].map(|side| voice_of(&side[voice]));
        return Err(format!(
            "the records of voice {voice} differ\ngiven:  {given:?}\noracle: {oracle:?}\nport:   {port:?}"
        ));
    }
    if let Some(at) = first(&oracle.lanes, &port.lanes) {
        return Err(format!("the lanes of {} samples differ first at {at}", oracle.lanes.len()));
    }
    for region in 0..2 {
        if let Some(at) = first(&oracle.regions[region], &port.regions[region]) {
            let places = call.offsets;
            return Err(format!("kind {kind}, region {region} differs first at {at}, the places at {places:?}"));
        }
    }
    if let Some(at) = first(&oracle.mixes, &port.mixes) {
        let (oracle, port) = (oracle.mixes[at], port.mixes[at]);
        return Err(format!("the mixes differ first at {at}: oracle {oracle}, port {port}"));
    }
    same!(oracle.state, port.state, "kind {kind}, the mixer's state");
    same!(oracle.frame, port.frame, "kind {kind}, the frame");
    Ok(())
}

/// a call of voices as they begin, with noise all about them.
pub fn plain(random: &mut Random) -> Call {
    let (offsets, end) = packed(ORDER, [0; 7]);
    let mut regions = [0, 1].map(|_| random.bytes(end as usize + 50));
    for region in &mut regions {
        (0..VOICES).for_each(|voice| region[192 * voice..192 * voice + 4].fill(0));
    }
    Call {
        kind: KIND_VOICES,
        times: 1,
        offsets,
        base: 0x2000_0000,
        which: 0,
        state: [0; 16],
        records: vec![record_of(&ProbeVoice::default()); VOICES],
        regions,
        window: random.bytes(64),
        lanes: (0..VOICES * 100).map(|_| random.word() as i16).collect(),
        mixes: (0..VALUES).map(|_| random.word() as i32).collect(),
    }
}

/// holds a call that must be answered with this number.
pub fn one(port: &mut Port, call: &Call, number: u8, told: &str) -> Result<(), String> {
    same!(number, call.number(), "{told}, the number by document 01");
    let returned = port.answer(call)?;
    same!(number, returned.number, "{told}, the number");
    if number != 0 {
        held(call, &call.refused(number), &returned).map_err(|what| format!("{told}: {what}"))?;
    }
    Ok(())
}

/// what makes a number apply.
pub type Spoil = fn(&mut Call);

/// what makes each of 1 to 7 apply, more than one way for some.
pub const SPOILS: [(u8, Spoil); 14] = [
    (1, |call| call.regions[1].push(7)),
    (1, |call| call.regions = [0, 1].map(|_| vec![7; LONGEST + 1])),
    (2, |call| call.offsets[6] = call.regions[0].len() as u32 - SIZES[6] + 1),
    (2, |call| call.offsets[3] = u32::MAX),
    (3, |call| call.offsets[3] = call.offsets[2] + SIZES[2] - 1),
    (4, |call| call.base = (1u64 << 32).wrapping_sub(call.window.len() as u64 - 1) as u32),
    (5, |call| call.records.truncate(VOICES - 1)),
    (5, |call| call.records.push(call.records[0].clone())),
    (5, |call| call.records.clear()),
    (5, |call| call.lanes.push(0)),
    (5, |call| call.lanes.truncate(VOICES * 100 - 1)),
    (6, |call| call.mixes.push(0)),
    (6, |call| call.mixes.truncate(VALUES - 1)),
    (7, |call| call.records.iter_mut().next_back().into_iter().for_each(|record| record[228] = 65)),
];

/// a record with one form for a rate and a fraction that are not a number,
/// which a record in bytes has.
pub fn one_nan(mut record: Vec<u8>) -> Vec<u8> {
    for place in record[8..24].as_chunks_mut().0 {
        if f64::from_le_bytes(*place).is_nan() {
            *place = 0x7FF8_0000_0000_0000u64.to_le_bytes();
        }
    }
    record
}
