//! the configuration reader: number, record and configuration. the program
//! run_voice serves the port's side through pipes. the numbers' oracle is
//! document 01's table, that of the rest the source's `parse_config`.

use std::io::{Read, Write};
use std::process::{ChildStdout, Command, Stdio};
use std::sync::mpsc::{SyncSender, sync_channel};
use std::thread;

use cases::Random;
use cases::configuring::{ANSWER, FLAGS, Job, RECORD, at_seven, not_numbers, voice_of};

const PROGRAM: &str = concat!(env!("CARGO_MANIFEST_DIR"), "/../../crates/run_voice/out/run_voice");
/// every number that a job can be answered by; each must be met.
const NUMBERS: [u8; 4] = [0, 7, 20, 21];
/// how many jobs are handed over together. the program works on one batch
/// while the answers to the one before are held against the oracle's.
const BATCH: usize = 256;

pub fn compare(random: &mut Random, count: usize) -> Result<u64, String> {
    let mut child = Command::new(PROGRAM)
        .stdin(Stdio::piped())
        .stdout(Stdio::piped())
        .spawn()
        .map_err(|error| format!("{PROGRAM}: {error}"))?;
    let (mut stdin, stdout) = (child.stdin.take().unwrap(), child.stdout.take().unwrap());
    let (sender, batches) = sync_channel::<Vec<u8>>(2);
    let writer = thread::spawn(move || batches.iter().all(|batch| stdin.write_all(&batch).is_ok()));
    let compared = feed(random, count, sender, stdout);
    // a difference leaves answers unread
    if compared.is_err() {
        child.kill().ok();
    }
    writer.join().unwrap();
    child.wait().map_err(|error| error.to_string())?;
    compared
}

fn feed(
    random: &mut Random,
    count: usize,
    sender: SyncSender<Vec<u8>>,
    mut stdout: ChildStdout,
) -> Result<u64, String> {
    let mut met = NUMBERS.map(|number| (number, 0));
    let mut before = Vec::new();
    let mut left = count;
    let mut batch = fixed(random);
    loop {
        if !batch.is_empty() {
            sender.send(batch.iter().flat_map(Job::bytes).collect()).map_err(|_| "the program ended".to_string())?;
        }
        for job in &before {
            let number = check(job, &mut stdout)?;
            met.iter_mut().filter(|(known, _)| *known == number).for_each(|(_, times)| *times += 1);
        }
        if batch.is_empty() {
            return tell(&met);
        }
        let next = left.min(BATCH);
        left -= next;
        before = std::mem::replace(&mut batch, (0..next).map(|_| Job::random(random)).collect());
    }
}

/// says how often each number was met, and fails where one never was.
fn tell(met: &[(u8, u64)]) -> Result<u64, String> {
    let told: Vec<String> = met.iter().map(|(number, times)| format!("{number} {times} times")).collect();
    let told = format!("numbers met: {}", told.join(", "));
    if met.iter().any(|(_, times)| *times == 0) {
        return Err(told);
    }
    println!("config: {told}");
    Ok(met.iter().map(|(_, times)| times).sum())
}

/// the boundaries of number 7, gains that are not a number, and every flag
/// alone, over random records.
fn fixed(random: &mut Random) -> Vec<Job> {
    let mut jobs: Vec<Job> = at_seven(random).into_iter().chain(not_numbers(random)).map(|(job, _)| job).collect();
    for bit in FLAGS {
        for _ in 0..8 {
            let mut job = Job::random(random);
            job.flag(1 << bit);
            jobs.push(job);
        }
    }
    jobs
}

/// the number, where all is the same.
fn check(job: &Job, stdout: &mut ChildStdout) -> Result<u8, String> {
    let mut port = vec![0; ANSWER];
    stdout.read_exact(&mut port).map_err(|error| format!("{job}\nthe program gave no answer: {error}"))?;
    let oracle = job.answer();
    let Some(at) = (0..ANSWER).find(|&at| oracle[at] != port[at]) else {
        return Ok(port[0]);
    };
    let place = match at {
        0..4 => format!("the number, {} and {}", oracle[0], port[0]),
        _ if at < 4 + RECORD => format!("byte {} of the record", at - 4),
        _ => format!("byte {} of the configuration", at - 4 - RECORD),
    };
    let told = |answer: &[u8]| {
        let (head, rest) = answer.split_at(4);
        let (record, configuration) = rest.split_at(RECORD);
        let count = u32::from_le_bytes(record[228..232].try_into().unwrap());
        let voice = if count <= 64 { format!("{:?}", voice_of(record)) } else { String::new() };
        format!("{head:?}\n{voice}\n{record:02X?}\n{configuration:02X?}")
    };
    Err(format!("{job}\ndiffers first in {place}\noracle: {}\nport:   {}", told(&oracle), told(&port)))
}
