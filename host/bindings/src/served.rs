//! The calls of `linked.rs` where the library, which is made for x86-64, cannot be linked: every
//! call goes over a pipe to `bridge.c`, which has it linked and runs under an emulator.

use crate::foreign::{Answer, Part, Reading, Response};
use crate::Challenge;
use std::io::{self, Read, Write};
use std::mem::size_of_val;
use std::process::{ChildStdin, ChildStdout, Command, Stdio};
use std::slice;
use std::sync::{Mutex, PoisonError};

/// The bridge, once a call has started it. It ends with this process, when its input does.
static BRIDGE: Mutex<Option<Bridge>> = Mutex::new(None);

struct Bridge {
    requests: ChildStdin,
    replies: ChildStdout,
}

impl Bridge {
    fn start() -> io::Result<Bridge> {
        let mut child = Command::new(env!("BURSZTOK_RUNNER"))
            .args(["run", env!("BURSZTOK_BRIDGE")])
            .stdin(Stdio::piped())
            .stdout(Stdio::piped())
            .spawn()?;
        Ok(Bridge {
            requests: child.stdin.take().expect("it is piped"),
            replies: child.stdout.take().expect("it is piped"),
        })
    }

    fn ask(&mut self, request: &[u8], written: &mut [&mut [u8]]) -> io::Result<[u64; 5]> {
        self.requests.write_all(request)?;
        let mut numbers = [0; 5];
        for number in &mut numbers {
            let mut bytes = [0; 8];
            self.replies.read_exact(&mut bytes)?;
            *number = u64::from_le_bytes(bytes);
        }
        for buffer in written {
            self.replies.read_exact(buffer)?;
        }
        Ok(numbers)
    }
}

fn started(bridge: &mut Option<Bridge>) -> io::Result<&mut Bridge> {
    if bridge.is_none() {
        *bridge = Some(Bridge::start()?);
    }
    Ok(bridge.as_mut().expect("it was started"))
}

/// Without the library no call has an answer, so nothing can go on.
fn lost(error: &io::Error) -> ! {
    let bridge = env!("BURSZTOK_BRIDGE");
    let _ = writeln!(
        io::stderr(),
        "the library cannot be asked: {bridge} does not answer ({error}); 'make lib' makes it"
    );
    std::process::exit(2)
}

/// What the bridge answers: number and place, what else the call answers, and the key number.
struct Reply {
    answer: Answer,
    more: u64,
    length: u64,
    key: u32,
}

/// A call, by its number in `bridge.c`, with what it takes beside its buffers.
#[derive(Clone, Copy, Default)]
struct Asked {
    call: u32,
    set: u32,
    key: u32,
    sign: bool,
}

/// A call that takes at most a set.
fn ask(call: u32, set: u32, read: &[&[u8]], written: &mut [&mut [u8]]) -> Reply {
    let asked = Asked {
        call,
        set,
        ..Asked::default()
    };
    ask_with(asked, read, written)
}

/// Asks the bridge, in the form that `bridge.c` tells.
fn ask_with(asked: Asked, read: &[&[u8]], written: &mut [&mut [u8]]) -> Reply {
    let mut request = Vec::new();
    let buffers = (read.len() + written.len()) as u32;
    for number in [asked.call, asked.set, asked.key, asked.sign.into(), buffers] {
        request.extend(number.to_le_bytes());
    }
    let lent = read.iter().copied().chain(written.iter().map(|b| &**b));
    for buffer in lent {
        request.extend((buffer.len() as u64).to_le_bytes());
        request.extend(buffer);
    }
    let mut bridge = BRIDGE.lock().unwrap_or_else(PoisonError::into_inner);
    let [number, place, more, length, key] = started(&mut bridge)
        .and_then(|bridge| bridge.ask(&request, written))
        .unwrap_or_else(|error| lost(&error));
    Reply {
        answer: Answer {
            number: number as u32,
            place: place as u32,
        },
        more,
        length,
        key: key as u32,
    }
}

/// The bytes of a buffer.
fn bytes<T: Plain>(buffer: &[T]) -> &[u8] {
    // SAFETY: a number is its bytes, and every byte of the slice belongs to one.
    unsafe { slice::from_raw_parts(buffer.as_ptr().cast(), size_of_val(buffer)) }
}

fn bytes_mut<T: Plain>(buffer: &mut [T]) -> &mut [u8] {
    // SAFETY: as above, and any bytes are numbers.
    unsafe { slice::from_raw_parts_mut(buffer.as_mut_ptr().cast(), size_of_val(buffer)) }
}

/// The numbers that a buffer has.
trait Plain {}
impl Plain for i8 {}
impl Plain for u8 {}
impl Plain for i16 {}
impl Plain for u16 {}
impl Plain for u64 {}

pub fn key_test(set: u32, f: &[i8], g: &[i8], a: &[u16]) -> Answer {
    ask(1, set, &[bytes(f), bytes(g), bytes(a)], &mut []).answer
}

pub fn commitment(set: u32, a: &[u16], y1: &[i16], y2: &[i16], out: &mut [u16]) -> Answer {
    let read = [bytes(a), bytes(y1), bytes(y2)];
    ask(2, set, &read, &mut [bytes_mut(out)]).answer
}

pub fn commitment_with_rests(
    set: u32,
    a: &[u16],
    y1: &[i16],
    y2: &[i16],
    out: &mut [u16],
    rests: &mut [i16],
) -> Answer {
    let read = [bytes(a), bytes(y1), bytes(y2)];
    let mut written = [bytes_mut(out), bytes_mut(rests)];
    ask(11, set, &read, &mut written).answer
}

pub fn respond(
    set: u32,
    key: u32,
    challenge: Challenge,
    z1: &mut [i16],
    z2_dagger: &mut [i8],
) -> Response {
    let read = [
        bytes(challenge.f),
        bytes(challenge.g),
        bytes(challenge.a),
        bytes(challenge.y1),
        bytes(challenge.y2),
        bytes(challenge.list),
        bytes(challenge.thresholds),
        bytes(challenge.words),
    ];
    let mut written = [bytes_mut(z1), bytes_mut(z2_dagger)];
    let asked = Asked {
        call: 3,
        set,
        key,
        sign: challenge.sign,
    };
    let reply = ask_with(asked, &read, &mut written);
    Response {
        number: reply.answer.number,
        place: reply.answer.place,
        words: reply.more,
        key: reply.key,
    }
}

pub fn rebuild(
    set: u32,
    a: &[u16],
    z1: &[i16],
    z2_dagger: &[i8],
    list: &[u16],
    out: &mut [u16],
) -> Answer {
    let read = [bytes(a), bytes(z1), bytes(z2_dagger), bytes(list)];
    ask(4, set, &read, &mut [bytes_mut(out)]).answer
}

pub fn rebuild_default_one(
    set: u32,
    a: &[u16],
    z1: &[i16],
    z2_dagger: &[i8],
    list: &[u16],
    out: &mut [u16],
) -> Answer {
    let read = [bytes(a), bytes(z1), bytes(z2_dagger), bytes(list)];
    ask(12, set, &read, &mut [bytes_mut(out)]).answer
}

pub fn compare(set: u32, claimed: &[u16], hashed: &[u16]) -> Answer {
    ask(5, set, &[bytes(claimed), bytes(hashed)], &mut []).answer
}

pub fn compare_default_one(set: u32, claimed: &[u16], hashed: &[u16]) -> Answer {
    ask(13, set, &[bytes(claimed), bytes(hashed)], &mut []).answer
}

pub fn write(
    set: u32,
    key: u32,
    z1: &[i16],
    z2_dagger: &[i8],
    list: &[u16],
    out: &mut [u8],
) -> Answer {
    write_by(6, set, key, z1, z2_dagger, list, out)
}

pub fn write_packed(
    set: u32,
    key: u32,
    z1: &[i16],
    z2_dagger: &[i8],
    list: &[u16],
    out: &mut [u8],
) -> Answer {
    write_by(14, set, key, z1, z2_dagger, list, out)
}

fn write_by(
    call: u32,
    set: u32,
    key: u32,
    z1: &[i16],
    z2_dagger: &[i8],
    list: &[u16],
    out: &mut [u8],
) -> Answer {
    let asked = Asked {
        call,
        set,
        key,
        sign: false,
    };
    let read = [bytes(z1), bytes(z2_dagger), bytes(list)];
    ask_with(asked, &read, &mut [out]).answer
}

pub fn read(record: &[u8], z1: &mut [i16], z2_dagger: &mut [i8], list: &mut [u16]) -> Reading {
    read_by(7, record, z1, z2_dagger, list)
}

pub fn read_packed(
    record: &[u8],
    z1: &mut [i16],
    z2_dagger: &mut [i8],
    list: &mut [u16],
) -> Reading {
    read_by(15, record, z1, z2_dagger, list)
}

fn read_by(
    call: u32,
    record: &[u8],
    z1: &mut [i16],
    z2_dagger: &mut [i8],
    list: &mut [u16],
) -> Reading {
    let mut written = [bytes_mut(z1), bytes_mut(z2_dagger), bytes_mut(list)];
    let reply = ask(call, 0, &[record], &mut written);
    Reading {
        number: reply.answer.number,
        place: reply.answer.place,
        set: reply.more as u32,
        key: reply.key,
    }
}

pub fn pack(record: &[u8], out: &mut [u8]) -> Answer {
    ask(16, 0, &[record], &mut [out]).answer
}

pub fn unpack(record: &[u8], out: &mut [u8]) -> Answer {
    ask(17, 0, &[record], &mut [out]).answer
}

pub fn z1_section(record: &[u8]) -> (Answer, Part) {
    section(8, record)
}

pub fn z2_section(record: &[u8]) -> (Answer, Part) {
    section(9, record)
}

pub fn list_section(record: &[u8]) -> (Answer, Part) {
    section(10, record)
}

fn section(call: u32, record: &[u8]) -> (Answer, Part) {
    let reply = ask(call, 0, &[record], &mut []);
    let part = Part {
        start: reply.more,
        length: reply.length,
    };
    (reply.answer, part)
}

pub fn kappa(set: u32) -> u32 {
    ask(18, set, &[], &mut []).answer.number
}

pub fn record_bytes(set: u32) -> u32 {
    ask(19, set, &[], &mut []).answer.number
}

pub fn packed_bytes(set: u32) -> u32 {
    ask(20, set, &[], &mut []).answer.number
}
