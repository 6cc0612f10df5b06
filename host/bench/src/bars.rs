//! The bars that the library's instructions are held to, beside the figures of a peer: the BLISS
//! signer of strongSwan 5.9.8, compiled with -O3, which multiplies and chooses the same way.

use crate::callgrind::{self, Count};
use second::Set;
use shell::{say, warn};
use std::path::Path;
use std::process::ExitCode;

/// How far above its bar a count may lie, in a hundredth: other compilers' start code and
/// alignment move a count by less.
const LEEWAY: u64 = 3;

/// What is counted: a call of the library on one sheet of a set, or all of a program's `main` by
/// the number of its rounds.
enum Counted {
    Call(&'static str, Set),
    Program(&'static str, u64),
}

struct Row {
    name: &'static str,
    counted: Counted,
    bar: Option<u64>,
    peer: Option<u64>,
}

const fn call(
    name: &'static str,
    set: Set,
    call: &'static str,
    bar: Option<u64>,
    peer: Option<u64>,
) -> Row {
    let counted = Counted::Call(call, set);
    Row {
        name,
        counted,
        bar,
        peer,
    }
}

const fn program(
    name: &'static str,
    (program, rounds): (&'static str, u64),
    bar: u64,
    peer: u64,
) -> Row {
    let counted = Counted::Program(program, rounds);
    Row {
        name,
        counted,
        bar: Some(bar),
        peer: Some(peer),
    }
}

const ROWS: [Row; 17] = [
    program(
        "product, both operands transformed",
        ("ring_bench", 2000),
        55_000,
        217_025,
    ),
    program(
        "sign choices, 39 places",
        ("choices_bench", 16),
        55_000,
        238_433,
    ),
    call("key test, set I", Set::I, "key-test", Some(64_000), None),
    call(
        "commitment, set I",
        Set::I,
        "commitment",
        Some(63_000),
        None,
    ),
    call(
        "commitment with rests, set I",
        Set::I,
        "commitment-with-rests",
        Some(64_000),
        None,
    ),
    call("response, set I", Set::I, "response", None, Some(325_770)),
    call(
        "response, set III",
        Set::III,
        "response",
        None,
        Some(368_279),
    ),
    call(
        "response, set IV",
        Set::IV,
        "response",
        Some(190_000),
        Some(423_380),
    ),
    call(
        "response, set VIII",
        Set::VIII,
        "response",
        Some(270_000),
        None,
    ),
    call(
        "rebuild, set I",
        Set::I,
        "rebuild",
        Some(75_000),
        Some(181_977),
    ),
    call(
        "rebuild with default one, set I",
        Set::I,
        "rebuild-default-one",
        Some(75_000),
        None,
    ),
    call("record written, set I", Set::I, "write", Some(5_700), None),
    call("record read, set I", Set::I, "read", Some(5_700), None),
    call(
        "packed record written, set I",
        Set::I,
        "write-packed",
        Some(40_000),
        None,
    ),
    call(
        "packed record read, set I",
        Set::I,
        "read-packed",
        Some(34_000),
        None,
    ),
    call("record packed, set I", Set::I, "pack", Some(50_000), None),
    call(
        "record unpacked, set I",
        Set::I,
        "unpack",
        Some(50_000),
        None,
    ),
];

/// Counts every row, prints it beside its bar and its peer, and fails where a bar is passed by more
/// than the leeway. `programs` is the folder of the two benchmark programs.
pub fn hold(programs: &Path) -> ExitCode {
    say!(
        "{:<36} {:>12} {:>10} {:>10}",
        "instructions",
        "library",
        "bar",
        "peer"
    );
    let mut above = 0;
    for row in &ROWS {
        let count = match &row.counted {
            Counted::Call(call, set) => callgrind::call(*set, call),
            Counted::Program(program, rounds) => {
                callgrind::program(&programs.join(program), *rounds)
            }
        };
        let count: Count = match count {
            Ok(count) => count,
            Err(message) => {
                warn!("bench: {message}");
                return ExitCode::from(1);
            }
        };
        let verdict = if passes(count, row.bar) {
            ""
        } else {
            "  above its bar"
        };
        above += u32::from(!verdict.is_empty());
        say!(
            "{:<36} {:>12} {:>10} {:>10}{verdict}",
            row.name,
            count,
            figure(row.bar),
            figure(row.peer)
        );
    }
    if above > 0 {
        warn!("bench: {above} above the bar by more than {LEEWAY} %");
        return ExitCode::from(1);
    }
    ExitCode::SUCCESS
}

fn passes(count: Count, bar: Option<u64>) -> bool {
    bar.is_none_or(|bar| count * 100 <= bar * (100 + LEEWAY))
}

fn figure(figure: Option<u64>) -> String {
    figure.map_or(String::new(), |figure| figure.to_string())
}

#[cfg(test)]
mod tests {
    use super::passes;

    #[test]
    fn a_bar_is_held_with_three_hundredths_of_leeway() {
        assert!(passes(1_000, Some(1_000)));
        assert!(passes(1_030, Some(1_000)));
        assert!(!passes(1_031, Some(1_000)));
        assert!(passes(u64::from(u32::MAX), None));
    }
}
