//! Measures the library's calls beside the second program's, in one run, as ratios; and counts
//! the library's instructions with callgrind.

mod bars;
mod callgrind;
mod work;

use second::testing::calls::Call;
use second::Set;
use shell::console::arguments;
use shell::options::{Form, Options};
use shell::{say, warn};
use std::path::PathBuf;
use std::process::ExitCode;
use std::time::{Duration, Instant};
use work::{Side, Work, MEASURED};

const USAGE: &str = "\
bursztok-bench [--set N] [--milliseconds N]
      Calls per second of the library and of the second program, side by side, for one set or
      all. The two take turns, so that both see the same machine; the median turn counts.
bursztok-bench --instructions [--set N] [--symbol NAME]
      Instructions per call, counted by callgrind (valgrind must be there) inside the library's
      exported call, or inside the function NAME wherever the call reaches it.
bursztok-bench --bars PROGRAMS
      Instructions of the calls and of the programs ring_bench and choices_bench in the folder
      PROGRAMS, beside their bars and a peer's figures.
bursztok-bench --run CALL --times N [--set N] [--second]
      Runs one call so many times and measures nothing; for callgrind.

CALL is key-test, commitment, commitment-with-rests, response, rebuild, rebuild-default-one, write,
read, write-packed, read-packed, pack or unpack. Each works on one sheet of a test key with the
published counts; buffers are not cleared in between. The default of --milliseconds is 200 for each
call and side.

Exit status: 0 done, 1 no instructions counted or a bar passed by more than 3 %, 2 bad usage.";

/// What all inputs are made from.
const SEED: u64 = 1;
const TURNS: u32 = 5;

/// Whether the library runs in another process, under an emulator.
const EMULATED: bool = !cfg!(target_arch = "x86_64");

const FORM: Form = Form {
    name: "bench",
    values: &["set", "milliseconds", "symbol", "bars", "run", "times"],
    flags: &["instructions", "second"],
    words: &[],
};

/// What is to be done.
#[derive(Debug)]
enum Task {
    Measure(Vec<Set>, Duration),
    Count(Vec<Set>, Option<String>),
    Bars(PathBuf),
    Run(Set, Side, Call, u64),
}

fn main() -> ExitCode {
    let words = arguments();
    if words.iter().any(|word| word == "--help" || word == "-h") {
        say!("{USAGE}");
        return ExitCode::SUCCESS;
    }
    match parse(&words) {
        Ok(task) => run(task),
        Err(message) => {
            warn!("{message}");
            ExitCode::from(2)
        }
    }
}

fn parse(words: &[String]) -> Result<Task, String> {
    let options = Options::parse(FORM, words)?;
    let set = match options.number("set")? {
        None => None,
        Some(number) => {
            let set = u32::try_from(number).ok().and_then(Set::stated);
            let last = Set::ALL.len();
            let fault = || options.fault(format!("--set is {number}, expected 1 to {last}"));
            Some(set.ok_or_else(fault)?)
        }
    };
    let sets = set.map_or(Set::ALL.to_vec(), |set| vec![set]);
    let tasks = [
        options.has("instructions"),
        options.given("bars").is_some(),
        options.given("run").is_some(),
    ];
    if tasks.iter().filter(|given| **given).count() > 1 {
        return Err(options.fault("--instructions, --bars and --run do not go together"));
    }
    if let Some(programs) = options.given("bars") {
        return Ok(Task::Bars(PathBuf::from(programs)));
    }
    if options.has("instructions") {
        let symbol = options.given("symbol").map(str::to_string);
        return Ok(Task::Count(sets, symbol));
    }
    match (options.given("run"), options.number("times")?) {
        (Some(word), Some(times)) => {
            let call = MEASURED.iter().find(|(_, name, _)| *name == word);
            let call = call
                .ok_or_else(|| options.fault(format!("'{word}' is no call")))?
                .0;
            let side = if options.has("second") {
                Side::Second
            } else {
                Side::Library
            };
            Ok(Task::Run(sets[0], side, call, times))
        }
        (None, None) => {
            let budget = options.number("milliseconds")?.unwrap_or(200);
            Ok(Task::Measure(sets, Duration::from_millis(budget)))
        }
        _ => Err(options.fault("--run and --times go together")),
    }
}

fn run(task: Task) -> ExitCode {
    match task {
        Task::Run(set, side, call, times) => {
            let mut work = Work::new(set, SEED);
            for _ in 0..times {
                work.run(side, call);
            }
            ExitCode::SUCCESS
        }
        Task::Bars(_) | Task::Count(..) if EMULATED => {
            warn!("bench: the library runs under an emulator here; instructions need x86-64");
            ExitCode::from(1)
        }
        Task::Bars(programs) => bars::hold(&programs),
        Task::Count(sets, symbol) => count_instructions(&sets, symbol.as_deref()),
        Task::Measure(sets, budget) => {
            if EMULATED {
                warn!("bench: the library runs under an emulator here, so its times say nothing");
            }
            for set in sets {
                measure(set, budget);
            }
            ExitCode::SUCCESS
        }
    }
}

fn measure(set: Set, budget: Duration) {
    say!("set {}", set.number());
    say!(
        "  {:<21} {:>14} {:>12} {:>14} {:>12} {:>8}",
        "call",
        "library /s",
        "a call",
        "second /s",
        "a call",
        "ratio"
    );
    let mut work = Work::new(set, SEED);
    for (call, name, _) in MEASURED {
        let mut turns = (Vec::new(), Vec::new());
        for _ in 0..TURNS {
            turns
                .0
                .push(turn(&mut work, Side::Library, call, budget / TURNS));
            turns
                .1
                .push(turn(&mut work, Side::Second, call, budget / TURNS));
        }
        let (library, second) = (median(turns.0), median(turns.1));
        say!(
            "  {:<21} {:>14.0} {:>9.2} us {:>14.0} {:>9.2} us {:>8.2}",
            name,
            1e6 / library,
            library,
            1e6 / second,
            second,
            second / library
        );
    }
}

/// Microseconds a call, over one turn.
fn turn(work: &mut Work, side: Side, call: Call, budget: Duration) -> f64 {
    let start = Instant::now();
    let mut count = 0u32;
    while start.elapsed() < budget || count == 0 {
        for _ in 0..8 {
            work.run(side, call);
        }
        count += 8;
    }
    start.elapsed().as_secs_f64() * 1e6 / f64::from(count)
}

fn median(mut times: Vec<f64>) -> f64 {
    times.sort_by(f64::total_cmp);
    times[times.len() / 2]
}

/// Runs this program under callgrind for every call, collecting inside one symbol only.
fn count_instructions(sets: &[Set], symbol: Option<&str>) -> ExitCode {
    say!(
        "instructions a call, inside {}",
        symbol.unwrap_or("the exported call")
    );
    let mut entered = false;
    for set in sets {
        for (_, name, exported) in MEASURED {
            match callgrind::inside(*set, name, symbol.unwrap_or(exported)) {
                Ok(count) => {
                    entered |= count > 0;
                    say!("  set {}  {name:<21} {count:>12}", set.number());
                }
                Err(message) => {
                    warn!("bench: {message}");
                    return ExitCode::from(1);
                }
            }
        }
    }
    if !entered {
        warn!("bench: no call enters the symbol, so nothing was counted");
        return ExitCode::from(1);
    }
    ExitCode::SUCCESS
}

#[cfg(test)]
mod tests {
    use super::{parse, Task};

    fn parsed(line: &str) -> Result<Task, String> {
        let words: Vec<String> = line.split(' ').map(str::to_string).collect();
        parse(&words)
    }

    #[test]
    fn what_is_to_be_done() {
        let one = |line: &str| format!("{:?}", parsed(line).unwrap());
        assert_eq!(one("--set 1 --instructions"), "Count([I], None)");
        assert_eq!(one("--bars bin"), "Bars(\"bin\")");
        assert_eq!(
            one("--run read --times 2 --set 3"),
            "Run(III, Library, Read, 2)"
        );
        assert_eq!(one("--set=8 --milliseconds 5"), "Measure([VIII], 5ms)");
    }

    #[test]
    fn bad_usage_is_told() {
        let fault = |line: &str, said: &str| {
            let told = parsed(line).unwrap_err();
            assert_eq!(told, format!("bench: {said}; try --help"));
        };
        fault("--sets 1", "'--sets' is no option");
        fault("--set 9", "--set is 9, expected 1 to 8");
        fault("--run read", "--run and --times go together");
        fault("--run reads --times 1", "'reads' is no call");
        let both = "--instructions, --bars and --run do not go together";
        fault("--run read --times 1 --instructions", both);
        fault("--bars bin --instructions", both);
    }
}
