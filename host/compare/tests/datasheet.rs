//! The tables of docs/DATASHEET.md say what the library, the second program, docs/CALLS.md and
//! docs/PERFORMANCE.md say; its version, and the header's table and figures, are the same, and the
//! calls of the header are those of CALLS.

use second::parameters::{KeyCounts, LIST_BUFFER, N, THRESHOLDS};
use second::{Form, Set};
use std::fs;

fn text(name: &str) -> String {
    let path = format!("{}/../../{name}", env!("CARGO_MANIFEST_DIR"));
    fs::read_to_string(&path).unwrap_or_else(|error| panic!("{path}: {error}"))
}

/// The cells behind the first one, in the one row that starts with it.
fn row(text: &str, first: &str) -> Vec<String> {
    let start = format!("| {first} |");
    let mut rows = text.lines().filter(|line| line.starts_with(&start));
    let found = rows.next().unwrap_or_else(|| panic!("no row '{first}'"));
    assert_eq!(rows.next(), None, "two rows '{first}'");
    let cells = found.trim_end_matches('|').split('|').skip(2);
    cells.map(|cell| cell.trim().to_string()).collect()
}

/// A number of a set.
type Number = fn(Set) -> usize;

#[test]
fn the_sets_are_those_of_the_library() {
    let wanted: [(&str, Number); 12] = [
        ("what the dropped digits cost, at most", |set| {
            set.figure() as usize
        }),
        ("kappa, the places of a challenge list", |set| {
            bursztok::kappa(set.number())
        }),
        ("d, the dropped binary digits", |set| set.d() as usize),
        ("p, the number of steps", |set| set.p() as usize),
        ("d1, the coefficients of 1 or -1 in f, and in g", |set| {
            set.key_counts().ones
        }),
        ("d2, those of 2 or -2; the rest is zero", |set| {
            set.key_counts().twos
        }),
        ("K, the squared length of a key, at most", |set| {
            set.k() as usize
        }),
        ("public key, bytes", |_| size_of::<[u16; N]>()),
        ("secret key, bytes", |_| size_of::<[[i8; N]; 2]>()),
        ("signature, bytes", |set| {
            size_of::<[i16; N]>() + size_of::<[i8; N]>() + 2 * set.kappa()
        }),
        ("record, bytes", |set| bursztok::record_bytes(set.number())),
        ("packed record, bytes", |set| {
            bursztok::packed_bytes(set.number())
        }),
    ];
    let sheet = text("docs/DATASHEET.md");
    for (name, number) in wanted {
        let told = row(&sheet, name);
        let told: Vec<String> = told.iter().map(|cell| cell.replace(',', "")).collect();
        let numbers = Set::ALL.map(|set| number(set).to_string());
        assert_eq!(told[..numbers.len()], numbers, "{name}");
    }
}

#[test]
fn the_calls_have_the_figures_of_calls_and_performance() {
    let (sheet, calls) = (text("docs/DATASHEET.md"), text("docs/CALLS.md"));
    let performance = text("docs/PERFORMANCE.md");
    let counted = |name: &str| row(&performance, name)[0].clone();
    let of_set_1 = |name: &str| format!("{} (set I)", counted(&format!("{name}, set I")));
    let both = |one: &str, other: &str| {
        format!("{}, {}", counted(&format!("{one}, set I")), of_set_1(other))
    };
    let response = counted("response, set I / III / IV / VIII");
    let wanted = [
        ("response", format!("{response} (sets I / III / IV / VIII)")),
        ("key test", of_set_1("key test")),
        (
            "rebuild, with default one",
            both("rebuild", "rebuild with default one"),
        ),
        ("reader", of_set_1("record read")),
        (
            "commitment, with rests",
            both("commitment", "commitment with rests"),
        ),
        ("writer", of_set_1("record written")),
        ("packed reader", of_set_1("packed record read")),
        ("packed writer", of_set_1("packed record written")),
        (
            "packing, unpacking",
            both("record packed", "record unpacked"),
        ),
        ("each other call", "not counted".to_string()),
    ];
    for (call, instructions) in wanted {
        let told = row(&sheet, call);
        let stack = calls.split("## Stack").nth(1).expect("CALLS has the stack");
        assert_eq!(told[..3], row(stack, call)[..3], "{call}");
        assert_eq!(told[3], instructions, "{call}");
    }
}

#[test]
fn the_version_is_the_headers() {
    let header = text("include/bursztok.h");
    let version = header
        .lines()
        .find_map(|line| line.strip_prefix("#define BURSZTOK_VERSION "));
    let version = version.expect("the header has a version").trim_matches('"');
    assert!(text("docs/DATASHEET.md").contains(&format!("\nBursztok {version}: ")));
}

#[test]
fn the_headers_table_has_the_numbers_of_the_sets() {
    let header = text("include/bursztok.h");
    let table = header.split(" *    set  kappa ").nth(1);
    let mut rows = table.expect("the header has the table").lines();
    let names = rows.next().expect("the table has names");
    assert!(names.ends_with(" record bytes  packed bytes"), "{names}");
    for (set, row) in Set::ALL.into_iter().zip(rows) {
        let cells = row.trim_start_matches(" *").replace(',', "");
        let told: Vec<&str> = cells.split_whitespace().collect();
        let (number, kappa) = (set.number(), set.kappa());
        let others = if set.like() == set {
            let KeyCounts { ones, twos } = set.key_counts();
            let (d, p, largest) = (set.d(), set.p(), set.largest());
            let (b2_squared, k) = (set.b2_squared(), set.k());
            format!("{d} {p} {largest} {b2_squared} {k} {ones} {twos}")
        } else {
            format!("as set {}", set.like().number())
        };
        let plain = bursztok::record_bytes(number);
        let packed = bursztok::packed_bytes(number);
        let wanted = format!("{number} {kappa} {others} {plain} {packed}");
        assert_eq!(told.join(" "), wanted);
    }
}

#[test]
fn the_headers_lengths_are_those_of_the_bindings() {
    let header = text("include/bursztok.h");
    for (name, length, second) in [
        ("VECTOR", bursztok::VECTOR, N),
        ("THRESHOLDS", bursztok::THRESHOLDS, THRESHOLDS),
        ("LIST", bursztok::LIST, LIST_BUFFER),
        ("RECORD", bursztok::RECORD, Form::Plain.longest()),
        ("PACKED", bursztok::PACKED, Form::Packed.longest()),
    ] {
        assert_eq!(length, second, "{name}");
        let line = format!("\n#define BURSZTOK_{name} {length}\n");
        assert!(header.contains(&line), "{line}");
    }
}

#[test]
fn no_key_number_is_zero_everywhere() {
    let stated = (bursztok::KEY_NOT_STATED, second::form::KEY_NOT_STATED);
    assert_eq!(stated, (0, 0));
    let header = text("include/bursztok.h");
    assert!(header.contains("\n#define BURSZTOK_KEY_NOT_STATED 0\n"));
}

#[test]
fn the_header_tells_the_sizes() {
    let header = text("include/bursztok.h");
    let words: Vec<&str> = header.split([' ', '*', '\n']).collect();
    let words: Vec<&str> = words.into_iter().filter(|word| !word.is_empty()).collect();
    let header = words.join(" ");
    for size in [
        bursztok::kappa,
        bursztok::record_bytes,
        bursztok::packed_bytes,
    ] {
        let sizes = Set::ALL.map(|set| size(set.number()).to_string());
        let said = format!(
            "{} for 1 to {}, {} for 0",
            sizes.join(", "),
            sizes.len(),
            size(0)
        );
        assert!(header.contains(&said), "{said}");
    }
}

/// What a line declares: the name of a call.
fn declared(line: &str) -> Option<&str> {
    let (kind, rest) = line.split_once(" bursztok_")?;
    let kind = kind == "uint32_t" || kind.starts_with("bursztok_");
    kind.then_some(rest.split_once('(')?.0)
}

#[test]
fn the_calls_of_the_header_are_those_of_calls() {
    let (header, calls) = (text("include/bursztok.h"), text("docs/CALLS.md"));
    let names: Vec<&str> = header.lines().filter_map(declared).collect();
    assert_eq!(names.len(), second::testing::calls::Call::ALL.len());
    for name in names {
        let cell = format!("| `bursztok_{name}` |");
        assert_eq!(calls.matches(&cell).count(), 1, "{name}");
    }
}

#[test]
fn the_header_tells_the_figures() {
    let (published, longer) = Set::ALL.split_at(4);
    let figures = |sets: &[Set]| {
        let figures: Vec<String> = sets.iter().map(|set| set.figure().to_string()).collect();
        figures.join(", ")
    };
    assert_eq!(figures(longer), figures(published));
    let said = format!(
        "2^d + 1, that is {} for sets 1 to 4, and as much for sets 5 to 8.",
        figures(published)
    );
    assert!(text("include/bursztok.h").contains(&said), "{said}");
}
