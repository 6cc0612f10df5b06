//! The rests after rounding: `commit --rests` and `commit --plot`.

mod setting;

use second::commitment::sums;
use second::ring::whole;
use second::Set;
use setting::{expect, files_of, numbers, run, Folder};
use std::collections::BTreeMap;
use std::path::Path;

const BINS: usize = 16;

/// The words of a commitment, up to the files that it writes.
fn commit<'a>(set: &'a str, folder: &'a str, outputs: &[&'a str]) -> Vec<&'a str> {
    [&["commit", "--set", set, "--folder", folder], outputs].concat()
}

/// Where the tests write the commitment, the rests and the plot.
fn outputs_in(folder: &Folder) -> [String; 3] {
    ["out", "rests", "plot"].map(|name| folder.path(name))
}

/// The files of a folder with their contents.
fn contents(folder: &Folder) -> BTreeMap<String, Vec<u8>> {
    let files = std::fs::read_dir(&folder.0).unwrap();
    files
        .map(|file| file.unwrap().path())
        .filter(|path| path.is_file())
        .map(|path| (path.display().to_string(), std::fs::read(path).unwrap()))
        .collect()
}

/// The 17 edges of the bins of a set, and how many of the rests lie in each bin.
fn bins_of(set: Set, rests: &[i64]) -> (Vec<i64>, Vec<usize>) {
    let width = set.step() / BINS as i64;
    let edges: Vec<i64> = (-8..=8).map(|edge| edge * width).collect();
    let within = |bin: &[i64]| {
        let bin = bin[0]..bin[1];
        rests.iter().filter(|rest| bin.contains(rest)).count()
    };
    let counts = edges.windows(2).map(within).collect();
    (edges, counts)
}

/// The tags that open the elements of a picture, each with the text behind it. Every element is
/// closed under its own name, and the first holds all others.
fn elements_of(svg: &str) -> Vec<(&str, &str)> {
    let (mut open, mut elements) = (Vec::new(), Vec::new());
    let pieces: Vec<&str> = svg.split('<').collect();
    assert_eq!(pieces[0], "");
    for (at, piece) in pieces.iter().enumerate().skip(1) {
        let (tag, text) = piece.split_once('>').expect("a tag ends");
        assert!(!text.contains(['>', '&']), "{piece}");
        if let Some(name) = tag.strip_prefix('/') {
            assert_eq!(open.pop(), Some(name), "{piece}");
            assert_eq!(open.is_empty(), at + 1 == pieces.len(), "{piece}");
            continue;
        }
        let inside = tag.trim_end_matches('/');
        let (name, attributes) = inside.split_once(' ').unwrap_or((inside, ""));
        check_attributes(attributes);
        elements.push((tag, text.trim_end()));
        if inside == tag {
            open.push(name);
        }
    }
    assert!(open.is_empty(), "{open:?}");
    elements
}

/// Attributes have a name each, no two the same, and a value between quotes.
fn check_attributes(attributes: &str) {
    let mut pieces = attributes.split('\'');
    let mut names = Vec::new();
    while let (Some(name), Some(value)) = (pieces.next(), pieces.next()) {
        let name = name.trim_start().strip_suffix('=').expect(attributes);
        assert!(!name.is_empty() && !name.contains(' '), "{attributes}");
        assert!(!value.contains('&'), "{attributes}");
        assert!(!names.contains(&name), "{attributes}");
        names.push(name);
    }
    let quotes = attributes.matches('\'').count();
    assert_eq!(quotes, 2 * names.len(), "{attributes}");
    let ended = names.is_empty() || attributes.ends_with('\'');
    assert!(ended, "{attributes}");
}

/// The elements of one name inside a group, each with its attributes and its text.
fn parts_in<'a>(svg: &'a str, class: &str, name: &str) -> Vec<(&'a str, &'a str)> {
    let (_, group) = svg.split_once(&format!("<g class='{class}'")).unwrap();
    let (group, _) = group.split_once("</g>").unwrap();
    let opened = format!("<{name}");
    let part = |piece: &'a str| {
        let (attributes, text) = piece.split_once('>').unwrap();
        (attributes, text.split('<').next().unwrap())
    };
    group.split(opened.as_str()).skip(1).map(part).collect()
}

fn texts_in<'a>(svg: &'a str, class: &str, name: &str) -> Vec<&'a str> {
    let parts = parts_in(svg, class, name).into_iter();
    parts.map(|(_, text)| text).collect()
}

/// The number that stands behind these words.
fn number_after(text: &str, words: &str) -> f64 {
    let (_, text) = text.split_once(words).unwrap();
    let end = text.find(|next: char| !next.is_ascii_digit() && next != '.');
    text[..end.unwrap()].parse().unwrap()
}

/// Sees the bars stand on the line of 0, as high as the ticks say.
fn see_bars(svg: &str, counts: &[usize]) {
    let ticks = texts_in(svg, "ticks", "text");
    let lines = parts_in(svg, "grid", "path").into_iter();
    let lines: Vec<f64> = lines.map(|(line, _)| number_after(line, "M80 ")).collect();
    assert_eq!((ticks[0], ticks.len()), ("0", lines.len()));
    let top: f64 = ticks.last().unwrap().parse().unwrap();
    let (zero, highest) = (lines[0], lines.last().unwrap());
    let bars = parts_in(svg, "bars", "rect");
    assert_eq!(bars.len(), BINS);
    for ((bar, _), &count) in bars.iter().zip(counts) {
        let (y, height) = (number_after(bar, " y='"), number_after(bar, " height='"));
        let expected = (zero - highest) * count as f64 / top;
        assert!(count as f64 <= top);
        assert!((height - expected).abs() < 0.1, "{bar}: {expected}");
        assert!((y + height - zero).abs() < 0.2, "{bar}");
    }
}

/// Sees a picture name its set and its step, and print and draw the counts of these rests.
fn see_picture(set: Set, svg: &str, rests: &[i64]) {
    let (edges, counts) = bins_of(set, rests);
    let elements = elements_of(svg);
    let root = "svg xmlns='http://www.w3.org/2000/svg' ";
    assert!(elements[0].0.starts_with(root), "{elements:?}");
    let title = format!("Rests after rounding, BLISS-B set {set:?}");
    assert_eq!(elements[1], ("title", title.as_str()));
    assert_eq!(texts_in(svg, "title", "text"), [title]);
    let (d, step, width) = (set.d(), set.step(), edges[1] - edges[0]);
    let about =
        format!("512 sums, d = {d}, 16 bins of width {width}; 32 sums a bin if spread evenly");
    assert_eq!(texts_in(svg, "about", "text"), [about]);

    let printed: Vec<String> = counts.iter().map(usize::to_string).collect();
    assert_eq!(texts_in(svg, "counts", "text"), printed);
    assert_eq!(counts.iter().sum::<usize>(), 512);
    let bars = edges.windows(2).zip(&counts).map(|(bin, count)| {
        let ending = if *count == 1 { "" } else { "s" };
        format!("{} .. {}: {count} sum{ending}", bin[0], bin[1] - 1)
    });
    assert_eq!(texts_in(svg, "bars", "title"), bars.collect::<Vec<_>>());
    let mut below: Vec<String> = edges.iter().step_by(2).map(i64::to_string).collect();
    below.push(format!("rest: sum minus {step} times its rounded quotient"));
    assert_eq!(texts_in(svg, "edges", "text"), below);
    see_bars(svg, &counts);
}

#[test]
fn rests_and_digits_give_the_sums_back() {
    for set in Set::ALL {
        let folder = Folder::new(&format!("rests-{}", set.number()));
        let files = files_of(set, &folder);
        let (path, number) = (folder.path(""), set.number().to_string());
        let (out, rests) = (folder.path("commitment.txt"), folder.path("rests.txt"));
        let said = format!(
            "The commitment is in {out}. Hash it with the sheet to make the list. The rests are \
             in {rests}.\n"
        );
        let words = commit(&number, &path, &["--out", &out, "--rests", &rests]);
        assert_eq!(run(&words), (0, said, String::new()));
        let text = std::fs::read_to_string(&rests).unwrap();
        assert!(text.starts_with("# rests\n"), "{text}");
        let (digits, rests) = (numbers(&out), numbers(&rests));
        assert_eq!(digits, whole(&files.committed));
        assert_eq!(rests.len(), 512);
        let half = set.step() / 2;
        assert!(rests.iter().all(|rest| (-half..half).contains(rest)));
        let sums = sums(&files.key.a, &files.last_try.y1, &files.last_try.y2);
        for ((sum, digits), rest) in sums.into_iter().zip(digits).zip(&rests) {
            let stepped = sum - rest;
            assert_eq!(stepped % set.step(), 0);
            assert_eq!(stepped / set.step() % set.p(), digits);
        }
        // The rests are no copy of one number.
        let (_, counts) = bins_of(set, &rests);
        assert!(counts.iter().all(|&count| count > 0), "{counts:?}");
    }
}

#[test]
fn the_plot_counts_the_rests_of_its_set() {
    for number in 0..Set::ABOVE {
        let (set, asked) = (Set::asked(number).unwrap(), number.to_string());
        let folder = Folder::new(&format!("plot-{asked}"));
        files_of(set, &folder);
        let path = folder.path("");
        let [out, rests, plot] = outputs_in(&folder);
        let files = ["--out", &out, "--rests", &rests, "--plot", &plot];
        let said = format!(
            "The commitment is in {out}. Hash it with the sheet to make the list. The rests are \
             in {rests}. The histogram of the rests is in {plot}.\n"
        );
        assert_eq!(
            run(&commit(&asked, &path, &files)),
            (0, said, String::new())
        );
        let svg = std::fs::read_to_string(&plot).unwrap();
        see_picture(set, &svg, &numbers(&rests));

        // The same picture without a file of rests, and nothing else beside the commitment.
        std::fs::remove_file(&rests).unwrap();
        let digits = std::fs::read(&out).unwrap();
        let words = commit(&asked, &path, &["--out", &out, "--plot", &plot]);
        expect(&words, 0, "The histogram of the rests is in ");
        assert_eq!(std::fs::read_to_string(&plot).unwrap(), svg);
        assert_eq!(std::fs::read(&out).unwrap(), digits);
        assert!(!Path::new(&rests).exists());
        let words = commit(&asked, &path, &["--out", &out]);
        expect(&words, 0, "to make the list.\n");
        assert_eq!(std::fs::read(&out).unwrap(), digits);
    }
}

#[test]
fn sums_at_the_edges_of_bins_are_counted_above_them() {
    let folder = Folder::new("edges");
    files_of(Set::I, &folder);
    let path = folder.path("");
    let [out, rests, plot] = outputs_in(&folder);
    let files = ["--out", &out, "--rests", &rests, "--plot", &plot];
    let picture_of = |y2: &[i16]| {
        folder.put("y1", &[0; 512]);
        folder.put("y2", y2);
        expect(&commit("1", &path, &files), 0, "");
        let svg = std::fs::read_to_string(&plot).unwrap();
        see_picture(Set::I, &svg, &numbers(&rests));
        svg
    };
    // With y1 = 0 the sums are y2, modulo 24578.
    let mut y2 = [0; 512];
    y2[..7].copy_from_slice(&[512, 575, 576, 511, 1024, -1, -2]);
    let svg = picture_of(&y2);
    assert_eq!(numbers(&rests)[..8], [-512, -449, -448, 511, 0, 1, 0, 0]);
    let bars = texts_in(&svg, "bars", "title");
    assert_eq!(bars[..2], ["-512 .. -449: 2 sums", "-448 .. -385: 1 sum"]);
    assert_eq!(bars[7..9], ["-64 .. -1: 0 sums", "0 .. 63: 508 sums"]);
    assert_eq!(bars[15], "448 .. 511: 1 sum");

    // All rests equal: one bar as high as the plot allows, and 15 of nothing.
    let svg = picture_of(&[0; 512]);
    assert_eq!(texts_in(&svg, "counts", "text")[8], "512");
    let ticks = ["0", "100", "200", "300", "400", "500", "600"];
    assert_eq!(texts_in(&svg, "ticks", "text"), ticks);
    assert_eq!(svg.matches("height='0.0'").count(), 15);
}

#[test]
fn no_two_outputs_are_one_file() {
    let folder = Folder::new("one-file");
    files_of(Set::I, &folder);
    let (path, out) = (folder.path(""), folder.path("out"));
    let before = contents(&folder);
    let fault = |outputs: &[&str], said: &str| {
        expect(&commit("1", &path, outputs), 2, said);
        assert_eq!(contents(&folder), before, "{outputs:?}");
    };
    // The same file under another name, which is not there yet.
    let name = folder.0.file_name().unwrap().to_str().unwrap();
    let again = folder.path(&format!("../{name}/out"));
    let other = folder.path("other");
    for same in [&out, &again] {
        let said = format!("commit: --rests names the file of --out, {same}\n");
        fault(&["--out", &out, "--rests", same], &said);
        let said = format!("commit: --plot names the file of --out, {same}\n");
        fault(&["--plot", same, "--out", &out], &said);
        let said = format!("commit: --plot names the file of --rests, {same}\n");
        fault(&["--out", &other, "--rests", &out, "--plot", same], &said);
    }
    let y1 = folder.path("y1.txt");
    let said = format!("commit: --rests names the file of y1, {y1}\n");
    fault(&["--out", &out, "--rests", &y1], &said);
    let a = folder.path("a.txt");
    let said = format!("commit: --plot names the file of a, {a}\n");
    fault(&["--out", &out, "--plot", &a], &said);
    let two = "commit: '-' is given for two files, standard output is only one; try --help";
    fault(&["--out", "-", "--rests", "-"], two);
    fault(&["--out", &out, "--rests", "-", "--plot", "-"], two);
    fault(&["--rests", &out], "commit: --out is missing");
    fault(&["--out", &out, "--plot"], "commit: --plot wants a value");
    // A file of rests is no input, so that one in the folder can be written again.
    let rests = folder.path("rests.txt");
    for outputs in [
        ["--out", &out, "--rests", &rests],
        ["--out", &out, "--plot", &rests],
    ] {
        expect(&commit("1", &path, &outputs), 0, "rests.txt.\n");
    }
}

#[test]
fn one_output_can_be_standard_output() {
    let folder = Folder::new("stream");
    files_of(Set::II, &folder);
    let path = folder.path("");
    let [out, rests, plot] = outputs_in(&folder);
    let files = ["--out", &out, "--rests", &rests, "--plot", &plot];
    expect(&commit("2", &path, &files), 0, "");
    for (place, file) in [(1, &out), (3, &rests), (5, &plot)] {
        let written = std::fs::read_to_string(file).unwrap();
        std::fs::remove_file(file).unwrap();
        let mut streamed = files;
        streamed[place] = "-";
        let (code, streamed, told) = run(&commit("2", &path, &streamed));
        assert_eq!((code, streamed), (0, written));
        assert!(told.contains(" in -."), "{told}");
        assert!(!Path::new(file).exists());
        expect(&commit("2", &path, &files), 0, "");
    }
    let json = ["--out", &out, "--plot", "-", "--json"];
    let (code, told, _) = run(&commit("2", &path, &json));
    assert_eq!(code, 2);
    assert!(told.contains("do not go together"), "{told}");
}

#[test]
fn what_cannot_be_written_whole_is_not_written() {
    let folder = Folder::new("together");
    files_of(Set::I, &folder);
    let path = folder.path("");
    let [out, rests, plot] = outputs_in(&folder);
    std::fs::write(&out, "old").unwrap();
    std::fs::create_dir(&plot).unwrap();
    let before = contents(&folder);
    let files = ["--out", &out, "--rests", &rests, "--plot", &plot];
    expect(&commit("1", &path, &files), 2, "plot: ");
    assert_eq!(contents(&folder), before);
    // Standard output stays empty too.
    let words = commit("1", &path, &["--out", "-", "--plot", &plot]);
    let (code, streamed, _) = run(&words);
    assert_eq!((code, streamed.as_str()), (2, ""));
}

#[test]
fn a_refusal_writes_no_rests() {
    let folder = Folder::new("refused");
    let files = files_of(Set::IV, &folder);
    let path = folder.path("");
    let [out, rests, plot] = outputs_in(&folder);
    let refused = |set: &str, said: &str| {
        let before = contents(&folder);
        for outputs in [
            &["--out", &out, "--rests", &rests][..],
            &["--out", &out, "--plot", &plot],
            &["--out", &out, "--rests", &rests, "--plot", &plot],
        ] {
            let words = commit(set, &path, outputs);
            expect(
                &words,
                1,
                &format!("commitment with rests refused with {said}"),
            );
        }
        expect(
            &commit(set, &path, &["--out", &out]),
            1,
            &format!("commitment refused with {said}"),
        );
        assert_eq!(contents(&folder), before);
    };
    refused("9", "number 1, place 0: set above 8");
    let mut y2 = files.last_try.y2.clone();
    y2[3] = 4097;
    folder.put("y2", &y2);
    refused("4", "number 4, place 0");
    let cause = "y2.txt: place 3 is 4097, -4096 to 4096 expected";
    expect(
        &commit("4", &path, &["--out", &out, "--plot", &plot]),
        1,
        cause,
    );
    let mut a = files.key.a.clone();
    a[511] = 12289;
    folder.put("a", &a);
    refused("4", "number 3, place 0");
    folder.put("y1", &[0; 511]);
    refused("4", "number 2, place 0");
}

#[test]
fn json_names_the_call_that_was_made() {
    let folder = Folder::new("json-rests");
    files_of(Set::III, &folder);
    let path = folder.path("");
    let [out, rests, plot] = outputs_in(&folder);
    for (outputs, call) in [
        (&["--out", &out][..], "commitment"),
        (&["--out", &out, "--rests", &rests], "commitment with rests"),
        (&["--out", &out, "--plot", &plot], "commitment with rests"),
    ] {
        let line = format!(
            "{{\"status\":0,\"call\":\"{call}\",\"number\":0,\"place\":0,\"meaning\":\"done\",\
             \"words\":null,\"set\":3,\"key\":null,\"form\":null,\"cause\":\"\"}}\n"
        );
        let words = [&commit("3", &path, outputs)[..], &["--json"]].concat();
        assert_eq!(run(&words), (0, line, String::new()));
    }
    folder.put("y1", &[-4097; 512]);
    let words = commit("3", &path, &["--out", &out, "--plot", &plot, "--json"]);
    let (code, line, _) = run(&words);
    assert_eq!(code, 1);
    let told = "{\"status\":1,\"call\":\"commitment with rests\",\"number\":4,\"place\":0,";
    assert!(line.starts_with(told), "{line}");
}

#[test]
fn help_completion_and_manual_have_the_options() {
    let help = run(&["help", "commit"]).1;
    let completion = run(&["completion", "bash"]).1;
    let line = completion
        .lines()
        .find(|line| line.contains(" commit) options="));
    let page = include_str!("../../../docs/bursztok.1");
    let (_, about) = page.split_once("\n.B commit ").unwrap();
    let (about, _) = about.split_once("\n.B sign ").unwrap();
    for option in ["rests", "plot"] {
        assert!(help.contains(&format!("[--{option} FILE]")));
        assert!(help.contains(&format!("\n  --{option} FILE ")));
        assert!(line.unwrap().contains(&format!(" --{option} ")));
        assert!(about.contains(&format!("[\\fB\\-\\-{option}\\fR FILE]")));
    }
}
