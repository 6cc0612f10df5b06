//! The histogram of a commitment's rests: a picture in SVG, which a browser shows.
//!
//! No call tells the d of a set, so the second program's sets are asked for it, as in the demo. A
//! rest that lies outside of their step is a fault.

use crate::failure::Failure;
use bursztok::VECTOR;
use second::Set;
use std::fmt::Display;

/// The bins between the edges of a step, all of one width: 16 divides every step.
const BINS: usize = 16;
/// The sums in a bin where they are spread evenly.
const EVEN: usize = VECTOR / BINS;

/// The size of the picture, and in it the edges of the plot.
const WIDTH: usize = 1020;
const HEIGHT: usize = 550;
const LEFT: usize = 80;
const RIGHT: usize = LEFT + BINS * BIN;
const TOP: f64 = 110.0;
const BOTTOM: f64 = 470.0;
/// The width of a bin in the picture.
const BIN: usize = 50;

/// The picture of the rests that the library gave for a set.
pub fn histogram(set: u32, rests: &[i16; VECTOR]) -> Result<Vec<u8>, Failure> {
    let none = |_| Failure::Fault(format!("it gave rests for set {set}"));
    let set = Set::asked(set).map_err(none)?;
    let counts = counts_of(set, rests)?;
    Ok(picture(set, &counts).into_bytes())
}

fn counts_of(set: Set, rests: &[i16]) -> Result<[usize; BINS], Failure> {
    let mut counts = [0; BINS];
    for &rest in rests {
        let bin = bin_of(set, rest).ok_or_else(|| outside(set, rest))?;
        counts[bin] += 1;
    }
    Ok(counts)
}

fn outside(set: Set, rest: i16) -> Failure {
    let (first, last) = (edge(set, 0), edge(set, BINS) - 1);
    Failure::Fault(format!("a rest is {rest}, {first} to {last} expected"))
}

/// The rests that a bin is wide.
fn width(set: Set) -> i64 {
    set.step() / BINS as i64
}

/// The edge where a bin starts and the one before it ends.
fn edge(set: Set, bin: usize) -> i64 {
    bin as i64 * width(set) - set.step() / 2
}

/// The bin that a rest lies in; an edge belongs to the bin that starts there.
fn bin_of(set: Set, rest: i16) -> Option<usize> {
    let above = i64::from(rest) - edge(set, 0);
    let inside = (0..set.step()).contains(&above);
    inside.then_some((above / width(set)) as usize)
}

/// The y axis, from 0 to the first tick that no bar passes.
struct Scale {
    tick: usize,
    top: usize,
}

impl Scale {
    /// At most six round ticks above 0.
    fn of(counts: &[usize; BINS]) -> Scale {
        let highest = counts.iter().copied().fold(EVEN, usize::max);
        let few = |tick: &usize| highest <= 6 * tick;
        let tick = [10, 20, 50].into_iter().find(few).unwrap_or(100);
        let top = highest.div_ceil(tick) * tick;
        Scale { tick, top }
    }

    fn height(&self, count: usize) -> f64 {
        (BOTTOM - TOP) * count as f64 / self.top as f64
    }

    fn y(&self, count: usize) -> f64 {
        BOTTOM - self.height(count)
    }
}

/// Later parts lie over earlier ones: the counts stay readable where the dashed line meets them.
fn picture(set: Set, counts: &[usize; BINS]) -> String {
    let scale = Scale::of(counts);
    let title = format!("Rests after rounding, BLISS-B set {set:?}");
    let parts = [
        format!("<title>{title}</title>\n<rect width='{WIDTH}' height='{HEIGHT}' fill='#fff'/>\n"),
        heading(set, &title),
        y_axis(&scale),
        bars(set, counts, &scale),
        even_spread(&scale),
        printed_counts(counts, &scale),
        x_axis(set),
    ];
    format!(
        "<svg xmlns='http://www.w3.org/2000/svg' width='{WIDTH}' height='{HEIGHT}' \
         viewBox='0 0 {WIDTH} {HEIGHT}' role='img' font-family='sans-serif' font-size='14' \
         fill='#222'>\n{}</svg>\n",
        parts.concat()
    )
}

fn heading(set: Set, title: &str) -> String {
    let (d, width) = (set.d(), width(set));
    let about = format!(
        "{VECTOR} sums, d = {d}, {BINS} bins of width {width}; {EVEN} sums a bin if spread evenly"
    );
    let large = "font-size='22' font-weight='bold'";
    let title = group("title", large, text(LEFT, 42.0, title));
    title + &group("about", "font-size='15'", text(LEFT, 70.0, about))
}

fn y_axis(scale: &Scale) -> String {
    let (mut lines, mut labels) = (String::new(), String::new());
    for count in (0..=scale.top).step_by(scale.tick) {
        let y = scale.y(count);
        lines += &format!("<path d='M{LEFT} {y:.1}H{RIGHT}'/>\n");
        labels += &text(LEFT - 10, y + 5.0, count);
    }
    let middle = (TOP + BOTTOM) / 2.0;
    let upward = format!("text-anchor='middle' transform='translate(30 {middle}) rotate(-90)'");
    [
        group("grid", "stroke='#ddd'", lines),
        group("ticks", "text-anchor='end'", labels),
        group("label", &upward, text(0, 0.0, "sums in a bin")),
    ]
    .concat()
}

/// A bar tells its edges and its count where the pointer rests on it.
fn bars(set: Set, counts: &[usize; BINS], scale: &Scale) -> String {
    let bar = |(bin, &count): (usize, &usize)| {
        let (x, wide) = (left_of(bin) + 1, BIN - 2);
        let (y, height) = (scale.y(count), scale.height(count));
        let (first, last) = (edge(set, bin), edge(set, bin + 1) - 1);
        let ending = if count == 1 { "" } else { "s" };
        format!(
            "<rect x='{x}' y='{y:.1}' width='{wide}' height='{height:.1}'>\
             <title>{first} .. {last}: {count} sum{ending}</title></rect>\n"
        )
    };
    let bars = counts.iter().enumerate().map(bar).collect();
    group("bars", "fill='#8ab0d6'", bars)
}

fn even_spread(scale: &Scale) -> String {
    let y = scale.y(EVEN);
    let line = format!("<path d='M{LEFT} {y:.1}H{RIGHT}' stroke-dasharray='7 5'/>\n");
    let label = text(RIGHT + 8, y + 5.0, format_args!("even spread: {EVEN}"));
    let line = group("even", "stroke='#a33' pointer-events='none'", line);
    line + &group("label", "font-size='13' fill='#a33'", label)
}

/// The count of each bin above its bar, with a white rim against the lines behind it.
fn printed_counts(counts: &[usize; BINS], scale: &Scale) -> String {
    let printed = |(bin, &count): (usize, &usize)| {
        let (x, y) = (left_of(bin) + BIN / 2, scale.y(count) - 7.0);
        text(x, y, count)
    };
    let printed = counts.iter().enumerate().map(printed).collect();
    let rim = "stroke='#fff' stroke-width='4' stroke-linejoin='round' paint-order='stroke'";
    let attributes = format!("text-anchor='middle' pointer-events='none' {rim}");
    group("counts", &attributes, printed)
}

/// Every edge has a tick, every second one its number: the first, 0 and the last among them.
fn x_axis(set: Set) -> String {
    let mut lines = format!("<path d='M{LEFT} {BOTTOM}H{RIGHT}'/>\n");
    let mut labels = String::new();
    for bin in 0..=BINS {
        let x = left_of(bin);
        let labelled = bin % 2 == 0;
        let long = if labelled { 9 } else { 5 };
        lines += &format!("<path d='M{x} {BOTTOM}v{long}'/>\n");
        if labelled {
            labels += &text(x, BOTTOM + 26.0, edge(set, bin));
        }
    }
    let step = set.step();
    let label = format!("rest: sum minus {step} times its rounded quotient");
    labels += &text((LEFT + RIGHT) / 2, BOTTOM + 56.0, label);
    group("axis", "stroke='#222'", lines) + &group("edges", "text-anchor='middle'", labels)
}

fn left_of(bin: usize) -> usize {
    LEFT + bin * BIN
}

fn text(x: usize, y: f64, content: impl Display) -> String {
    format!("<text x='{x}' y='{y:.1}'>{content}</text>\n")
}

fn group(class: &str, attributes: &str, parts: String) -> String {
    format!("<g class='{class}' {attributes}>\n{parts}</g>\n")
}

#[cfg(test)]
mod tests {
    use super::{bin_of, counts_of, histogram, Scale, BINS, BOTTOM, TOP};
    use crate::failure::Failure;
    use second::Set;

    #[test]
    fn an_edge_belongs_to_the_bin_that_starts_there() {
        for (set, edges) in [
            (Set::I, [-512, -448, 0, 448, 512]),
            (Set::II, [-512, -448, 0, 448, 512]),
            (Set::III, [-256, -224, 0, 224, 256]),
            (Set::IV, [-128, -112, 0, 112, 128]),
        ] {
            let starting = edges.map(|edge| bin_of(set, edge));
            assert_eq!(starting, [Some(0), Some(1), Some(8), Some(15), None]);
            let ending = edges.map(|edge| bin_of(set, edge - 1));
            assert_eq!(ending, [None, Some(0), Some(7), Some(14), Some(15)]);
        }
    }

    #[test]
    fn every_rest_is_counted_once() {
        for set in Set::ALL {
            let half = (set.step() / 2) as i16;
            let rests: Vec<i16> = (-half..half).collect();
            let each = rests.len() / BINS;
            assert_eq!(counts_of(set, &rests), Ok([each; BINS]));
        }
    }

    #[test]
    fn what_the_library_must_not_answer_is_a_fault() {
        let mut rests = [0; 512];
        rests[511] = 128;
        assert!(histogram(3, &rests).is_ok());
        let told = "a rest is 128, -128 to 127 expected".to_string();
        assert_eq!(histogram(4, &rests), Err(Failure::Fault(told)));
        let told = "it gave rests for set 9".to_string();
        assert_eq!(histogram(9, &rests), Err(Failure::Fault(told)));
    }

    #[test]
    fn the_highest_bar_ends_in_the_plot_and_ticks_are_few() {
        for highest in 32..=512 {
            let mut counts = [0; BINS];
            counts[3] = highest;
            let scale = Scale::of(&counts);
            assert_eq!(scale.top % scale.tick, 0);
            assert!((3..=6).contains(&(scale.top / scale.tick)), "{highest}");
            assert!((TOP..BOTTOM).contains(&scale.y(highest)), "{highest}");
            assert!(2.0 * scale.height(highest) > BOTTOM - TOP, "{highest}");
        }
    }
}
