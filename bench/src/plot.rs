//! A plot: a panel for each kind of input with axes of its own, two bars for each size, and a legend above.

use crate::inputs::Size;
use crate::measure::Row;

/// A panel's own area, between its axes.
const WIDTH: f64 = 256.0;
const HEIGHT: f64 = 170.0;
/// Room left of it for the numbers and the title of its axis, and to the right.
const LEFT: f64 = 58.0;
const RIGHT: f64 = 14.0;
/// Room above it for its kind, and below it for the sizes and the title of that axis.
const ABOVE: f64 = 28.0;
const BELOW: f64 = 52.0;
/// Above all panels: what is shown, and the legend.
const TOP: f64 = 66.0;
const EDGE: f64 = 10.0;

const BAR: f64 = 26.0;
/// Between the two bars of a size.
const BETWEEN: f64 = 2.0;
/// Groups of bars for which a panel has room at least, so that a few are not spread out.
const GROUPS: usize = 3;
/// Panels beside one another.
const ACROSS: usize = 3;

const LOADER: &str = "#1b6ca8";
const PLAIN: &str = "#c9a227";
const LINE: &str = "#dddddd";
const AXIS: &str = "#333333";

/// What the bars show.
pub struct Measure {
    pub title: &'static str,
    /// Of the axis that goes up, with its unit.
    pub axis: &'static str,
    /// Of the axis that goes across.
    pub sizes: &'static str,
    pub better: &'static str,
    /// Of a row and one of its times.
    pub value: fn(&Row, f64) -> f64,
}

const OF_BYTES: Measure = Measure {
    title: "",
    axis: "time for each byte, ns",
    sizes: "",
    better: "lower is better",
    value: Row::for_each,
};

pub const SECTIONS: Measure = Measure {
    title: "Judging a section: nanoseconds for each of its bytes",
    sizes: "size of the section",
    ..OF_BYTES
};

pub const BODIES: Measure = Measure {
    title: "Judging a body: nanoseconds for each of its bytes",
    sizes: "size of the body",
    ..OF_BYTES
};

pub const RUNS: Measure = Measure {
    title: "Trial runs: millions of steps in a second, the whole call counted",
    axis: "speed, million steps a second",
    sizes: "steps of the run",
    better: "higher is better",
    value: Row::speed,
};

pub fn plot(measure: &Measure, kinds: &[&str], rows: &[Row]) -> String {
    let across = LEFT + WIDTH + RIGHT;
    let width = 2.0 * EDGE + across * ACROSS as f64;
    let height = TOP + (ABOVE + HEIGHT + BELOW) * kinds.len().div_ceil(ACROSS) as f64 + EDGE;
    let mut svg = format!(
        "<svg xmlns=\"http://www.w3.org/2000/svg\" viewBox=\"0 0 {width} {height}\" font-family=\"sans-serif\" \
         font-size=\"12\" role=\"img\">\n<title>{}</title>\n\
         <rect width=\"{width}\" height=\"{height}\" fill=\"white\"/>\n",
        measure.title
    );
    svg += &heading(measure);
    for (index, kind) in kinds.iter().enumerate() {
        let left = EDGE + LEFT + across * (index % ACROSS) as f64;
        let below = (ABOVE + HEIGHT + BELOW) * (index / ACROSS) as f64;
        let own: Vec<&Row> = rows.iter().filter(|row| row.kind == *kind).collect();
        svg += &panel(measure, kind, &own, (left, TOP + below + ABOVE + HEIGHT));
    }
    svg + "</svg>\n"
}

/// What is shown, which way is better, and whose bars are whose.
fn heading(measure: &Measure) -> String {
    let first = EDGE + LEFT;
    [
        text((first, 24.0), "start", "font-size=\"15\" font-weight=\"bold\"", measure.title),
        rectangle((first, 38.0), (12.0, 12.0), LOADER),
        text((first + 18.0, 48.0), "start", "", "proved loader"),
        rectangle((first + 126.0, 38.0), (12.0, 12.0), PLAIN),
        text((first + 144.0, 48.0), "start", "", "plain checker, not proved"),
        text((first + 318.0, 48.0), "start", "font-weight=\"bold\"", measure.better),
        text((first + 440.0, 48.0), "start", "fill=\"#555555\"", "each panel has its own scale"),
    ]
    .concat()
}

fn panel(measure: &Measure, kind: &str, rows: &[&Row], (left, bottom): (f64, f64)) -> String {
    let both =
        rows.iter().flat_map(|row| [row.loader, row.plain].map(|time| (measure.value)(row, time)));
    // Above the greatest bar there is room for its number.
    let (step, steps) = scale(both.fold(0.0, f64::max) * 1.08);
    let most = step * steps as f64;
    let middle = left + WIDTH / 2.0;
    let mut svg = text((middle, bottom - HEIGHT - 12.0), "middle", "font-weight=\"bold\"", kind);
    for number in 0..=steps {
        let y = bottom - HEIGHT * number as f64 / steps as f64;
        svg += &rectangle((left, y), (WIDTH, 1.0), if number == 0 { AXIS } else { LINE });
        svg +=
            &text((left - 6.0, y + 4.0), "end", "font-size=\"10\"", &short(step * number as f64));
    }
    svg += &rectangle((left, bottom - HEIGHT), (1.0, HEIGHT), AXIS);
    let turned = format!(
        "font-size=\"11\" transform=\"rotate(-90 {:.1} {:.1})\"",
        left - 42.0,
        bottom - HEIGHT / 2.0
    );
    svg += &text((left - 42.0, bottom - HEIGHT / 2.0), "middle", &turned, measure.axis);
    svg += &text((middle, bottom + 36.0), "middle", "font-size=\"11\"", measure.sizes);
    let group = WIDTH / rows.len().max(GROUPS) as f64;
    for (number, row) in rows.iter().enumerate() {
        let x = left + group * number as f64 + (group - 2.0 * BAR - BETWEEN) / 2.0;
        let value = |time| (measure.value)(row, time);
        svg += &bar((x, bottom), value(row.loader), most, LOADER);
        svg += &bar((x + BAR + BETWEEN, bottom), value(row.plain), most, PLAIN);
        let size = size_label(row.size);
        svg += &text((x + BAR + BETWEEN / 2.0, bottom + 16.0), "middle", "font-size=\"10\"", &size);
    }
    svg
}

/// The axis of the steps has the word already.
fn size_label(size: Size) -> String {
    size.to_string().replace(" steps", "")
}

fn bar((x, bottom): (f64, f64), value: f64, most: f64, colour: &str) -> String {
    let height = HEIGHT * value / most;
    let above = (x + BAR / 2.0, bottom - height - 3.0);
    rectangle((x, bottom - height), (BAR, height), colour)
        + &text(above, "middle", "font-size=\"9\"", &short(value))
}

/// A step of 1, 2 or 5 and a power of ten, and how many of them reach the greatest value: at most five.
fn scale(greatest: f64) -> (f64, usize) {
    let power = 10f64.powf((greatest / 5.0).log10().floor());
    let steps = [1.0, 2.0, 5.0, 10.0].map(|factor| factor * power);
    let step = steps.into_iter().find(|step| step * 5.0 >= greatest).unwrap_or(greatest);
    (step, (greatest / step).ceil().max(1.0) as usize)
}

/// Three digits, so that a bar is as wide as its number.
fn short(value: f64) -> String {
    match value {
        0.0 => "0".to_string(),
        value if value < 10.0 => {
            format!("{value:.2}").trim_end_matches('0').trim_end_matches('.').to_string()
        }
        value if value < 100.0 => format!("{value:.1}").trim_end_matches(".0").to_string(),
        value => format!("{value:.0}"),
    }
}

fn text((x, y): (f64, f64), anchor: &str, style: &str, words: &str) -> String {
    let words = words.replace('&', "&amp;").replace('<', "&lt;");
    format!("<text x=\"{x:.1}\" y=\"{y:.1}\" text-anchor=\"{anchor}\" {style}>{words}</text>\n")
}

fn rectangle((x, y): (f64, f64), (width, height): (f64, f64), colour: &str) -> String {
    format!("<rect x=\"{x:.1}\" y=\"{y:.1}\" width=\"{width:.1}\" height=\"{height:.1}\" fill=\"{colour}\"/>\n")
}
