//! The chart of a sweep, as an SVG that needs nothing else.

use super::axis::Axis;
use super::counts::Counts;
use super::figure::share;
use super::interval::Interval;
use super::sweep::{Curve, Point};
use std::fmt::Write;

const WIDTH: f64 = 720.0;
const HEIGHT: f64 = 480.0;

/// The edges of the field in which the curves are.
const LEFT: f64 = 96.0;
const RIGHT: f64 = 696.0;
const TOP: f64 = 92.0;
const BOTTOM: f64 = 418.0;

/// The axis of shares ends so far inside, so that no curve lies on an edge.
const INSET: f64 = 8.0;

/// The most characters in a line of the title. Of a title that is longer than two lines the rest is
/// left out of the drawing.
const TITLE_WIDTH: usize = 58;

/// How the curve of one share is drawn. Two colours that the colour-blind can tell apart, and two
/// kinds of lines and marks.
struct Style {
    name: &'static str,
    colour: &'static str,
    dashes: &'static str,
    count: fn(Counts) -> u64,
    mark: fn(f64, f64) -> String,
    /// How far it is drawn to the right, so that intervals of the same rate lie beside each other.
    aside: f64,
}

const STATE: Style = Style {
    name: "unharmed",
    colour: "#0072b2",
    dashes: "none",
    count: |counts| counts.unharmed,
    mark: |x, y| {
        format!(r##"<circle cx="{x:.1}" cy="{y:.1}" r="3.5" fill="#0072b2" stroke="none"/>"##)
    },
    aside: -2.5,
};

const RESULTS: Style = Style {
    name: "every result unharmed",
    colour: "#d55e00",
    dashes: "7 4",
    count: |counts| counts.results_unharmed,
    mark: |x, y| {
        let (x, y) = (x - 4.5, y - 4.5);
        format!(r#"<rect x="{x:.1}" y="{y:.1}" width="9" height="9" fill="none"/>"#)
    },
    aside: 2.5,
};

/// Draws the shares of a sweep over its rates, with their 95 % intervals: 720 by 480 pixels.
///
/// The axis of rates, which `rate` names, is logarithmic where all rates are above 0 and differ by a
/// factor of 10 or more. The axis of shares goes from 0 to 1, unless all shares are close together.
///
/// ```
/// use cagvost::share::{Counts, Curve, Point, svg};
///
/// let point = |rate, unharmed| {
///     Point { rate, counts: Counts { shots: 1000, unharmed, results_unharmed: 1000 } }
/// };
/// let curve = Curve { seed: 1, measurements: 0, points: vec![point(0.01, 950), point(0.02, 907)] };
/// let drawing = svg(&curve, "Grid of 3 & 5", "error rate");
/// assert!(drawing.starts_with("<svg ") && drawing.ends_with("</svg>\n"));
/// assert!(drawing.contains("Grid of 3 &amp; 5"));
/// ```
pub fn svg(curve: &Curve, title: &str, rate: &str) -> String {
    let mut points: Vec<Point> = curve.points.clone();
    points.retain(|point| point.counts.shots > 0);
    points.sort_by(|one, other| one.rate.total_cmp(&other.rate));
    let styles: &[Style] = match curve.measurements {
        0 => &[STATE],
        _ => &[STATE, RESULTS],
    };
    let rates: Vec<f64> = points.iter().map(|point| point.rate).collect();
    let x = Axis::of_rates(&rates, [LEFT, RIGHT]);
    let y = shares_axis(&points, styles);
    let mut drawing = head(title);
    drawing += &grid(&x, &y);
    drawing += &labels(&y, rate);
    for (style, place) in styles.iter().zip([LEFT, LEFT + 130.0]) {
        drawing += &curve_of(style, &points, &x, &y);
        drawing += &legend(style, place);
    }
    drawing + "</svg>\n"
}

/// The axis for the intervals of all points.
fn shares_axis(points: &[Point], styles: &[Style]) -> Axis {
    let all = points.iter().flat_map(|point| {
        let interval = |style: &Style| interval(style, point);
        styles.iter().map(interval)
    });
    let ends = all.fold((1.0, 0.0), |(low, high): (f64, f64), interval| {
        (low.min(interval.low), high.max(interval.high))
    });
    let (low, high) = if points.is_empty() { (0.0, 1.0) } else { ends };
    Axis::of_shares(low, high, [BOTTOM - INSET, TOP + INSET])
}

/// The interval of a point, which has shots.
fn interval(style: &Style, point: &Point) -> Interval {
    let count = (style.count)(point.counts);
    Interval::wilson(count, point.counts.shots).unwrap_or(Interval {
        low: 0.0,
        high: 1.0,
    })
}

/// The begin of the drawing, with its title.
fn head(title: &str) -> String {
    let mut text = format!(
        r##"<svg xmlns="http://www.w3.org/2000/svg" width="{WIDTH}" height="{HEIGHT}"
viewBox="0 0 {WIDTH} {HEIGHT}" font-family="Helvetica, Arial, sans-serif" font-size="13"
fill="#222222" role="img">
<title>{}</title>
<rect width="{WIDTH}" height="{HEIGHT}" fill="#ffffff"/>
"##,
        escaped(title)
    );
    let lines = title_lines(title);
    let first = if lines.len() > 1 { 22 } else { 32 };
    for (line, y) in lines.iter().zip((first..).step_by(20)) {
        let line = escaped(line);
        _ = writeln!(
            text,
            r#"<text x="{LEFT}" y="{y}" font-size="15" font-weight="bold">{line}</text>"#
        );
    }
    text
}

/// The title in at most two lines, cut between words where there are some.
fn title_lines(title: &str) -> Vec<String> {
    let mut lines = vec![String::new()];
    for word in title.split_whitespace() {
        let line = lines.last_mut().expect("a line");
        let length = line.chars().count() + 1 + word.chars().count();
        if line.is_empty() || length <= TITLE_WIDTH {
            *line += if line.is_empty() { "" } else { " " };
            *line += word;
        } else {
            lines.push(word.to_string());
        }
    }
    if lines.len() > 2 {
        lines.truncate(2);
        lines[1] += " …";
    }
    lines.into_iter().map(shortened).collect()
}

/// A line that is too long for the drawing ends with dots.
fn shortened(line: String) -> String {
    match line.chars().count() > TITLE_WIDTH + 2 {
        true => line.chars().take(TITLE_WIDTH).chain(['…']).collect(),
        false => line,
    }
}

/// The field with its grid, and the labels of the ticks.
fn grid(x: &Axis, y: &Axis) -> String {
    let mut text = String::from("<g stroke=\"#dddddd\">\n");
    let mut line = |[x1, y1, x2, y2]: [f64; 4]| {
        _ = writeln!(
            text,
            r#"<line x1="{x1:.1}" y1="{y1:.1}" x2="{x2:.1}" y2="{y2:.1}"/>"#
        );
    };
    let [columns, rows] = [x, y].map(|axis| axis.ticks.iter().map(|(tick, _)| axis.place(*tick)));
    columns.for_each(|x| line([x, TOP, x, BOTTOM + 5.0]));
    rows.for_each(|y| line([LEFT - 5.0, y, RIGHT, y]));
    let (width, height) = (RIGHT - LEFT, BOTTOM - TOP);
    _ = writeln!(
        text,
        r##"<rect x="{LEFT}" y="{TOP}" width="{width}" height="{height}" fill="none" stroke="#555555"/>
</g>"##
    );
    for (tick, label) in &x.ticks {
        let (x, y) = (x.place(*tick), BOTTOM + 21.0);
        _ = writeln!(
            text,
            r#"<text x="{x:.1}" y="{y}" text-anchor="middle">{label}</text>"#
        );
    }
    for (tick, label) in &y.ticks {
        let (x, y) = (LEFT - 9.0, y.place(*tick) + 4.5);
        _ = writeln!(
            text,
            r#"<text x="{x}" y="{y:.1}" text-anchor="end">{label}</text>"#
        );
    }
    text
}

/// What the bars and the axes are. An axis that does not begin at 0 says so.
fn labels(y: &Axis, rate: &str) -> String {
    let (middle, below) = ((LEFT + RIGHT) / 2.0, BOTTOM + 48.0);
    let (beside, half) = (16.0, (TOP + BOTTOM) / 2.0);
    let share = match y.first() {
        0.0 => "share of shots",
        _ => "share of shots (axis not from 0)",
    };
    let rate = escaped(rate);
    format!(
        r#"<text x="{RIGHT}" y="{LEGEND_BASE}" text-anchor="end">bars: 95 % intervals</text>
<text x="{middle}" y="{below}" text-anchor="middle" font-size="14">{rate}</text>
<text x="{beside}" y="{half}" text-anchor="middle" font-size="14"
transform="rotate(-90 {beside} {half})">{share}</text>
"#
    )
}

/// Half of the length of an interval's caps.
const CAP: f64 = 4.0;

/// The line of a share, its marks and its intervals.
fn curve_of(style: &Style, points: &[Point], x: &Axis, y: &Axis) -> String {
    let Style { colour, dashes, .. } = style;
    let mut text = format!(r#"<g stroke="{colour}" stroke-width="1.6" fill="none">"#) + "\n";
    let mut path = String::new();
    for point in points {
        let count = (style.count)(point.counts);
        let x = x.place(point.rate) + style.aside;
        let centre = y.place(share(count, point.counts.shots));
        let Interval { low, high } = interval(style, point);
        let (low, high) = (y.place(low), y.place(high));
        let (left, right) = (x - CAP, x + CAP);
        _ = write!(path, "{x:.1},{centre:.1} ");
        let cap = |y: f64| format!("M{left:.1} {y:.1}H{right:.1}");
        let caps = cap(low) + &cap(high);
        _ = writeln!(text, r#"<path d="M{x:.1} {low:.1}V{high:.1}{caps}"/>"#);
        _ = writeln!(text, "{}", (style.mark)(x, centre));
    }
    let path = path.trim_end();
    _ = writeln!(
        text,
        r#"<polyline points="{path}" stroke-dasharray="{dashes}"/>"#
    );
    text + "</g>\n"
}

/// Where the legend's samples are, and the base of its words.
const LEGEND: f64 = TOP - 18.0;
const LEGEND_BASE: f64 = LEGEND + 4.5;

/// A sample of the line with its name, from this place on.
fn legend(style: &Style, left: f64) -> String {
    let Style {
        name,
        colour,
        dashes,
        ..
    } = style;
    let (middle, right, words) = (left + 17.0, left + 34.0, left + 41.0);
    let mark = (style.mark)(middle, LEGEND);
    format!(
        r#"<g stroke="{colour}" stroke-width="1.6">
<line x1="{left}" y1="{LEGEND}" x2="{right}" y2="{LEGEND}" stroke-dasharray="{dashes}"/>{mark}
</g>
<text x="{words}" y="{LEGEND_BASE}">{name}</text>
"#
    )
}

/// The text with the characters that SVG has for itself written in its way, and without those that
/// it cannot have.
fn escaped(text: &str) -> String {
    let mut escaped = String::new();
    for c in text.chars() {
        match c {
            '&' => escaped += "&amp;",
            '<' => escaped += "&lt;",
            '>' => escaped += "&gt;",
            '"' => escaped += "&quot;",
            c if c.is_control() => escaped.push(' '),
            c => escaped.push(c),
        }
    }
    escaped
}

#[cfg(test)]
mod tests {
    use super::*;

    fn curve(measurements: u64, shares: &[(f64, u64)]) -> Curve {
        let point = |&(rate, unharmed)| Point {
            rate,
            counts: Counts {
                shots: 100,
                unharmed,
                results_unharmed: 100,
            },
        };
        Curve {
            seed: 1,
            measurements,
            points: shares.iter().map(point).collect(),
        }
    }

    /// How often the drawing has these words.
    fn has(drawing: &str, words: &str) -> usize {
        drawing.matches(words).count()
    }

    #[test]
    fn each_share_has_its_curve_marks_and_intervals() {
        let shares = [(0.02, 60), (0.01, 90), (0.5, 0)];
        let drawing = svg(&curve(1, &shares), "title", "rate");
        assert_eq!(has(&drawing, "<polyline "), 2);
        assert_eq!(has(&drawing, "<path "), 6);
        assert_eq!(has(&drawing, "<circle "), 3 + 1); // and one in the legend
        assert_eq!(has(&drawing, ">every result unharmed<"), 1);
        let drawing = svg(&curve(0, &shares), "title", "rate");
        assert_eq!(has(&drawing, "<polyline "), 1);
        assert_eq!(has(&drawing, "every result"), 0);
    }

    /// The places of a curve: rates to the right, shares upwards, whatever their order was.
    #[test]
    fn points_lie_where_they_should() {
        let drawing = svg(&curve(0, &[(0.2, 50), (0.1, 100), (0.3, 0)]), "", "");
        let (_, line) = drawing.split_once("<polyline points=\"").expect("a line");
        let (line, _) = line.split_once('"').expect("its end");
        let number = |word: &str| word.parse::<f64>().expect("a number");
        let pairs = line
            .split(' ')
            .map(|pair| pair.split_once(',').expect("two"));
        let places: Vec<(f64, f64)> = pairs.map(|(x, y)| (number(x), number(y))).collect();
        let (middle, half) = ((LEFT + RIGHT) / 2.0, (TOP + BOTTOM) / 2.0);
        let expected =
            [(-1.0, TOP + INSET), (0.0, half), (1.0, BOTTOM - INSET)].map(|(side, y)| {
                let away = (RIGHT - LEFT) / 2.0 / 1.08;
                (middle + side * away + STATE.aside, y)
            });
        for (place, expected) in places.iter().zip(expected) {
            let away = (place.0 - expected.0).abs() + (place.1 - expected.1).abs();
            assert!(away < 0.15, "{place:?} and {expected:?}");
        }
        assert_eq!(places.len(), 3);
    }

    #[test]
    fn an_axis_that_does_not_begin_at_0_says_so() {
        let says = |shares: &[(f64, u64)]| has(&svg(&curve(0, shares), "", ""), "axis not from 0");
        assert_eq!(says(&[(0.1, 99), (0.2, 98)]), 1);
        assert_eq!(says(&[(0.1, 99), (0.2, 8)]), 0);
    }

    /// Nothing of a title or a name of the axis is taken for a mark of SVG.
    #[test]
    fn words_are_escaped() {
        let drawing = svg(&curve(0, &[]), "</title> & \"x\"\u{1}", "<rate>");
        assert_eq!(has(&drawing, "&lt;/title&gt; &amp; &quot;x&quot; "), 2);
        assert_eq!(has(&drawing, "&lt;rate&gt;"), 1);
        assert_eq!(has(&drawing, "<rate>") + has(&drawing, "\u{1}"), 0);
    }

    #[test]
    fn long_titles_take_two_lines_and_end_with_dots() {
        let lines = |title: &str| title_lines(title);
        assert_eq!(lines("short"), ["short"]);
        let words = "word ".repeat(20);
        assert_eq!(lines(&words).len(), 2);
        let many = lines(&"word ".repeat(100));
        assert!(many.len() == 2 && many[1].ends_with("word …"));
        let long = lines(&"x".repeat(500));
        assert_eq!(long, [format!("{}…", "x".repeat(TITLE_WIDTH))]);
        for line in [many, long].concat() {
            assert!(line.chars().count() <= TITLE_WIDTH + 2);
        }
    }

    #[test]
    fn points_without_shots_are_left_out() {
        let mut curve = curve(0, &[(0.1, 50)]);
        curve.points[0].counts = Counts::default();
        let drawing = svg(&curve, "", "");
        assert_eq!(has(&drawing, "<path "), 0);
        assert!(!drawing.contains("NaN") && !drawing.contains("inf"));
    }
}
