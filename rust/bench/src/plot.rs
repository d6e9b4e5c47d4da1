//! The curves of growth as a picture: four small plots in one SVG, both axes by powers of ten.

use crate::growth::{Curve, Grown};

const WIDTH: f64 = 420.0;
const HEIGHT: f64 = 300.0;
/// The room around a plot for its numbers.
const LEFT: f64 = 62.0;
const TOP: f64 = 34.0;
const RIGHT: f64 = 18.0;
const BOTTOM: f64 = 40.0;
const COLOURS: [&str; 4] = ["#0b6e4f", "#c8553d", "#2f4b7c", "#8a6d3b"];

/// From numbers to places, by powers of ten.
struct Axis {
    low: i32,
    high: i32,
    from: f64,
    to: f64,
}

impl Axis {
    fn over(numbers: impl Iterator<Item = f64> + Clone, from: f64, to: f64) -> Axis {
        let low = numbers.clone().fold(f64::INFINITY, f64::min).log10().floor() as i32;
        let high = numbers.fold(0.0, f64::max).log10().ceil() as i32;
        Axis { low, high: high.max(low + 1), from, to }
    }

    fn place(&self, number: f64) -> f64 {
        let part = (number.log10() - f64::from(self.low)) / f64::from(self.high - self.low);
        self.from + part * (self.to - self.from)
    }

    fn marks(&self) -> impl Iterator<Item = f64> {
        (self.low..=self.high).map(|power| 10f64.powi(power))
    }
}

pub fn picture(grown: &[Grown]) -> String {
    let rows = grown.len().div_ceil(2);
    let (width, height) = (WIDTH * 2.0, HEIGHT * rows as f64);
    let mut svg = format!(
        "<svg xmlns=\"http://www.w3.org/2000/svg\" width=\"{width}\" height=\"{height}\" viewBox=\"0 0 {width} {height}\" \
         font-family=\"sans-serif\" font-size=\"11\">\n<rect width=\"100%\" height=\"100%\" fill=\"white\"/>\n"
    );
    for (at, one) in grown.iter().enumerate() {
        let (x, y) = ((at % 2) as f64 * WIDTH, (at / 2) as f64 * HEIGHT);
        svg.push_str(&format!("<g transform=\"translate({x},{y})\">\n{}</g>\n", plot(one)));
    }
    svg.push_str("</svg>\n");
    svg
}

/// The points of a curve: sizes and seconds, a nanosecond at least.
fn points<'a>(grown: &'a Grown, curve: &'a Curve) -> impl Iterator<Item = (f64, f64)> + Clone + 'a {
    let timed = grown.sizes.iter().zip(&curve.times);
    timed.filter_map(|(&size, time)| Some((size as f64, (*time)?.as_secs_f64().max(1e-9))))
}

fn plot(grown: &Grown) -> String {
    let all = grown.curves.iter().flat_map(|curve| points(grown, curve));
    let across = Axis::over(grown.sizes.iter().map(|&size| size as f64), LEFT, WIDTH - RIGHT);
    let up = Axis::over(all.map(|(_, seconds)| seconds), HEIGHT - BOTTOM, TOP);
    let mut text =
        format!("<text x=\"{LEFT}\" y=\"16\" font-weight=\"bold\">time against {}</text>\n", grown.quantity);
    text.push_str(&grid(&across, &up));
    for (at, curve) in grown.curves.iter().enumerate() {
        let colour = COLOURS[at % COLOURS.len()];
        let places = points(grown, curve).map(|(size, seconds)| (across.place(size), up.place(seconds)));
        let line: Vec<String> = places.clone().map(|(x, y)| format!("{x:.1},{y:.1}")).collect();
        text.push_str(&format!(
            "<polyline fill=\"none\" stroke=\"{colour}\" stroke-width=\"1.6\" points=\"{}\"/>\n",
            line.join(" ")
        ));
        for (x, y) in places {
            text.push_str(&format!("<circle cx=\"{x:.1}\" cy=\"{y:.1}\" r=\"2.4\" fill=\"{colour}\"/>\n"));
        }
        let x = LEFT + 70.0 * at as f64;
        text.push_str(&format!("<text x=\"{x}\" y=\"30\" fill=\"{colour}\">{}</text>\n", curve.name));
    }
    text
}

fn grid(across: &Axis, up: &Axis) -> String {
    let mut text = String::new();
    let (left, right, bottom, top) = (across.from, across.to, up.from, up.to);
    for mark in across.marks() {
        let x = across.place(mark);
        text.push_str(&format!("<path d=\"M{x:.1} {bottom}V{top}\" stroke=\"#ddd\"/>\n"));
        let y = bottom + 14.0;
        text.push_str(&format!(
            "<text x=\"{x:.1}\" y=\"{y}\" text-anchor=\"middle\">{}</text>\n",
            size(mark)
        ));
    }
    for mark in up.marks() {
        let y = up.place(mark);
        text.push_str(&format!("<path d=\"M{left} {y:.1}H{right}\" stroke=\"#ddd\"/>\n"));
        let x = left - 6.0;
        text.push_str(&format!(
            "<text x=\"{x}\" y=\"{:.1}\" text-anchor=\"end\">{}</text>\n",
            y + 4.0,
            seconds(mark)
        ));
    }
    text
}

/// A power of ten, with its exponent where it is long.
fn size(mark: f64) -> String {
    const RAISED: [char; 10] = ['⁰', '¹', '²', '³', '⁴', '⁵', '⁶', '⁷', '⁸', '⁹'];
    if mark <= 1_000.0 {
        return format!("{mark}");
    }
    format!("10{}", RAISED[mark.log10().round() as usize % RAISED.len()])
}

/// A power of ten of seconds.
fn seconds(mark: f64) -> String {
    let nanoseconds = (mark * 1e9).round() as u64;
    match nanoseconds {
        0..=999 => format!("{nanoseconds} ns"),
        1_000..=999_999 => format!("{} µs", nanoseconds / 1_000),
        1_000_000..=999_999_999 => format!("{} ms", nanoseconds / 1_000_000),
        _ => format!("{} s", nanoseconds / 1_000_000_000),
    }
}

#[cfg(test)]
mod tests {
    use super::*;
    use std::time::Duration;

    #[test]
    fn a_point_stands_where_its_numbers_say() {
        let axis = Axis::over([10.0, 1_000.0].into_iter(), 100.0, 0.0);
        assert_eq!((axis.place(10.0), axis.place(100.0), axis.place(1_000.0)), (100.0, 50.0, 0.0));
        let times = vec![Some(Duration::from_micros(10)), None];
        let curve = Curve { name: "ours".to_string(), times };
        let svg = picture(&[Grown { quantity: "states", sizes: vec![2, 512], curves: vec![curve] }]);
        assert!(svg.starts_with("<svg") && svg.ends_with("</svg>\n") && svg.contains("time against states"));
        assert_eq!(svg.matches("<circle").count(), 1);
    }
}
