//! How the time of reading JSON grows with the text: nanoseconds a byte, on texts of which one part is long.

use std::time::Duration;

use crate::corpus::texts::Kind;
use crate::python;
use crate::reading;
use crate::settings::Settings;
use crate::table;

const SIZES: [(usize, &str); 4] =
    [(10_000, "10 KB"), (100_000, "100 KB"), (1_000_000, "1 MB"), (10_000_000, "10 MB")];
/// Texts of a quick run.
const QUICK: usize = 3;

/// Nanoseconds a byte for each size; None where there is no such text, or it would take too long.
pub struct Curve {
    pub name: &'static str,
    pub nanoseconds: Vec<Option<f64>>,
}

pub struct Lengths {
    pub of: &'static str,
    /// Ours first.
    pub curves: Vec<Curve>,
    /// A text was left out, since ours would have taken too long.
    pub is_late: bool,
    pub differences: Vec<String>,
}

pub fn run(kind: &Kind, settings: &Settings) -> Lengths {
    let sizes = if settings.quick { &SIZES[..QUICK] } else { &SIZES };
    let texts: Vec<Option<Vec<u8>>> = sizes.iter().map(|(size, _)| (kind.text)(*size)).collect();
    let ours = each(&texts, settings.limit, reading::ours);
    // Where ours would take too long, answers are not compared, and python3 is not asked.
    let is_late = texts.iter().zip(&ours).any(|(text, time)| text.is_some() && time.is_none());
    let there: Vec<&[u8]> =
        texts.iter().zip(&ours).filter_map(|(text, time)| time.and(text.as_deref())).collect();
    let differences = there.iter().filter_map(|text| reading::difference(text)).collect();
    let mut curves = vec![
        Curve { name: "ours", nanoseconds: a_byte(&texts, ours) },
        Curve { name: "oracle", nanoseconds: a_byte(&texts, each(&texts, settings.limit, reading::oracle)) },
    ];
    if let Some(times) = python::times(&there) {
        let mut times = times.into_iter();
        let python = texts.iter().map(|text| text.as_ref().and_then(|_| times.next())).collect();
        curves.push(Curve { name: "python3", nanoseconds: a_byte(&texts, python) });
    }
    Lengths { of: kind.name, curves, is_late, differences }
}

/// The time of each text, as long as the next one, ten times as long, can be expected to end within the limit.
fn each(texts: &[Option<Vec<u8>>], limit: Duration, time: fn(&[u8]) -> Duration) -> Vec<Option<Duration>> {
    let mut times = Vec::new();
    let mut is_late = false;
    for text in texts {
        let taken = text.as_ref().filter(|_| !is_late).map(|text| time(text));
        is_late |= taken.is_some_and(|taken| taken * 10 > limit);
        times.push(taken);
    }
    times
}

fn a_byte(texts: &[Option<Vec<u8>>], times: Vec<Option<Duration>>) -> Vec<Option<f64>> {
    let one = |(text, time): (&Option<Vec<u8>>, Option<Duration>)| {
        Some(time?.as_nanos() as f64 / text.as_ref()?.len() as f64)
    };
    texts.iter().zip(times).map(one).collect()
}

pub fn text(lengths: &Lengths) -> String {
    let mut header = vec![lengths.of.to_string()];
    let sizes = lengths.curves[0].nanoseconds.len();
    header.extend(SIZES[..sizes].iter().map(|(_, name)| name.to_string()));
    let mut rows = vec![header];
    for curve in &lengths.curves {
        let mut row = vec![curve.name.to_string()];
        row.extend(curve.nanoseconds.iter().map(|number| number.map_or("-".to_string(), table::digits)));
        rows.push(row);
    }
    table::aligned(&rows)
}
