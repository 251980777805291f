//! What the library may cost beside the rival, and how figures stand to that.

use crate::rows::{COLLIDING, FIELDS, LONG_VERSION, NAMES, SIZES};

/// The most that the geometric mean of all ratios of library to rival may be.
const MEAN_BAR: f64 = 1.25;

/// The most that the ratio of one row may be.
const ROW_BAR: f64 = 1.6;

/// The most that the ratio of what a further record costs may be.
const SLOPE_BAR: f64 = 1.15;

/// The most instructions of a call on one record.
const CALL_BARS: [(&str, f64); 3] =
    [("EXGET hit", 600.0), ("EXSET live", 750.0), ("EXCAS OK", 950.0)];

/// The most that a BITFIELD of one field may cost, as a multiple of what the
/// library's EXINCRBY costs in the same table.
const FIELD_BAR: f64 = 1.5;

/// The most nanoseconds of a call on colliding keys.
const COLLIDING_BAR: f64 = 1_000_000.0;

/// The figures of one row, per call.
pub struct Line {
    pub name: String,
    pub records: usize,
    pub library: f64,
    pub rival: f64,
    pub ratio: f64,
}

impl Line {
    pub const HEAD: &str = "row             records   library     rival  ratio";

    /// The line under the head; a ratio above its bar is marked.
    pub fn text(&self, digits: usize) -> String {
        let Line { name, records, library, rival, ratio } = self;
        let mark = if self.counts() && *ratio > ROW_BAR { " *" } else { "" };
        format!("{name:15} {records:7} {library:9.digits$} {rival:9.digits$} {ratio:6.2}{mark}")
    }

    /// Whether the ratio counts for the mean and the worst. The others stand
    /// apart, with a bar of their own or none.
    fn counts(&self) -> bool {
        let name = self.name.as_str();
        ![COLLIDING, LONG_VERSION].contains(&name) && !FIELDS.contains(&name)
    }
}

/// What a further record costs in one row.
pub struct Slope {
    pub name: &'static str,
    pub library: f64,
    pub rival: f64,
}

impl Slope {
    pub const HEAD: &str = "row            library     rival  ratio";

    pub fn text(&self) -> String {
        let Slope { name, library, rival } = self;
        format!("{name:12} {library:9.1} {rival:9.1} {:6.2}", library / rival)
    }
}

/// The slope of each row that counts, from 16 records to 256.
pub fn slopes(lines: &[Line]) -> Vec<Slope> {
    let slope = |name| {
        let (few, many) = (at(lines, name, 16), at(lines, name, 256));
        let library = (many.library - few.library) / 240.0;
        Slope { name, library, rival: (many.rival - few.rival) / 240.0 }
    };
    NAMES.into_iter().map(slope).collect()
}

/// Prints the mean of the ratios and the worst of them beside their bars;
/// whether both are met.
pub fn judge_ratios(lines: &[Line]) -> bool {
    let rows: Vec<&Line> = lines.iter().filter(|line| line.counts()).collect();
    let mean = (rows.iter().map(|line| line.ratio.ln()).sum::<f64>() / rows.len() as f64).exp();
    let worst = rows.iter().max_by(|a, b| a.ratio.total_cmp(&b.ratio)).unwrap();
    let mean_met = judge("geometric mean of ratios", mean, 3, MEAN_BAR);
    let worst_row = format!("worst ratio, {} at {}", worst.name, worst.records);
    judge(&worst_row, worst.ratio, 3, ROW_BAR) && mean_met
}

/// Likewise the slopes, all rows together.
pub fn judge_slopes(slopes: &[Slope]) -> bool {
    let library: f64 = slopes.iter().map(|slope| slope.library).sum();
    let rival: f64 = slopes.iter().map(|slope| slope.rival).sum();
    judge("ratio of mean slopes", library / rival, 3, SLOPE_BAR)
}

/// Likewise the instructions of calls on one record.
pub fn judge_calls(lines: &[Line]) -> bool {
    let mut met = true;
    for (name, bar) in CALL_BARS {
        met &= judge(&format!("{name} at 1"), at(lines, name, 1).library, 0, bar);
    }
    met
}

/// Likewise BITFIELD of one field beside EXINCRBY, at the number of records
/// where it compares worst.
pub fn judge_fields(lines: &[Line]) -> bool {
    let mut met = true;
    for name in FIELDS {
        let cost = |name: &str, records| at(lines, name, records).library;
        let multiple = |records| cost(name, records) / cost("EXINCRBY", records);
        let worst = SIZES.into_iter().max_by(|a, b| multiple(*a).total_cmp(&multiple(*b))).unwrap();
        let what = format!("{name} by EXINCRBY at {worst}");
        met &= judge(&what, multiple(worst), 3, FIELD_BAR);
    }
    met
}

/// Likewise the nanoseconds of a call on colliding keys.
pub fn judge_colliding(lines: &[Line]) -> bool {
    judge("colliding keys", at(lines, COLLIDING, 256).library, 0, COLLIDING_BAR)
}

fn at<'a>(lines: &'a [Line], name: &str, records: usize) -> &'a Line {
    lines.iter().find(|line| line.name == name && line.records == records).unwrap()
}

/// Prints a figure beside its bar; whether it is met.
fn judge(what: &str, figure: f64, digits: usize, bar: f64) -> bool {
    let verdict = if figure <= bar { "met" } else { "missed" };
    println!("{what:34} {figure:8.digits$}, bar {bar:8.digits$}: {verdict}");
    figure <= bar
}
