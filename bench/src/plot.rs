//! Plots as SVG text, with logarithmic axes.

use std::path::Path;

const STYLE: &str = "text{font:13px sans-serif;fill:#222}.name{font-weight:bold}polyline{fill:none}.grid{stroke:#ddd}\
.one{stroke:#222;stroke-width:1.5}.a,.b{stroke-width:2}.a{stroke:#1f5fa8}circle{fill:#fff}.b{stroke:#e08214}\
path{fill:#e08214}.dashed{stroke-dasharray:6 4}";

/// A logarithmic axis between two positions on the page.
struct Axis {
    low: f64,
    high: f64,
    from: f64,
    to: f64,
}

impl Axis {
    /// An axis for some values, with a little room at both ends.
    fn new(values: impl Iterator<Item = f64> + Clone, from: f64, to: f64) -> Axis {
        let (low, high) = (values.clone().fold(f64::INFINITY, f64::min), values.fold(0.0, f64::max));
        Axis { low: low / 1.2, high: high * 1.2, from, to }
    }

    /// The position of a value.
    fn at(&self, value: f64) -> f64 {
        self.from + (self.to - self.from) * (value / self.low).ln() / (self.high / self.low).ln()
    }

    /// The values on the axis that are one of the digits times a power of ten.
    fn ticks(&self, digits: &[&str]) -> Vec<f64> {
        let all = (-6..9).flat_map(|power| digits.iter().map(move |digit| format!("{digit}e{power}")));
        let values = all.map(|value| value.parse::<f64>().expect("a digit with a power of ten is a number"));
        values.filter(|value| (self.low..=self.high).contains(value)).collect()
    }
}

/// Writes a plot to a folder, which is made if it is not there.
pub fn write(folder: &Path, name: &str, svg: &str) {
    let path = folder.join(name);
    let written = std::fs::create_dir_all(folder).and_then(|()| std::fs::write(&path, svg));
    written.unwrap_or_else(|error| panic!("{} is not written: {error}", path.display()));
}

/// The plot of two ratios of each family: to mosipp, and to the faster peer.
pub fn ratios(families: &[(String, [f64; 2])]) -> String {
    let bottom = 64.0 + 20.0 * families.len() as f64;
    let axis = Axis::new(families.iter().flat_map(|family| family.1).chain([1.0]), 100.0, 740.0);
    let mut body = text((100.0, 20.0), "start", "name", "Time of planner_front without reading, by family");
    for (kind, x, says) in [(0, 106.0, "÷ mosipp --all --eager"), (1, 306.0, "÷ the faster of mosipp and pull --simd")]
    {
        body += &(mark(kind, (x, 40.0)) + &text((x + 12.0, 44.0), "start", "", says));
    }
    for tick in axis.ticks(&["1", "1.5", "2", "3", "5", "7"]) {
        let (x, class) = (axis.at(tick), if tick == 1.0 { "one" } else { "grid" });
        body += &polyline(&[(x, 54.0), (x, bottom)], class);
        body += &text((x, bottom + 18.0), "middle", "", &tick.to_string());
    }
    for (row, (name, ratios)) in families.iter().enumerate() {
        let y = 68.0 + 20.0 * row as f64;
        body += &polyline(&[(100.0, y), (740.0, y)], "grid");
        body += &text((92.0, y + 4.0), "end", "", name);
        body += &(mark(0, (axis.at(ratios[0]), y)) + &mark(1, (axis.at(ratios[1]), y)));
    }
    body += &text((420.0, bottom + 38.0), "middle", "", "ratio, median over the seeds; below 1 the planner is faster");
    body += &text((420.0, bottom + 56.0), "middle", "", "with a plus: waiting by place, closures, a time to unload");
    document(bottom + 68.0, &body)
}

/// A curve: its name, the planner's (0) or a peer's (1), and its points.
pub struct Curve {
    pub name: String,
    pub kind: usize,
    pub is_dashed: bool,
    pub points: Vec<(f64, f64)>,
}

impl Curve {
    fn class(&self) -> String {
        format!("{}{}", ["a", "b"][self.kind], if self.is_dashed { " dashed" } else { "" })
    }
}

/// The plot of times, in microseconds, by the number of the front's costs.
pub fn times(curves: &[Curve]) -> String {
    let points = || curves.iter().flat_map(|curve| &curve.points);
    let x = Axis::new(points().map(|point| point.0), 80.0, 740.0);
    let y = Axis::new(points().map(|point| point.1), 450.0, 74.0);
    let mut body = text((80.0, 20.0), "start", "name", "Time of a search without reading, by the number of costs");
    for micros in y.ticks(&["1"]) {
        let shown = if micros < 1e3 { format!("{micros} µs") } else { format!("{} ms", micros / 1e3) };
        body += &polyline(&[(80.0, y.at(micros)), (740.0, y.at(micros))], "grid");
        body += &text((72.0, y.at(micros) + 4.0), "end", "", &shown);
    }
    for &(costs, _) in &curves[0].points {
        body += &polyline(&[(x.at(costs), 74.0), (x.at(costs), 450.0)], "grid");
        body += &text((x.at(costs), 468.0), "middle", "", &costs.to_string());
    }
    for (number, curve) in curves.iter().enumerate() {
        let key = (100.0 + 320.0 * (number / 2) as f64, 40.0 + 20.0 * (number % 2) as f64);
        body += &polyline(&[(key.0 - 20.0, key.1), (key.0 + 20.0, key.1)], &curve.class());
        body += &(mark(curve.kind, key) + &text((key.0 + 30.0, key.1 + 4.0), "start", "", &curve.name));
        let at: Vec<(f64, f64)> = curve.points.iter().map(|point| (x.at(point.0), y.at(point.1))).collect();
        body += &polyline(&at, &curve.class());
        at.iter().for_each(|&at| body += &mark(curve.kind, at));
    }
    body += &text((410.0, 490.0), "middle", "", "costs of the front, by diamonds in a row");
    document(502.0, &body)
}

/// A circle, or a square on its corner.
fn mark(kind: usize, (x, y): (f64, f64)) -> String {
    match kind {
        0 => format!("<circle class='a' cx='{x:.1}' cy='{y:.1}' r='5.5'/>\n"),
        _ => format!("<path d='M{:.1} {y:.1}l4 4 4-4-4-4z'/>\n", x - 4.0),
    }
}

fn polyline(at: &[(f64, f64)], class: &str) -> String {
    let points: Vec<String> = at.iter().map(|(x, y)| format!("{x:.1},{y:.1}")).collect();
    format!("<polyline class='{class}' points='{}'/>\n", points.join(" "))
}

fn text((x, y): (f64, f64), anchor: &str, class: &str, content: &str) -> String {
    format!("<text class='{class}' x='{x:.1}' y='{y:.1}' text-anchor='{anchor}'>{content}</text>\n")
}

fn document(height: f64, body: &str) -> String {
    let head =
        format!("<svg xmlns='http://www.w3.org/2000/svg' viewBox='0 0 760 {height}' width='760' height='{height}'>");
    format!("{head}\n<style>{STYLE}</style>\n<rect width='760' height='{height}' fill='#fff'/>\n{body}</svg>\n")
}
