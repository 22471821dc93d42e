//! The plot: the time of a pass against the sprites on a line, as an SVG of plain lines and text.

const WIDTH: f64 = 720.0;
const HEIGHT: f64 = 400.0;
const LEFT: f64 = 70.0;
const RIGHT: f64 = 590.0;
const TOP: f64 = 60.0;
const BOTTOM: f64 = 340.0;

const OURS: &str = "#1f6fb4";
const RUST: &str = "#c2541b";
const PLAIN: &str = "#555555";

/// Where things stand: 0 to 8 sprites across, 0 to `most` microseconds up.
struct Scale {
    most: f64,
}

impl Scale {
    fn x(&self, sprites: f64) -> f64 {
        LEFT + (RIGHT - LEFT) * sprites / 8.0
    }
    fn y(&self, time: f64) -> f64 {
        BOTTOM - (BOTTOM - TOP) * time / self.most
    }
}

fn text(x: f64, y: f64, anchor: &str, colour: &str, words: &str) -> String {
    format!("<text x=\"{x:.1}\" y=\"{y:.1}\" text-anchor=\"{anchor}\" fill=\"{colour}\">{words}</text>\n")
}

/// One side: its points joined, and its name with its last time behind them.
fn side(scale: &Scale, colour: &str, name: &str, points: &[(usize, f64)]) -> String {
    let at = |(k, time): &(usize, f64)| (scale.x(*k as f64), scale.y(*time));
    let joined: Vec<String> = points.iter().map(at).map(|(x, y)| format!("{x:.1},{y:.1}")).collect();
    let mut svg = format!("<polyline points=\"{}\" fill=\"none\" stroke=\"{colour}\" stroke-width=\"2\"/>\n", joined.join(" "));
    for (x, y) in points.iter().map(at) {
        svg += &format!("<circle cx=\"{x:.1}\" cy=\"{y:.1}\" r=\"3.5\" fill=\"{colour}\"/>\n");
    }
    if let Some(last) = points.last() {
        svg += &text(RIGHT + 10.0, at(last).1 + 4.0, "start", colour, &format!("{name}, {:.1}", last.1));
    }
    svg
}

/// The plot of (sprites on a line, ours, the Rust's) and of the floor, all in microseconds.
pub fn growth(times: &[(usize, f64, f64)], floor: f64) -> String {
    let mut times = times.to_vec();
    times.sort_by_key(|(k, _, _)| *k);
    let ours: Vec<(usize, f64)> = times.iter().map(|(k, ours, _)| (*k, *ours)).collect();
    let rust: Vec<(usize, f64)> = times.iter().map(|(k, _, rust)| (*k, *rust)).collect();
    // Up to the next whole tick above the longest time; ticks so that there are four to eight.
    let longest = times.iter().fold(floor, |most, (_, a, b)| most.max(*a).max(*b));
    let tick = [5.0, 10.0, 20.0, 50.0, 100.0, 200.0, 500.0].into_iter().find(|tick| longest / tick <= 8.0).unwrap_or(1000.0);
    let scale = Scale { most: (longest / tick).ceil() * tick };

    let mut svg = format!(
        "<svg xmlns=\"http://www.w3.org/2000/svg\" viewBox=\"0 0 {WIDTH} {HEIGHT}\" width=\"{WIDTH}\" height=\"{HEIGHT}\" \
         font-family=\"sans-serif\" font-size=\"13\">\n<title>Time of a pass against the sprites on a line</title>\n\
         <rect width=\"{WIDTH}\" height=\"{HEIGHT}\" fill=\"#ffffff\"/>\n"
    );
    svg += &text(LEFT, 28.0, "start", "#222222", "One pass of 261 visible steps, microseconds (least of all rounds)");
    for n in 0..=(scale.most / tick).round() as usize {
        let time = n as f64 * tick;
        let y = scale.y(time);
        svg += &format!("<line x1=\"{LEFT}\" y1=\"{y:.1}\" x2=\"{RIGHT}\" y2=\"{y:.1}\" stroke=\"#dddddd\"/>\n");
        svg += &text(LEFT - 10.0, y + 4.0, "end", PLAIN, &format!("{time}"));
    }
    for k in 0..=8 {
        svg += &text(scale.x(k as f64), BOTTOM + 20.0, "middle", PLAIN, &k.to_string());
    }
    svg += &text((LEFT + RIGHT) / 2.0, BOTTOM + 44.0, "middle", PLAIN, "sprites on each of 128 rows (64 in the list)");
    let y = scale.y(floor);
    svg += &format!("<line x1=\"{LEFT}\" y1=\"{y:.1}\" x2=\"{RIGHT}\" y2=\"{y:.1}\" stroke=\"{PLAIN}\" stroke-dasharray=\"5 4\"/>\n");
    svg += &text(RIGHT + 10.0, y + 4.0, "start", PLAIN, &format!("floor, {floor:.1}"));
    svg += &side(&scale, RUST, "the Rust", &rust);
    svg += &side(&scale, OURS, "ours", &ours);
    svg + "</svg>\n"
}
