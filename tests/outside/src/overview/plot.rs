//! The overview as a plot: for each call a bar of each size, as long as the ratio of the engine's time to that of the
//! reference.

use super::{Call, Figures, SIZES};

/// From left to right: the names of the calls, their ratios as numbers, and the bars. In pixels, as all here.
const NAMES: f64 = 90.0;
const LEFT: f64 = NAMES + 45.0;
const BARS: f64 = 600.0;
const RIGHT: f64 = 25.0;
/// From the top down: title and legend, and what is below the bars.
const TOP: f64 = 100.0;
const BOTTOM: f64 = 40.0;
/// A bar, and the calls with a gap between each two.
const BAR: f64 = 13.0;
const GROUP: f64 = BAR * SIZES.len() as f64 + 10.0;

const COLOURS: [&str; 3] = ["#cfe1f2", "#85b4dc", "#3f7fb8"];
const TITLE: &str = "Time of a call: engine / Rust. Left of the line at 1.0 the engine is faster.";
const RANGE: &str = "all inputs that are not refused, least to most";

/// A picture in SVG, as far as it is drawn, and its scale: the pixels of a ratio of 1.
struct Picture {
    svg: String,
    one: f64,
}

/// The overview as a picture, in SVG.
pub fn plot(calls: &[Call]) -> String {
    let ratios = calls.iter().flat_map(|call| call.sizes).flatten().map(|figures| figures.most);
    let most = ratios.fold(1.0, f64::max).ceil();
    let (width, height) = (LEFT + BARS + RIGHT, TOP + GROUP * calls.len() as f64 + BOTTOM);
    let mut picture = Picture { svg: String::new(), one: BARS / most };
    picture.add(format!(
        "<svg xmlns=\"http://www.w3.org/2000/svg\" width=\"{width}\" height=\"{height}\" \
         viewBox=\"0 0 {width} {height}\" font-family=\"Helvetica, Arial, sans-serif\" fill=\"#222222\">"
    ));
    picture.add(format!("<rect width=\"{width}\" height=\"{height}\" fill=\"#ffffff\"/>"));
    picture.legend();
    // At most ten marks beside 0.
    for ratio in (0..=most as u32).step_by((most / 10.0).ceil() as usize) {
        picture.mark(ratio, height - BOTTOM);
    }
    for (place, call) in calls.iter().enumerate() {
        picture.call(call, TOP + GROUP * place as f64 + (GROUP - BAR * SIZES.len() as f64) / 2.0);
    }
    picture.upright(picture.x(1.0), height - BOTTOM, "#c02020");
    picture.svg + "</svg>\n"
}

impl Picture {
    fn add(&mut self, element: String) {
        self.svg += &element;
        self.svg += "\n";
    }

    /// Where a ratio stands.
    fn x(&self, ratio: f64) -> f64 {
        LEFT + self.one * ratio
    }

    /// A text of so many pixels that starts, has its middle or ends at a place.
    fn text(&mut self, (x, y): (f64, f64), anchor: &str, size: u32, text: &str) {
        let text = text.replace('&', "&amp;").replace('<', "&lt;").replace('>', "&gt;");
        self.add(format!(
            "<text x=\"{x:.1}\" y=\"{y:.1}\" text-anchor=\"{anchor}\" font-size=\"{size}\">{text}</text>"
        ));
    }

    /// A line from the top of the bars down.
    fn upright(&mut self, x: f64, bottom: f64, colour: &str) {
        self.add(format!("<path d=\"M{x:.1} {TOP}V{bottom}\" stroke=\"{colour}\"/>"));
    }

    /// A thin line from the least to the greatest ratio, with a stroke at each end.
    fn range(&mut self, from: f64, to: f64, y: f64) {
        let (up, down) = (y - 3.0, y + 3.0);
        let ends = format!("M{from:.1} {up:.1}V{down:.1}M{to:.1} {up:.1}V{down:.1}");
        self.add(format!("<path class=\"range\" d=\"M{from:.1} {y:.1}H{to:.1}{ends}\" stroke=\"#222222\"/>"));
    }

    fn legend(&mut self) {
        self.text((LEFT, 26.0), "start", 16, TITLE);
        let mut x = LEFT;
        for (size, colour) in SIZES.iter().zip(COLOURS) {
            self.add(format!("<rect x=\"{x}\" y=\"43\" width=\"14\" height=\"12\" fill=\"{colour}\"/>"));
            self.text((x + 19.0, 54.0), "start", 13, &size.to_lowercase());
            x += 90.0;
        }
        self.range(x, x + 24.0, 49.0);
        self.text((x + 30.0, 54.0), "start", 13, RANGE);
    }

    /// A ratio on the scale, above and below the bars.
    fn mark(&mut self, ratio: u32, bottom: f64) {
        let x = self.x(f64::from(ratio));
        self.upright(x, bottom, "#dddddd");
        for y in [TOP - 8.0, bottom + 20.0] {
            self.text((x, y), "middle", 13, &format!("{ratio}.0"));
        }
    }

    /// A call: its name, and a bar of each size that it has.
    fn call(&mut self, call: &Call, top: f64) {
        let middle = top + BAR * SIZES.len() as f64 / 2.0;
        self.text((NAMES, middle + 4.0), "end", 13, &call.name);
        for (place, figures) in call.sizes.iter().enumerate() {
            if let Some(figures) = figures {
                self.bar(figures, COLOURS[place], top + BAR * place as f64);
            }
        }
    }

    /// The bar of a size with its ratio as a number in front, and the range of all inputs of the size.
    fn bar(&mut self, figures: &Figures, colour: &str, top: f64) {
        let Figures { ratio, least, most, .. } = *figures;
        let (width, height) = (self.one * ratio, BAR - 1.0);
        self.text((LEFT - 7.0, top + height - 2.0), "end", 11, &format!("{ratio:.2}"));
        self.add(format!(
            "<rect class=\"ratio\" x=\"{LEFT}\" y=\"{top}\" width=\"{width:.1}\" height=\"{height}\" fill=\"{colour}\"/>"
        ));
        if least < most {
            self.range(self.x(least), self.x(most), top + height / 2.0);
        }
    }
}
