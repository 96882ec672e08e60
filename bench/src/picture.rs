//! Small pictures in SVG.

use std::fmt::Write;

/// One bar: its label and its parts, from the left, each with a colour.
pub struct Bar {
    pub label: String,
    pub parts: Vec<(f64, &'static str)>,
    /// Told at the bar's end.
    pub note: String,
}

/// Bars that lie one above the other, with a line at `mark`.
pub struct Bars {
    pub title: &'static str,
    pub bars: Vec<Bar>,
    /// The value at the right end.
    pub most: f64,
    pub mark: Option<f64>,
}

const LEFT: f64 = 340.0;
const WIDTH: f64 = 320.0;
const RIGHT: f64 = 110.0;
const ROW: f64 = 18.0;
const TOP: f64 = 34.0;

impl Bars {
    pub fn svg(&self) -> String {
        let height = TOP + ROW * self.bars.len() as f64 + 10.0;
        let width = LEFT + WIDTH + RIGHT;
        let mut out = format!(
            "<svg xmlns=\"http://www.w3.org/2000/svg\" width=\"{width}\" height=\"{height}\" \
             font-family=\"sans-serif\" font-size=\"12\">\n\
             <rect width=\"{width}\" height=\"{height}\" fill=\"white\"/>\n\
             <text x=\"8\" y=\"20\" font-weight=\"bold\">{}</text>\n",
            self.title
        );
        for (index, bar) in self.bars.iter().enumerate() {
            self.add_bar(&mut out, bar, TOP + ROW * index as f64);
        }
        if let Some(mark) = self.mark {
            let x = LEFT + mark / self.most * WIDTH;
            put(
                &mut out,
                format_args!(
                    "<line x1=\"{x:.1}\" y1=\"{TOP}\" x2=\"{x:.1}\" y2=\"{:.1}\" stroke=\"black\"/>\n",
                    height - 10.0
                ),
            );
        }
        out.push_str("</svg>\n");
        out
    }

    fn add_bar(&self, out: &mut String, bar: &Bar, y: f64) {
        let text = y + 12.0;
        put(
            out,
            format_args!(
                "<text x=\"{}\" y=\"{text}\" text-anchor=\"end\">{}</text>\n",
                LEFT - 8.0,
                bar.label
            ),
        );
        let mut x = LEFT;
        for (value, colour) in &bar.parts {
            let length = (value / self.most * WIDTH).max(0.0);
            put(
                out,
                format_args!(
                    "<rect x=\"{x:.1}\" y=\"{}\" width=\"{length:.1}\" height=\"12\" fill=\"{colour}\"/>\n",
                    y + 2.0
                ),
            );
            x += length;
        }
        put(out, format_args!("<text x=\"{:.1}\" y=\"{text}\">{}</text>\n", x + 6.0, bar.note));
    }
}

fn put(out: &mut String, text: std::fmt::Arguments<'_>) {
    out.write_fmt(text).expect("a String takes any text");
}
