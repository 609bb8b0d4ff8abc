//! The few elements of SVG that a drawing needs. Coordinates are whole or half pixels, so that the file says them briefly.
use std::fmt::Write;

#[derive(Default)]
pub struct Svg {
    body: String,
}

/// Where a text is held.
#[derive(Clone, Copy)]
pub enum Held {
    Left,
    Middle,
}

impl Svg {
    pub fn text(&mut self, held: Held, x: f64, y: f64, class: &str, text: &str) {
        let held = match held {
            Held::Left => "",
            Held::Middle => " text-anchor=\"middle\"",
        };
        self.element(format_args!("<text x=\"{x}\" y=\"{y}\"{held} class=\"{class}\">{}</text>", escaped(text)));
    }

    pub fn rect(&mut self, x: f64, y: f64, width: f64, height: f64, class: &str) {
        self.element(format_args!(
            "<rect x=\"{x}\" y=\"{y}\" width=\"{width}\" height=\"{height}\" class=\"{class}\"/>"
        ));
    }

    pub fn path(&mut self, steps: &str, class: &str) {
        self.element(format_args!("<path d=\"{steps}\" class=\"{class}\"/>"));
    }

    fn element(&mut self, element: std::fmt::Arguments) {
        // Writing to memory cannot fail.
        let _ = writeln!(self.body, "{element}");
    }

    /// The whole file: a title for those who hear it read, a white page, and what was drawn.
    pub fn finish(self, width: f64, height: f64, title: &str, style: &str) -> String {
        format!(
            "<svg xmlns=\"http://www.w3.org/2000/svg\" width=\"{width}\" height=\"{height}\" \
             viewBox=\"0 0 {width} {height}\" role=\"img\">\n<title>{}</title>\n<style>\n{style}</style>\n\
             <rect width=\"{width}\" height=\"{height}\" class=\"page\"/>\n{}</svg>\n",
            escaped(title),
            self.body
        )
    }
}

fn escaped(text: &str) -> String {
    text.replace('&', "&amp;").replace('<', "&lt;").replace('>', "&gt;")
}
