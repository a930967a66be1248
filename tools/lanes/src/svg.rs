//! The few elements of SVG that the picture is made of. Looks stand in its style sheet, by class.

use std::fmt::Display;

/// A drawing in the making.
pub struct Svg {
    text: String,
}

impl Svg {
    /// An empty drawing with a title and a style sheet.
    pub fn new(width: i32, height: i32, title: &str, style: &str) -> Svg {
        let (title, size) = (escaped(title), format!("width=\"{width}\" height=\"{height}\""));
        let head = format!(
            "<svg xmlns=\"http://www.w3.org/2000/svg\" {size} viewBox=\"0 0 {width} {height}\">"
        );
        let mut svg =
            Svg { text: format!("{head}\n<title>{title}</title>\n<style>{style}</style>\n") };
        svg.rect("paper", 0, 0, width, height);
        svg
    }

    /// The finished text.
    pub fn finished(self) -> String {
        self.text + "</svg>\n"
    }

    /// Begins a group; a pointer resting on it shows its title.
    pub fn group(&mut self, class: &str, title: &str) {
        self.text += &format!("<g class=\"{class}\"><title>{}</title>\n", escaped(title));
    }

    /// Ends a group.
    pub fn end_group(&mut self) {
        self.text += "</g>\n";
    }

    /// A rectangle.
    pub fn rect(&mut self, class: &str, x: i32, y: i32, width: i32, height: i32) {
        self.text += &format!(
            "<rect class=\"{class}\" x=\"{x}\" y=\"{y}\" width=\"{width}\" height=\"{height}\"/>\n"
        );
    }

    /// A circle.
    pub fn circle(&mut self, class: &str, x: i32, y: i32, radius: i32) {
        self.text += &format!("<circle class=\"{class}\" cx=\"{x}\" cy=\"{y}\" r=\"{radius}\"/>\n");
    }

    /// A path, in SVG's own short commands.
    pub fn path(&mut self, class: &str, commands: &str) {
        self.text += &format!("<path class=\"{class}\" d=\"{commands}\"/>\n");
    }

    /// A text.
    pub fn text(&mut self, class: &str, x: i32, y: i32, said: impl Display) {
        self.any_text(class, x, y, "", said);
    }

    /// A text made small enough for a width.
    pub fn fitted(&mut self, class: &str, x: i32, y: i32, width: i32, said: impl Display) {
        let said = said.to_string();
        let tenths = (width * 100 / 7 / said.len().max(1) as i32).min(100);
        let size = format!(" style=\"font-size:{}.{}px\"", tenths / 10, tenths % 10);
        self.any_text(class, x, y, &size, said);
    }

    /// A text that goes down to the right.
    pub fn slanted(&mut self, class: &str, x: i32, y: i32, said: impl Display) {
        self.any_text(class, x, y, &format!(" transform=\"rotate(45 {x} {y})\""), said);
    }

    fn any_text(&mut self, class: &str, x: i32, y: i32, more: &str, said: impl Display) {
        let said = escaped(&said.to_string());
        self.text += &format!("<text class=\"{class}\" x=\"{x}\" y=\"{y}\"{more}>{said}</text>\n");
    }
}

/// A text with no character that means something to XML, or that it forbids.
fn escaped(text: &str) -> String {
    let one = |letter: char| match letter {
        '&' => "&amp;".to_string(),
        '<' => "&lt;".to_string(),
        '>' => "&gt;".to_string(),
        '"' => "&quot;".to_string(),
        '\u{fffe}' | '\u{ffff}' => "?".to_string(),
        _ if letter.is_control() => "?".to_string(),
        _ => letter.to_string(),
    };
    text.chars().map(one).collect()
}
