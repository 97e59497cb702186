//! SVG, written by hand: shapes, text, and how much room a text takes.
//!
//! The picture has to be read with whatever font stands for `sans-serif`, so
//! the room is reckoned for a wide one; all coordinates are whole pixels.

use std::fmt::Write;

/// How a text is set. The style sheet is made of these, so that what is
/// reckoned is what is shown.
pub struct Font {
    pub class: &'static str,
    pub size: i32,
    family: &'static str,
    weight: &'static str,
    colour: &'static str,
}

const INK: &str = "#1b2430";
const PALE: &str = "#5b6675";
const RED: &str = "#b3261e";
const VIOLET: &str = "#7a1fa2";

const fn font(class: &'static str, size: i32, weight: &'static str, colour: &'static str) -> Font {
    Font {
        class,
        size,
        family: "sans-serif",
        weight,
        colour,
    }
}

pub const TITLE: Font = font("title", 20, "bold", INK);
pub const LEAD: Font = font("lead", 15, "normal", INK);
pub const PROFILE: Font = font("profile", 13, "normal", PALE);
pub const HEADING: Font = font("heading", 16, "bold", INK);
pub const PARTY: Font = font("party", 14, "bold", INK);
pub const ROLE: Font = font("role", 12, "normal", PALE);
pub const NAME: Font = font("name", 13, "bold", INK);
pub const DETAIL: Font = font("detail", 13, "normal", INK);
/// The label of an item that changed nothing.
pub const PALE_NAME: Font = font("pale-name", 13, "bold", PALE);
pub const PALE_DETAIL: Font = font("pale-detail", 13, "normal", PALE);
pub const REFUSED: Font = font("refused", 13, "bold", RED);
pub const TIME: Font = font("time", 13, "normal", INK);
pub const SMALL: Font = font("small", 12, "normal", PALE);
pub const CHARGE: Font = font("charge", 12, "normal", INK);
pub const CHARGE_NAME: Font = font("charge-name", 12, "bold", INK);
pub const COMMENT: Font = font("comment", 13, "normal", INK);
pub const BADGE: Font = font("badge", 12, "bold", INK);
/// On a dark ground.
pub const OVER: Font = font("over", 12, "bold", "#fff");
pub const BYTES: Font = Font {
    family: "monospace",
    ..font("bytes", 12, "normal", INK)
};

/// An answer that the text expects and that is not given.
pub const DIFFERS: Font = font("differs", 13, "bold", VIOLET);

pub const FONTS: [&Font; 20] = [
    &TITLE,
    &LEAD,
    &PROFILE,
    &HEADING,
    &PARTY,
    &ROLE,
    &NAME,
    &DETAIL,
    &PALE_NAME,
    &PALE_DETAIL,
    &REFUSED,
    &TIME,
    &SMALL,
    &CHARGE,
    &CHARGE_NAME,
    &COMMENT,
    &BADGE,
    &OVER,
    &BYTES,
    &DIFFERS,
];

/// The classes of the shapes. Whatever differs in colour differs in shape too,
/// for those who print in black and white.
const SHAPES: &str = "\
.page{fill:#fff}
.band{fill:#f3f6f9}
.head{fill:#fff;stroke:#1b2430;stroke-width:1.5}
.line,.thin,.thick,.absent,.arrow,.mark,.cross,.rule,.end{fill:none;stroke:#1b2430}
.line{stroke-width:1.5}
.thin{stroke:#4a5b73;stroke-width:2}
.thick{stroke:#4a5b73;stroke-width:6}
.absent{stroke:#7d8896;stroke-width:1.5;stroke-dasharray:2 5}
.arrow{stroke-width:1.6}
.dashed{stroke:#b3261e;stroke-dasharray:6 4}
.cross{stroke:#b3261e;stroke-width:2.6}
.mark{stroke-width:1.5}
.point{fill:#1b2430}
.open{fill:#fff;stroke:#1b2430;stroke-width:1.6}
.hold{fill:#c9dcf5;stroke:#1b3f73;stroke-width:1.5}
.granted{fill:#fff;stroke:#9a5b00;stroke-width:1.5;stroke-dasharray:4 3}
.running{fill:#f2a51f;stroke:#9a5b00;stroke-width:1.5}
.comment-box{fill:#fff7dd;stroke:#d9c27a}
.badge-box{fill:#fff;stroke:#1b2430;stroke-width:1.2}
.over-box{fill:#1b2430}
.gap{fill:#fff}
.rule{stroke:#c6ced8}
.end{stroke-width:1.2;stroke-dasharray:1 3}
";

pub const DIFFERS_BOX: &str = "differs-box";
const DIFFERS_SHAPE: &str = "\
.differs-box{fill:#fbf1ff;stroke:#7a1fa2;stroke-width:3}
";

#[derive(Clone, Copy)]
pub enum Anchor {
    Start,
    Middle,
    End,
}

impl Anchor {
    fn attribute(self) -> &'static str {
        match self {
            Anchor::Start => "",
            Anchor::Middle => " text-anchor=\"middle\"",
            Anchor::End => " text-anchor=\"end\"",
        }
    }
}

/// Between two texts of one line.
pub const SPACE: i32 = 5;

/// A place on the page: from the left, and from the top.
pub type Spot = (i32, i32);

/// The shapes so far.
#[derive(Default)]
pub struct Svg {
    content: String,
}

impl Svg {
    fn push(&mut self, element: std::fmt::Arguments) {
        self.content
            .write_fmt(element)
            .expect("nothing fails in memory");
        self.content.push('\n');
    }

    pub fn line(&mut self, class: &str, (x1, y1): Spot, (x2, y2): Spot) {
        self.push(format_args!(
            "<path class=\"{class}\" d=\"M{x1} {y1}L{x2} {y2}\"/>"
        ));
    }

    /// `steps` is path data from the first spot on.
    pub fn path(&mut self, class: &str, (x, y): Spot, steps: &str) {
        self.push(format_args!(
            "<path class=\"{class}\" d=\"M{x} {y}{steps}\"/>"
        ));
    }

    pub fn rect(&mut self, class: &str, (x, y): Spot, (width, height): Spot, radius: i32) {
        let round = match radius {
            0 => String::new(),
            radius => format!(" rx=\"{radius}\""),
        };
        self.push(format_args!(
            "<rect class=\"{class}\" x=\"{x}\" y=\"{y}\" width=\"{width}\" height=\"{height}\"{round}/>"
        ));
    }

    pub fn text(&mut self, font: &Font, anchor: Anchor, spot: Spot, text: &str) {
        self.texts(anchor, spot, &[(font, text)]);
    }

    /// Texts in one line, each in its font, with a space between them; empty
    /// ones are left out.
    pub fn texts(&mut self, anchor: Anchor, (x, y): Spot, texts: &[(&Font, &str)]) {
        let mut parts = String::new();
        for (font, text) in texts.iter().filter(|(_, text)| !text.is_empty()) {
            let (class, text) = (font.class, escape(text));
            // Not every renderer keeps a blank at a tspan's edge.
            let space = match parts.is_empty() {
                true => String::new(),
                false => format!(" dx=\"{SPACE}\""),
            };
            parts += &format!("<tspan class=\"{class}\"{space}>{text}</tspan>");
        }
        let anchor = anchor.attribute();
        self.push(format_args!(
            "<text x=\"{x}\" y=\"{y}\"{anchor}>{parts}</text>"
        ));
    }

    /// The whole picture, with a title and a description for those who do not
    /// see it.
    pub fn picture(&self, width: i32, height: i32, title: &str, description: &str) -> String {
        let (title, description) = (escape(title), escape(description));
        let style = self.style();
        let content = &self.content;
        format!(
            "<svg xmlns=\"http://www.w3.org/2000/svg\" width=\"{width}\" height=\"{height}\" \
             viewBox=\"0 0 {width} {height}\" role=\"img\" aria-labelledby=\"title description\">\n\
             <title id=\"title\">{title}</title>\n\
             <desc id=\"description\">{description}</desc>\n\
             <style>\n{style}</style>\n\
             <rect class=\"page\" width=\"{width}\" height=\"{height}\"/>\n\
             {content}</svg>\n"
        )
    }

    /// The style sheet; few pictures have differences, so the others go without
    /// their style.
    fn style(&self) -> String {
        let has = |class: &str| self.content.contains(&format!("class=\"{class}\""));
        let fonts = FONTS.into_iter();
        let fonts = fonts.filter(|font| font.class != DIFFERS.class || has(font.class));
        let mut style: String = fonts.map(Font::rule).collect();
        style += SHAPES;
        if has(DIFFERS_BOX) {
            style += DIFFERS_SHAPE;
        }
        style
    }
}

impl Font {
    fn rule(&self) -> String {
        let Font {
            class,
            size,
            family,
            weight,
            colour,
        } = self;
        format!(".{class}{{font:{weight} {size}px {family};fill:{colour}}}\n")
    }

    /// From one line to the next, where lines are read on.
    pub fn line(&self) -> i32 {
        self.size * 4 / 3 + 2
    }

    /// The room that a text takes at most.
    pub fn width(&self, text: &str) -> i32 {
        let bold = if self.weight == "bold" { 112 } else { 100 };
        let character = match self.family {
            "monospace" => |_| 62,
            _ => hundredths,
        };
        let sum: i32 = text.chars().map(character).sum();
        (sum * self.size * bold + 9_999) / 10_000
    }

    /// Lines of words that fit into the width; a word that does not is cut.
    pub fn wrap(&self, text: &str, width: i32) -> Vec<String> {
        let mut lines: Vec<String> = Vec::new();
        for word in text.split_whitespace() {
            match lines.last_mut() {
                Some(line) if self.width(&format!("{line} {word}")) <= width => {
                    line.push(' ');
                    line.push_str(word);
                }
                _ => lines.extend(self.cut(word, width)),
            }
        }
        lines
    }

    fn cut(&self, word: &str, width: i32) -> Vec<String> {
        let mut pieces = vec![String::new()];
        for character in word.chars() {
            let last = pieces.len() - 1;
            let longer = format!("{}{character}", pieces[last]);
            if self.width(&longer) <= width || pieces[last].is_empty() {
                pieces[last] = longer;
            } else {
                pieces.push(character.to_string());
            }
        }
        pieces
    }
}

/// The width of a character, in hundredths of the font's size, as in a wide
/// font of the sort (DejaVu Sans, Verdana).
fn hundredths(character: char) -> i32 {
    match character {
        'i' | 'j' | 'l' | 'I' | 'J' | '\'' | '|' => 30,
        ' ' | '.' | ',' | '/' | '!' => 35,
        'f' | 'r' | 't' | '-' | '(' | ')' | '[' | ']' | ':' | ';' => 42,
        'm' | 'M' | 'W' | '%' | '@' => 100,
        'w' | '=' | '+' | '<' | '>' | '#' | '~' | '&' => 84,
        'A'..='Z' => 74,
        '\0'..='~' => 64,
        '\u{7f}'..='\u{2ff}' => 80,
        '\u{300}'..='\u{ffff}' => 105,
        _ => 150,
    }
}

/// The text as XML takes it; what XML does not know at all becomes a
/// replacement character.
fn escape(text: &str) -> String {
    let mut escaped = String::with_capacity(text.len());
    for character in text.chars() {
        match character {
            '&' => escaped += "&amp;",
            '<' => escaped += "&lt;",
            '>' => escaped += "&gt;",
            '"' => escaped += "&quot;",
            '\t' | '\n' | '\r' => escaped.push(' '),
            '\0'..='\x1f' | '\u{7f}'..='\u{9f}' | '\u{fffe}' | '\u{ffff}' => {
                escaped.push(char::REPLACEMENT_CHARACTER)
            }
            other => escaped.push(other),
        }
    }
    escaped
}
