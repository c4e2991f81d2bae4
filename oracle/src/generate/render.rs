//! From token texts to source bytes, with different spaces and comments.

use super::vocabulary::Text;
use crate::random::Random;

/// How tokens are set apart.
#[derive(Clone, Copy, Debug, PartialEq, Eq)]
pub enum Spacing {
    /// One space between two tokens.
    Single,
    /// Spaces, tabs, line ends and comments.
    Varied,
    /// No space where none is needed.
    Tight,
}

/// A spacing, mostly single spaces.
pub fn any_spacing(random: &mut Random) -> Spacing {
    match random.below(4) {
        0 => Spacing::Varied,
        1 => Spacing::Tight,
        _ => Spacing::Single,
    }
}

/// The source of a token list.
pub fn render(tokens: &[Text], spacing: Spacing, random: &mut Random) -> Vec<u8> {
    let mut source = Vec::with_capacity(tokens.len() * 4);
    for (index, text) in tokens.iter().enumerate() {
        if index > 0 {
            let gap = gap_between(tokens[index - 1], text, spacing, random);
            source.extend_from_slice(gap.as_bytes());
        }
        source.extend_from_slice(text.as_bytes());
    }
    if spacing == Spacing::Varied && random.once_in(3) {
        let end = random.pick(&["\n", " // end", "\r\n", " //\n"]);
        source.extend_from_slice(end.as_bytes());
    }
    source
}

fn gap_between(left: Text, right: Text, spacing: Spacing, random: &mut Random) -> Text {
    match spacing {
        Spacing::Single => " ",
        Spacing::Varied => random.pick(&[
            " ",
            " ",
            " ",
            " ",
            " ",
            "  ",
            "\n",
            "\n    ",
            "\t",
            "\r\n",
            " // x\n",
            " //\n",
            " // , ` { \\\n",
            "\n// : Foo {\n",
        ]),
        Spacing::Tight if stands_alone(left) || stands_alone(right) => "",
        Spacing::Tight => " ",
    }
}

/// Whether a token never runs into its neighbours.
fn stands_alone(text: Text) -> bool {
    matches!(
        text,
        "{" | "}" | "(" | ")" | "[" | "]" | "^" | "~" | "@" | "#" | ";" | "$" | "%" | "\\" | "→"
    )
}

/// The source of a declaration as a fitter would set it out: a line for each
/// brace, statements after each other on lines of some length.
pub fn render_lines(tokens: &[Text], random: &mut Random, source: &mut Vec<u8>) {
    let mut depth = 0;
    let mut line_start = source.len();
    for text in tokens {
        if *text == "}" {
            depth -= 1;
        }
        let is_long = source.len() - line_start > 60;
        if *text == "}" || is_long || (depth > 0 && matches!(*text, ":" | "=" | ";")) {
            source.push(10);
            line_start = source.len();
            source.extend(std::iter::repeat_n(b' ', 4 * depth.min(10)));
        } else if source.last().is_some_and(|byte| *byte != 10) {
            source.push(b' ');
        }
        source.extend_from_slice(text.as_bytes());
        if *text == "{" {
            depth += 1;
            if random.once_in(12) {
                source.extend_from_slice(b" // the next steps");
                source.push(10);
                line_start = source.len();
            }
        }
    }
    source.extend_from_slice(b"\n\n");
}
