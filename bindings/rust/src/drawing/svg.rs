//! The few tags that a picture is made of.

use std::fmt::{self, Write};

/// Words at a place. `more` is what else their tag says.
pub fn put_words([x, y]: [f64; 2], more: &str, words: &str, text: &mut String) -> fmt::Result {
    let words = escaped(words);
    writeln!(text, "<text x=\"{x:.2}\" y=\"{y:.2}\"{more}>{words}</text>")
}

/// Words that stand in a tag. What no such text may hold, as most control characters, is replaced.
pub fn escaped(words: &str) -> String {
    let mut out = String::with_capacity(words.len());
    for letter in words.chars() {
        match letter {
            '&' => out.push_str("&amp;"),
            '<' => out.push_str("&lt;"),
            '>' => out.push_str("&gt;"),
            '\t' | '\n' | '\r' => out.push(' '),
            '\u{0}'..='\u{1f}' | '\u{fffe}' | '\u{ffff}' => out.push('\u{fffd}'),
            other => out.push(other),
        }
    }
    out
}

/// What words take at most in a usual font of this size.
pub fn width_of(words: &str, size: f64) -> f64 {
    let share = |letter: char| match letter {
        ' ' | '.' | ',' | ':' | ';' | '\'' | 'i' | 'j' | 'l' => 0.36,
        'm' | 'w' | 'M' | 'W' | '%' | '@' => 1.0,
        'A'..='Z' => 0.8,
        letter if letter.is_ascii() => 0.66,
        _ => 1.0,
    };
    size * words.chars().map(share).sum::<f64>()
}

/// Words of at most so many letters: longer ones end with dots.
pub fn shortened(words: &str, most: usize) -> String {
    if words.chars().count() <= most {
        return words.to_string();
    }
    let front: String = words.chars().take(most.saturating_sub(1)).collect();
    front + "\u{2026}"
}

#[cfg(test)]
mod tests {
    use super::*;

    #[test]
    fn words_can_stand_in_a_tag() {
        assert_eq!(escaped("a<b>&c\td\u{1b}"), "a&lt;b&gt;&amp;c d\u{fffd}");
        assert_eq!(shortened("terminal", 8), "terminal");
        assert_eq!(shortened("terminals", 8), "termina\u{2026}");
    }
}
