//! A picture read back: its words, and that nothing stands past its edge.

/// The number of an attribute.
pub fn number(tag: &str, name: &str) -> Option<f64> {
    let start = tag.find(&format!(" {name}=\""))? + name.len() + 3;
    tag[start..].split('"').next()?.parse().ok()
}

/// Words as they are read.
fn unescaped(words: &str) -> String {
    let named = [("&lt;", "<"), ("&gt;", ">"), ("&amp;", "&")];
    let put = |words: String, (name, letter): (&str, &str)| words.replace(name, letter);
    named.into_iter().fold(words.to_string(), put)
}

/// What words of a size take at least, whatever the font.
pub fn width_of(words: &str, size: f64) -> f64 {
    0.56 * size * words.chars().count() as f64
}

/// Words, and where they stand: x0, y0, x1, y1.
pub fn words_of(svg: &str) -> Vec<(String, [f64; 4])> {
    let texts = svg.split("<text").skip(1).map(|part| {
        let (tag, words) = part.split_once('>').expect("a tag");
        let words = unescaped(words.split('<').next().expect("words"));
        let size = number(tag, "font-size").unwrap_or(12.0);
        let long = width_of(&words, size);
        let [x, y] = ["x", "y"].map(|name| number(tag, name).expect("a place"));
        let x0 = match tag.contains("\"middle\"") {
            true => x - long / 2.0,
            false => x,
        };
        (words, [x0, y - 0.8 * size, x0 + long, y + 0.3 * size])
    });
    texts.collect()
}

/// All words end before the picture does.
pub fn assert_uncut(svg: &str) {
    let width = number(svg, "width").expect("a width");
    let height = number(svg, "height").expect("a height");
    let all = words_of(svg);
    for (words, [x0, y0, x1, y1]) in &all {
        let is_in = *x0 >= 0.0 && *y0 >= 0.0 && *x1 <= width && *y1 <= height;
        assert!(is_in, "{words} is cut");
    }
    assert!(all.len() > 3);
}
