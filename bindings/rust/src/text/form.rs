//! The lines that a text may have, for the words of those that make no sense.

use super::unit::{cut, quoted};

/// What stands behind each first word.
const FORMS: [&str; 16] = [
    "level N",
    "cap N",
    "target TICKS",
    "pitch MM",
    "layer L CELL",
    "polygon LAYER COMPONENT OHMS",
    "split ID ID-ID ..",
    "refine X0 Y0 X1 Y1 LEVEL [LAYER]",
    "sheet X0 Y0 X1 Y1 FACTOR [LAYER]",
    "temperature CELSIUS [COEFFICIENT]",
    "contact POLYGON POLYGON",
    "via LAYER LAYER COMPONENT X Y HALF_WIDTH HALF_HEIGHT OHMS [barrel]",
    "channels LAYER",
    "channel COMPONENT [at] X Y [HALF_WIDTH HALF_HEIGHT] COMPONENT [at] X Y [HALF_WIDTH HALF_HEIGHT] OHMS",
    "terminal NAME VALUE V|A (end LAYER COMPONENT west|east|south|north | edge LAYER COMPONENT X0 Y0 X1 Y1 | \
     rect LAYER COMPONENT X0 Y0 X1 Y1 | pad POLYGON)",
    "across NAME LAYER COMPONENT X0 Y0 X1 Y1",
];

/// What a form begins with.
fn first_word(form: &str) -> &str {
    form.split(' ').next().unwrap_or(form)
}

/// What is said of a line that is none of them.
pub(super) fn senseless(words: &[&str]) -> String {
    let line = quoted(&words.join(" "));
    let first = words.first().copied().unwrap_or("");
    if let Some(form) = FORMS.iter().find(|form| first_word(form) == first) {
        return format!("cannot make sense of {line}; its form is: {form}");
    }
    if let Some(way_out) = of_point(words) {
        return format!("cannot make sense of {line}: {way_out}");
    }
    let by_slips = FORMS
        .iter()
        .map(|form| (slips(first, first_word(form)), form));
    match by_slips.min_by_key(|&(slips, _)| slips) {
        Some((slips, form)) if slips <= most_slips(first) => {
            let meant = first_word(form);
            format!("cannot make sense of {line}: did you mean {meant}? its form is: {form}")
        }
        _ => {
            let all: Vec<&str> = FORMS.iter().map(|form| first_word(form)).collect();
            format!(
                "cannot make sense of {line}: a line is a point, as 0 0, or begins with {}",
                all.join(", ")
            )
        }
    }
}

/// What to do about a line that was meant for a point: two numbers, parted by a blank.
fn of_point(words: &[&str]) -> Option<String> {
    let line = words.join(" ");
    let numbers: Vec<&str> = line
        .split([',', ';', ' '])
        .filter(|word| !word.is_empty())
        .collect();
    let are_numbers = numbers
        .iter()
        .all(|number| number.parse::<f64>().is_ok_and(f64::is_finite));
    if !are_numbers {
        return None;
    }
    match (&numbers[..], words) {
        ([x, y], _) => Some(format!(
            "the numbers of a point are parted by a blank alone: {} {}",
            cut(x),
            cut(y)
        )),
        ([_], _) => Some("a point has two numbers, x and y".to_string()),
        _ => Some("a point has two numbers, x and y, and a line of its own".to_string()),
    }
}

/// How many slips a word of this length may have and still be known.
fn most_slips(word: &str) -> usize {
    match word.chars().count() {
        0..=2 => 0,
        3..=5 => 1,
        _ => 2,
    }
}

/// How many letters of a word are another, missing, or too many; two that changed places are one slip. Far too many of
/// words of which one is much the longer.
fn slips(word: &str, meant: &str) -> usize {
    let (word, meant): (Vec<char>, Vec<char>) = (
        word.to_lowercase().chars().take(20).collect(),
        meant.chars().collect(),
    );
    let mut rows: Vec<Vec<usize>> = vec![(0..=meant.len()).collect()];
    for (at, letter) in word.iter().enumerate() {
        let mut row = vec![at + 1];
        for (other, own) in meant.iter().enumerate() {
            let same = usize::from(letter != own);
            let mut least = (row[other] + 1)
                .min(rows[at][other + 1] + 1)
                .min(rows[at][other] + same);
            if at > 0 && other > 0 && word[at - 1] == *own && meant[other - 1] == *letter {
                least = least.min(rows[at - 1][other - 1] + 1);
            }
            row.push(least);
        }
        rows.push(row);
    }
    rows[word.len()][meant.len()]
}

#[cfg(test)]
mod tests {
    use super::slips;

    #[test]
    fn slips_are_counted() {
        for (word, meant, count) in [
            ("polygon", "polygon", 0),
            ("poligon", "polygon", 1),
            ("Polygon", "polygon", 0),
            ("ploygon", "polygon", 1),
            ("polygons", "polygon", 1),
            ("vai", "via", 1),
            ("", "via", 3),
        ] {
            assert_eq!(slips(word, meant), count, "{word}");
        }
    }
}
