//! Tables, and numbers as a reader wants them.

use std::fmt::Display;

use crate::markup::Markup;

/// A column: its heading, and the class of its cells.
pub struct Column {
    heading: &'static str,
    class: &'static str,
}

impl Column {
    /// A column of text.
    pub const fn text(heading: &'static str) -> Column {
        Column {
            heading,
            class: "text",
        }
    }

    /// A column of numbers.
    pub const fn number(heading: &'static str) -> Column {
        Column {
            heading,
            class: "number",
        }
    }

    /// A column of lines as they were read.
    pub const fn code(heading: &'static str) -> Column {
        Column {
            heading,
            class: "code",
        }
    }
}

/// Writes a table.
pub fn table<const N: usize>(
    out: &mut Markup,
    columns: [Column; N],
    rows: impl IntoIterator<Item = [String; N]>,
) {
    out.element("div", &[("class", &"scroll")], |out| {
        out.element("table", &[], |out| {
            out.element("thead", &[], |out| {
                out.element("tr", &[], |out| {
                    for Column { heading, class } in &columns {
                        out.leaf("th", &[("scope", &"col"), ("class", class)], heading);
                    }
                });
            });
            out.element("tbody", &[], |out| {
                for row in rows {
                    out.element("tr", &[], |out| {
                        for (Column { class, .. }, cell) in columns.iter().zip(row) {
                            out.leaf("td", &[("class", class)], cell);
                        }
                    });
                }
            });
        });
    });
}

/// Writes a paragraph.
pub fn paragraph(out: &mut Markup, words: impl Display) {
    out.leaf("p", &[], words);
}

/// Rising numbers, those behind each other as a stretch; `none` if there are
/// none.
pub fn stretches(numbers: &[usize]) -> String {
    let runs = numbers.chunk_by(|one, next| one + 1 == *next);
    let words: Vec<String> = runs
        .flat_map(|run| match run {
            [first, .., last] if run.len() > 2 => vec![format!("{first} to {last}")],
            _ => run.iter().map(usize::to_string).collect(),
        })
        .collect();
    match words.as_slice() {
        [] => "none".to_string(),
        _ => words.join(", "),
    }
}

#[cfg(test)]
mod tests {
    use super::stretches;

    #[test]
    fn three_numbers_make_a_stretch() {
        assert_eq!(stretches(&[]), "none");
        assert_eq!(stretches(&[4]), "4");
        assert_eq!(stretches(&[4, 5]), "4, 5");
        assert_eq!(stretches(&[0, 1, 2, 4, 6, 7, 8, 9]), "0 to 2, 4, 6 to 9");
    }
}
