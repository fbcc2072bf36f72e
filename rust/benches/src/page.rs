//! The page that has the tables.

use std::fs;

/// Puts a table where the one before it stands: below its heading, from what that was taken on to the next heading.
pub fn write(page: &str, heading: &str, table: &str, taken: &str) {
    let text = fs::read_to_string(page).expect("the page is there");
    let heading = format!("\n{heading}\n");
    let below = text.find(&heading).expect("the page has the heading") + heading.len();
    let (above, section) = text.split_at(below);
    let (section, rest) = section.split_at(section.find("\n## ").unwrap_or(section.len()));
    let kept = section.find("\nMeasured at commit ").expect("the page says when it was measured");
    let (kept, lines) = (&section[..kept], wrapped(taken));
    fs::write(page, format!("{above}{kept}\n{lines}\n{table}{rest}"))
        .expect("the page can be written");
}

fn wrapped(text: &str) -> String {
    let mut lines = String::new();
    let mut width = 0;
    for word in text.split(' ') {
        if width + word.len() > 118 {
            lines.push('\n');
            width = 0;
        } else if width > 0 {
            lines.push(' ');
        }
        lines.push_str(word);
        width += word.len() + 1;
    }
    lines.push('\n');
    lines
}
