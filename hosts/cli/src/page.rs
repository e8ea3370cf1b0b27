//! A page that holds a multi-size file and shows it at every width, with nothing
//! loaded from elsewhere.

mod base64;

use multisize::png;

const TEMPLATE: &str = include_str!("page/page.html");
const STYLE: &str = include_str!("page/page.css");
const READER: &str = include_str!("page/reader.js");
const PNG: &str = include_str!("page/png.js");
const VIEW: &str = include_str!("page/view.js");

/// What stands around the name of a part in the template.
const MARK: &str = "@@";

/// The page of a file that was accepted. What is saved from it is named by the name.
pub fn page(title: &str, name: &str, file: &[u8]) -> String {
    let (title, name) = (escaped(title), escaped(name));
    let data = base64::lines(&png::zlib(file));
    let parts = [
        ("title", title.as_str()),
        ("name", &name),
        ("style", STYLE),
        ("data", &data),
        ("reader", READER),
        ("png", PNG),
        ("view", VIEW),
    ];
    filled(TEMPLATE, &parts)
}

/// The template with each marked name replaced by its part. Parts aren't searched
/// for marks.
fn filled(template: &str, parts: &[(&str, &str)]) -> String {
    let mut pieces = template.split(MARK);
    let mut text = pieces.next().unwrap_or_default().to_string();
    while let Some(name) = pieces.next() {
        let part = parts.iter().find(|(other, _)| *other == name);
        text += part.expect("the template names the parts that there are").1;
        text += pieces.next().expect("each name has a mark at both ends");
    }
    text
}

/// A text as HTML shows it, also inside quotes.
fn escaped(text: &str) -> String {
    let mut given = String::new();
    for letter in text.chars() {
        match letter {
            '&' => given += "&amp;",
            '<' => given += "&lt;",
            '>' => given += "&gt;",
            '"' => given += "&quot;",
            '\'' => given += "&#39;",
            other => given.push(other),
        }
    }
    given
}

#[cfg(test)]
mod tests {
    use super::*;
    use multisize::Energy;

    #[test]
    fn the_reader_knows_each_energy() {
        let words = Energy::ALL.iter().map(|energy| energy.word());
        let words: Vec<String> = words.map(|word| format!("\"{word}\"")).collect();
        let known = format!("const ENERGIES = [{}];", words.join(", "));
        assert!(READER.contains(&known));
    }

    #[test]
    fn each_part_stands_in_the_page() {
        let page = page("a < b & c", "n", b"(multi\n");
        for part in [STYLE, READER, PNG, VIEW] {
            assert_eq!(page.matches(part).count(), 1);
        }
        assert!(page.contains("<h1>a &lt; b &amp; c</h1>"));
        assert!(!page.contains(MARK));
    }

    #[test]
    fn a_part_with_a_mark_is_left_as_it_is() {
        let text = filled("1 @@a@@ 2 @@b@@ 3", &[("a", "@@b@@"), ("b", "x")]);
        assert_eq!(text, "1 @@b@@ 2 x 3");
    }

    #[test]
    fn no_part_ends_its_element() {
        for part in [STYLE, READER, PNG, VIEW] {
            let part = part.to_ascii_lowercase();
            assert!(!["</script", "</style", "<!--"]
                .iter()
                .any(|end| part.contains(end)));
        }
    }

    #[test]
    fn nothing_is_loaded_from_elsewhere() {
        for part in [TEMPLATE, STYLE, READER, PNG, VIEW] {
            let loads = [
                "http:", "https:", "src=", "href=", "url(", "@import", "import(", "fetch(",
            ];
            assert!(!loads.iter().any(|word| part.contains(word)));
        }
    }
}
