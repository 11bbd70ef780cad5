//! HTML: what a book says goes in as text, never as markup.

/// A text with what markup is made of written out.
pub fn escaped(text: &str) -> String {
    let mut written = String::with_capacity(text.len());
    for letter in text.chars() {
        match letter {
            '&' => written += "&amp;",
            '<' => written += "&lt;",
            '>' => written += "&gt;",
            '"' => written += "&quot;",
            '\'' => written += "&#39;",
            _ => written.push(letter),
        }
    }
    written
}

/// A name; letters that run from right to left stay within it.
pub fn name(text: &str) -> String {
    format!("<bdi>{}</bdi>", escaped(text))
}

/// A list whose items stay whole where it goes on in the next line.
pub fn list(text: &str) -> String {
    let items: Vec<String> =
        text.split(", ").map(|item| format!("<span>{}", escaped(item))).collect();
    items.join(",</span> ") + "</span>"
}

#[cfg(test)]
mod tests {
    use super::*;

    #[test]
    fn markup_becomes_text() {
        assert_eq!(
            escaped("<img src=x onerror='a'> & \"b\""),
            "&lt;img src=x onerror=&#39;a&#39;&gt; &amp; &quot;b&quot;"
        );
        assert_eq!(name("lamp-7"), "<bdi>lamp-7</bdi>");
        assert_eq!(list("2000-2002, 2005"), "<span>2000-2002,</span> <span>2005</span>");
    }
}
