//! Text in SVG and HTML.

/// The text with the signs that markup uses written as entities, and every second of several spaces as one that is not left out.
pub fn escaped(text: &str) -> String {
    let mut safe = String::with_capacity(text.len());
    for c in text.chars() {
        match c {
            '&' => safe.push_str("&amp;"),
            '<' => safe.push_str("&lt;"),
            '>' => safe.push_str("&gt;"),
            '"' => safe.push_str("&quot;"),
            '\'' => safe.push_str("&#39;"),
            ' ' if safe.ends_with(' ') => safe.push('\u{a0}'),
            c => safe.push(c),
        }
    }
    safe
}

#[test]
fn no_sign_of_markup_is_left() {
    assert_eq!(escaped("<a href='x'>&\"b"), "&lt;a href=&#39;x&#39;&gt;&amp;&quot;b");
    assert_eq!(escaped("N  9   B 1"), "N \u{a0}9 \u{a0} B 1");
}
