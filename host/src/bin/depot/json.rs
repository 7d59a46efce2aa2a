//! JSON text.

/// A text in quotes.
pub fn text(text: &str) -> String {
    let mut quoted = String::from("\"");
    for c in text.chars() {
        match c {
            '"' | '\\' => quoted.extend(['\\', c]),
            '\n' => quoted.push_str("\\n"),
            c if c < ' ' => quoted.push_str(&format!("\\u{:04x}", c as u32)),
            c => quoted.push(c),
        }
    }
    quoted + "\""
}

/// An object of names and values that are JSON already.
pub fn object(members: &[(&str, String)]) -> String {
    let members: Vec<String> = members.iter().map(|(name, value)| format!("{}: {value}", text(name))).collect();
    format!("{{{}}}", members.join(", "))
}

/// A list of values that are JSON already.
pub fn list(values: impl IntoIterator<Item = String>) -> String {
    format!("[{}]", values.into_iter().collect::<Vec<_>>().join(", "))
}

/// A list of numbers.
pub fn numbers<T: ToString>(values: &[T]) -> String {
    list(values.iter().map(T::to_string))
}

/// A refusal, in numbers and in words.
pub fn refusal(refusal: depot_host::Refusal) -> String {
    object(&refusal_members(refusal))
}

pub fn refusal_members(refusal: depot_host::Refusal) -> [(&'static str, String); 2] {
    [("refused", refusal.number().to_string()), ("why", text(&refusal.to_string()))]
}

#[test]
fn texts_are_quoted() {
    assert_eq!(text("a\"b\\c\n\u{1}"), r#""a\"b\\c\n\u0001""#);
    assert_eq!(object(&[("a", numbers(&[1, 2])), ("b", list([text("x")]))]), r#"{"a": [1, 2], "b": ["x"]}"#);
}
