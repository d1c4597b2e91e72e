//! JSON, as much of it as answers need: an object on one line.
use std::fmt::Write;

/// A text as JSON's string.
pub fn string(text: &str) -> String {
    let mut json = String::from("\"");
    for c in text.chars() {
        match c {
            '"' => json.push_str("\\\""),
            '\\' => json.push_str("\\\\"),
            c if c < ' ' => {
                let _ = write!(json, "\\u{:04x}", u32::from(c));
            }
            c => json.push(c),
        }
    }
    json.push('"');
    json
}

/// An object of keys and values that are JSON already.
pub fn object(fields: &[(&str, String)]) -> String {
    let fields: Vec<String> = fields.iter().map(|(key, value)| format!("{}:{value}", string(key))).collect();
    format!("{{{}}}", fields.join(","))
}

/// An array of values that are JSON already.
pub fn array(values: &[String]) -> String {
    format!("[{}]", values.join(","))
}

#[cfg(test)]
mod tests {
    use super::{array, object, string};

    #[test]
    fn escapes_what_must_be() {
        assert_eq!(string("a\"b\\c\n\u{1}é"), "\"a\\\"b\\\\c\\u000a\\u0001é\"");
    }

    #[test]
    fn puts_values_together() {
        let fields = [("line", "3".to_string()), ("of", array(&["1".to_string(), string("x")]))];
        assert_eq!(object(&fields), "{\"line\":3,\"of\":[1,\"x\"]}");
        assert_eq!(object(&[]), "{}");
    }
}
