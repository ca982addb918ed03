//! JSON objects, one a line.

/// An object under construction, its fields in the order they were given.
#[derive(Default)]
pub struct Object(String);

impl Object {
    pub fn new() -> Object {
        Object::default()
    }

    fn key(&mut self, key: &str) {
        if !self.0.is_empty() {
            self.0.push(',');
        }
        push_text(&mut self.0, key);
        self.0.push(':');
    }

    pub fn text(mut self, key: &str, value: &str) -> Object {
        self.key(key);
        push_text(&mut self.0, value);
        self
    }

    /// Bytes that are text as a rule. Where they are not, the text has replacement marks, and the field `KEY_hex` has the bytes.
    pub fn bytes(self, key: &str, value: &[u8]) -> Object {
        let with_text = self.text(key, &String::from_utf8_lossy(value));
        if std::str::from_utf8(value).is_ok() {
            return with_text;
        }
        with_text.text(&format!("{key}_hex"), &hex(value))
    }

    pub fn number(mut self, key: &str, value: impl Into<u64>) -> Object {
        self.key(key);
        self.0.push_str(&value.into().to_string());
        self
    }

    pub fn flag(mut self, key: &str, value: bool) -> Object {
        self.key(key);
        self.0.push_str(if value { "true" } else { "false" });
        self
    }

    /// The object on one line.
    pub fn line(&self) -> String {
        format!("{{{}}}", self.0)
    }
}

/// Two small digits a byte.
pub fn hex(bytes: &[u8]) -> String {
    bytes.iter().map(|byte| format!("{byte:02x}")).collect()
}

fn push_text(line: &mut String, value: &str) {
    line.push('"');
    for c in value.chars() {
        match c {
            '"' => line.push_str("\\\""),
            '\\' => line.push_str("\\\\"),
            '\n' => line.push_str("\\n"),
            // More than JSON asks: a terminal obeys those above 0x7F, too.
            c if c.is_control() => line.push_str(&format!("\\u{:04x}", c as u32)),
            c => line.push(c),
        }
    }
    line.push('"');
}

#[cfg(test)]
mod tests {
    use super::*;

    #[test]
    fn fields_keep_their_order_and_odd_bytes_are_escaped() {
        let object = Object::new().text("a", "x\"\\\n\u{1}\u{80}").number("n", 7u32).flag("f", true).bytes("b", b"\xff!");
        assert_eq!(
            object.line(),
            "{\"a\":\"x\\\"\\\\\\n\\u0001\\u0080\",\"n\":7,\"f\":true,\"b\":\"\u{fffd}!\",\"b_hex\":\"ff21\"}"
        );
    }
}
