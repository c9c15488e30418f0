//! As much of JSON as the files of published vectors use: objects, lists and strings without escapes.

use std::collections::HashMap;

pub enum Value {
    Text(String),
    List(Vec<Value>),
    Object(HashMap<String, Value>),
}

impl Value {
    /// A field's text, if this is an object that has it.
    pub fn text(&self, field: &str) -> Option<&str> {
        match self {
            Value::Object(fields) => match fields.get(field)? {
                Value::Text(text) => Some(text),
                _ => None,
            },
            _ => None,
        }
    }
}

/// The list of objects in a file, or where it stops making sense.
pub fn list(text: &str) -> Result<Vec<Value>, String> {
    let mut reader = Reader { text, at: 0 };
    match reader.value()? {
        Value::List(items) => Ok(items),
        _ => Err("not a list".into()),
    }
}

struct Reader<'a> {
    text: &'a str,
    at: usize,
}

impl Reader<'_> {
    fn peek(&mut self) -> Option<u8> {
        let rest = &self.text[self.at..];
        self.at += rest.len() - rest.trim_start().len();
        self.text.as_bytes().get(self.at).copied()
    }

    fn take(&mut self, byte: u8) -> Result<(), String> {
        if self.peek() != Some(byte) {
            return Err(format!("no {:?} at byte {}", byte as char, self.at));
        }
        self.at += 1;
        Ok(())
    }

    fn string(&mut self) -> Result<String, String> {
        self.take(b'"')?;
        let rest = &self.text[self.at..];
        let end = rest.find('"').ok_or("a string without an end")?;
        self.at += end + 1;
        Ok(rest[..end].to_string())
    }

    /// `open`, items with commas between, `close`.
    fn items<T>(&mut self, open: u8, close: u8, mut item: impl FnMut(&mut Self) -> Result<T, String>) -> Result<Vec<T>, String> {
        self.take(open)?;
        let mut items = vec![];
        while self.peek() != Some(close) {
            if !items.is_empty() {
                self.take(b',')?;
            }
            items.push(item(self)?);
        }
        self.take(close)?;
        Ok(items)
    }

    fn value(&mut self) -> Result<Value, String> {
        match self.peek() {
            Some(b'"') => Ok(Value::Text(self.string()?)),
            Some(b'[') => Ok(Value::List(self.items(b'[', b']', Self::value)?)),
            Some(b'{') => {
                let fields = self.items(b'{', b'}', |r| {
                    let name = r.string()?;
                    r.take(b':')?;
                    Ok((name, r.value()?))
                })?;
                Ok(Value::Object(fields.into_iter().collect()))
            }
            _ => Err(format!("no value at byte {}", self.at)),
        }
    }
}
