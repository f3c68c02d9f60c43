//! Answers as objects of JSON, for programs.

/// A name and its value.
pub struct Field {
    name: &'static str,
    value: String,
}

impl Field {
    pub fn number(name: &'static str, value: usize) -> Field {
        Field { name, value: value.to_string() }
    }

    /// A time, to the microsecond.
    pub fn seconds(name: &'static str, value: f64) -> Field {
        Field { name, value: format!("{value:.6}") }
    }

    pub fn flag(name: &'static str, value: bool) -> Field {
        Field { name, value: value.to_string() }
    }

    pub fn text(name: &'static str, value: &str) -> Field {
        Field { name, value: quoted(value) }
    }

    pub fn texts(name: &'static str, values: &[String]) -> Field {
        Field::list(name, values.iter().map(|value| quoted(value)))
    }

    pub fn objects(name: &'static str, values: impl Iterator<Item = Vec<Field>>) -> Field {
        Field::list(name, values.map(|fields| inner(&fields)))
    }

    pub fn numbers(name: &'static str, values: impl IntoIterator<Item = usize>) -> Field {
        Field::list(name, values.into_iter().map(|value| value.to_string()))
    }

    /// A list of values that are JSON already.
    pub fn list(name: &'static str, values: impl Iterator<Item = String>) -> Field {
        let values: Vec<String> = values.collect();
        Field { name, value: format!("[{}]", values.join(",")) }
    }
}

/// The object of these fields, in a line.
pub fn object(fields: &[Field]) -> String {
    inner(fields) + "\n"
}

fn inner(fields: &[Field]) -> String {
    let pairs: Vec<String> =
        fields.iter().map(|Field { name, value }| format!("{}:{value}", quoted(name))).collect();
    format!("{{{}}}", pairs.join(","))
}

fn quoted(text: &str) -> String {
    let mut quoted = String::from("\"");
    for letter in text.chars() {
        match letter {
            '"' | '\\' => quoted.extend(['\\', letter]),
            _ if letter < ' ' => quoted += &format!("\\u{:04x}", u32::from(letter)),
            _ => quoted.push(letter),
        }
    }
    quoted + "\""
}
