//! Reads JSON, so that the tests need no other crate.

use std::iter::Peekable;
use std::str::Chars;

#[derive(Clone, Debug, PartialEq)]
pub enum Json {
    Null,
    Boolean(bool),
    Number(usize),
    Text(String),
    List(Vec<Json>),
    Object(Vec<(String, Json)>),
}

impl Json {
    pub fn read(text: &str) -> Json {
        let mut rest = text.chars().peekable();
        let value = read_value(&mut rest);
        skip_blanks(&mut rest);
        assert_eq!(rest.next(), None);
        value
    }

    pub fn get(&self, key: &str) -> Option<&Json> {
        match self {
            Json::Object(members) => members.iter().find(|(name, _)| name == key).map(|(_, value)| value),
            _ => None,
        }
    }

    pub fn at(&self, key: &str) -> &Json {
        self.get(key).unwrap_or_else(|| panic!("no key {key}"))
    }

    pub fn text(&self) -> &str {
        match self {
            Json::Text(text) => text,
            other => panic!("{other:?} is no text"),
        }
    }

    pub fn list(&self) -> &[Json] {
        match self {
            Json::List(items) => items,
            other => panic!("{other:?} is no list"),
        }
    }

    pub fn boolean(&self) -> bool {
        *self == Json::Boolean(true)
    }

    pub fn number(&self) -> usize {
        match self {
            Json::Number(number) => *number,
            other => panic!("{other:?} is no number"),
        }
    }

    /// Writes the value again.
    pub fn write(&self) -> String {
        match self {
            Json::Null => "null".to_owned(),
            Json::Boolean(value) => value.to_string(),
            Json::Number(number) => number.to_string(),
            Json::Text(text) => quoted(text),
            Json::List(items) => format!("[{}]", items.iter().map(Json::write).collect::<Vec<_>>().join(",")),
            Json::Object(members) => {
                let members: Vec<String> =
                    members.iter().map(|(name, value)| format!("{}:{}", quoted(name), value.write())).collect();
                format!("{{{}}}", members.join(","))
            }
        }
    }
}

fn quoted(text: &str) -> String {
    format!("\"{}\"", text.replace('\\', "\\\\").replace('"', "\\\""))
}

fn skip_blanks(rest: &mut Peekable<Chars<'_>>) {
    while rest.next_if(|c| c.is_ascii_whitespace()).is_some() {}
}

fn read_value(rest: &mut Peekable<Chars<'_>>) -> Json {
    skip_blanks(rest);
    match *rest.peek().expect("a value") {
        '{' => Json::Object(read_items(rest, '}', |rest| {
            let name = read_text(rest);
            skip_blanks(rest);
            assert_eq!(rest.next(), Some(':'));
            (name, read_value(rest))
        })),
        '[' => Json::List(read_items(rest, ']', read_value)),
        '"' => Json::Text(read_text(rest)),
        _ => read_word(rest),
    }
}

fn read_items<T>(rest: &mut Peekable<Chars<'_>>, close: char, item: impl Fn(&mut Peekable<Chars<'_>>) -> T) -> Vec<T> {
    rest.next();
    let mut items = Vec::new();
    skip_blanks(rest);
    if rest.next_if_eq(&close).is_some() {
        return items;
    }
    loop {
        skip_blanks(rest);
        items.push(item(rest));
        skip_blanks(rest);
        match rest.next() {
            Some(',') => {}
            end => {
                assert_eq!(end, Some(close));
                return items;
            }
        }
    }
}

fn read_text(rest: &mut Peekable<Chars<'_>>) -> String {
    assert_eq!(rest.next(), Some('"'));
    let mut text = String::new();
    loop {
        match rest.next().expect("a closing quote") {
            '"' => return text,
            '\\' => text.push(match rest.next().expect("an escape") {
                'n' => '\n',
                'r' => '\r',
                't' => '\t',
                c => c,
            }),
            c => text.push(c),
        }
    }
}

fn read_word(rest: &mut Peekable<Chars<'_>>) -> Json {
    let mut word = String::new();
    while let Some(c) = rest.next_if(|c| c.is_ascii_alphanumeric()) {
        word.push(c);
    }
    match word.as_str() {
        "null" => Json::Null,
        "true" => Json::Boolean(true),
        "false" => Json::Boolean(false),
        number => Json::Number(number.parse().expect("a number")),
    }
}
