//! JSON, as the list of cases has it: numbers are whole, and as wide as they like, so they stay as their digits.
use std::collections::BTreeMap;
use std::iter::Peekable;
use std::str::Chars;

#[derive(Clone, Debug, PartialEq, Eq)]
pub enum Json {
    Null,
    Truth(bool),
    Number(String),
    Text(String),
    List(Vec<Json>),
    Fields(BTreeMap<String, Json>),
}

impl Json {
    pub fn number(number: impl ToString) -> Json {
        Json::Number(number.to_string())
    }

    pub fn fields<const N: usize>(fields: [(&str, Json); N]) -> Json {
        let named = fields.map(|(name, value)| (name.to_owned(), value));
        Json::Fields(named.into_iter().collect())
    }

    /// The field of a name, where there is one.
    pub fn find(&self, name: &str) -> Option<&Json> {
        match self {
            Json::Fields(fields) => fields.get(name),
            _ => None,
        }
    }

    pub fn get(&self, name: &str) -> &Json {
        self.find(name)
            .unwrap_or_else(|| panic!("there is no {name} in {self:?}"))
    }

    pub fn list(&self) -> &[Json] {
        match self {
            Json::List(list) => list,
            other => panic!("{other:?} is no list"),
        }
    }

    pub fn text(&self) -> &str {
        match self {
            Json::Text(text) | Json::Number(text) => text,
            other => panic!("{other:?} is no text"),
        }
    }

    pub fn read(text: &str) -> Json {
        value(&mut text.chars().peekable())
    }
}

type Rest<'a> = Peekable<Chars<'a>>;

fn takes(rest: &mut Rest, wanted: char) -> bool {
    while rest.next_if(|letter| letter.is_whitespace()).is_some() {}
    rest.next_if_eq(&wanted).is_some()
}

fn wants(rest: &mut Rest, wanted: char) {
    assert!(takes(rest, wanted), "{wanted} is wanting");
}

fn text(rest: &mut Rest) -> String {
    let mut made = String::new();
    loop {
        match rest.next().expect("a text ends") {
            '"' => return made,
            '\\' => made.push(escaped(rest)),
            other => made.push(other),
        }
    }
}

fn escaped(rest: &mut Rest) -> char {
    match rest.next().expect("an escape ends") {
        'n' => '\n',
        't' => '\t',
        'r' => '\r',
        'u' => {
            let digits: String = rest.by_ref().take(4).collect();
            let code = u32::from_str_radix(&digits, 16).expect("four digits");
            char::from_u32(code).expect("a character")
        }
        other => other,
    }
}

fn value(rest: &mut Rest) -> Json {
    if takes(rest, '{') {
        return fields(rest);
    }
    if takes(rest, '[') {
        return list(rest);
    }
    if takes(rest, '"') {
        return Json::Text(text(rest));
    }
    let mut word = String::new();
    while let Some(one) = rest.next_if(|letter| letter.is_alphanumeric() || *letter == '-') {
        word.push(one);
    }
    match word.as_str() {
        "true" => Json::Truth(true),
        "false" => Json::Truth(false),
        "null" => Json::Null,
        _ => Json::Number(word),
    }
}

fn fields(rest: &mut Rest) -> Json {
    let mut made = BTreeMap::new();
    if takes(rest, '}') {
        return Json::Fields(made);
    }
    loop {
        wants(rest, '"');
        let key = text(rest);
        wants(rest, ':');
        made.insert(key, value(rest));
        if !takes(rest, ',') {
            wants(rest, '}');
            return Json::Fields(made);
        }
    }
}

fn list(rest: &mut Rest) -> Json {
    let mut made = Vec::new();
    if takes(rest, ']') {
        return Json::List(made);
    }
    loop {
        made.push(value(rest));
        if !takes(rest, ',') {
            wants(rest, ']');
            return Json::List(made);
        }
    }
}
