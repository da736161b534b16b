//! Reads a line of JSON, as far as `follow` writes it.
use crate::fail::fail;

#[derive(Clone, Debug, PartialEq)]
pub enum Json {
    Null,
    True,
    False,
    Number(i64),
    Text(String),
    List(Vec<Json>),
    Object(Vec<(String, Json)>),
}

struct Reader<'a> {
    line: &'a str,
    rest: &'a str,
}

/// The value that a line holds, and nothing else.
pub fn read(line: &str) -> Json {
    let mut reader = Reader { line, rest: line };
    let value = reader.value();
    if !reader.rest.is_empty() {
        reader.wrong();
    }
    value
}

impl Json {
    /// A member that must be there.
    pub fn get(&self, name: &str) -> &Json {
        self.find(name).unwrap_or_else(|| fail(&format!("no {name} in {self:?}")))
    }

    pub fn find(&self, name: &str) -> Option<&Json> {
        match self {
            Json::Object(members) => members.iter().find(|member| member.0 == name).map(|member| &member.1),
            _ => fail(&format!("no object: {self:?}")),
        }
    }

    pub fn text(&self) -> &str {
        match self {
            Json::Text(text) => text,
            _ => fail(&format!("no text: {self:?}")),
        }
    }

    pub fn number(&self) -> i64 {
        match self {
            Json::Number(number) => *number,
            _ => fail(&format!("no number: {self:?}")),
        }
    }

    pub fn list(&self) -> &[Json] {
        match self {
            Json::List(list) => list,
            _ => fail(&format!("no list: {self:?}")),
        }
    }

    /// Bytes in hexadecimal digits.
    #[allow(dead_code, reason = "not every program has bytes")]
    pub fn bytes(&self) -> Vec<u8> {
        let digits = self.text();
        (0..digits.len() / 2).map(|i| u8::from_str_radix(&digits[2 * i..2 * i + 2], 16).expect("hexadecimal digits")).collect()
    }
}

impl<'a> Reader<'a> {
    fn wrong(&self) -> ! {
        fail(&format!("no JSON at {:?} of {:?}", self.rest, self.line))
    }

    fn takes(&mut self, text: &str) -> bool {
        let rest = self.rest.strip_prefix(text);
        self.rest = rest.unwrap_or(self.rest);
        rest.is_some()
    }

    fn must(&mut self, text: &str) {
        if !self.takes(text) {
            self.wrong();
        }
    }

    fn value(&mut self) -> Json {
        for (text, value) in [("null", Json::Null), ("true", Json::True), ("false", Json::False)] {
            if self.takes(text) {
                return value;
            }
        }
        match self.rest.chars().next() {
            Some('"') => Json::Text(self.string()),
            Some('[') => Json::List(self.items("[", "]", Reader::value)),
            Some('{') => Json::Object(self.items("{", "}", |reader| {
                let name = reader.string();
                reader.must(":");
                (name, reader.value())
            })),
            _ => {
                let end = self.rest.find(|c: char| c != '-' && !c.is_ascii_digit()).unwrap_or(self.rest.len());
                let number = self.rest[..end].parse().unwrap_or_else(|_| self.wrong());
                self.rest = &self.rest[end..];
                Json::Number(number)
            }
        }
    }

    fn items<T>(&mut self, open: &str, close: &str, item: impl Fn(&mut Self) -> T) -> Vec<T> {
        let mut items = Vec::new();
        self.must(open);
        while !self.takes(close) {
            if !items.is_empty() {
                self.must(",");
            }
            items.push(item(self));
        }
        items
    }

    fn string(&mut self) -> String {
        let mut text = String::new();
        self.must("\"");
        while !self.takes("\"") {
            let c = self.rest.chars().next().unwrap_or_else(|| self.wrong());
            self.rest = &self.rest[c.len_utf8()..];
            match c {
                '\\' => text.push(self.escape()),
                c if c < ' ' => self.wrong(),
                c => text.push(c),
            }
        }
        text
    }

    fn escape(&mut self) -> char {
        for (text, c) in [("\"", '"'), ("\\", '\\'), ("n", '\n')] {
            if self.takes(text) {
                return c;
            }
        }
        self.must("u");
        let digits = self.rest.get(..4).unwrap_or_else(|| self.wrong());
        self.rest = &self.rest[4..];
        u32::from_str_radix(digits, 16).ok().and_then(char::from_u32).unwrap_or_else(|| self.wrong())
    }
}
