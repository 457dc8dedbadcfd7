//! Reads JSON texts that are known to be valid: whole numbers of 64 bits, and strings without escapes.

#[derive(Debug)]
pub enum Json<'a> {
    Number(i64),
    Text(&'a str),
    List(Vec<Json<'a>>),
    Object(Vec<(&'a str, Json<'a>)>),
}

struct Reader<'a> {
    text: &'a str,
    at: usize,
}

impl<'a> Json<'a> {
    pub fn read(text: &'a str) -> Json<'a> {
        Reader { text, at: 0 }.value()
    }

    pub fn find(&self, key: &str) -> Option<&Json<'a>> {
        match self {
            Json::Object(members) => members
                .iter()
                .find_map(|(name, value)| (*name == key).then(|| value)),
            _ => None,
        }
    }

    pub fn get(&self, key: &str) -> &Json<'a> {
        self.find(key).unwrap_or_else(|| panic!("no {key}"))
    }

    pub fn number(&self) -> i64 {
        match self {
            Json::Number(number) => *number,
            other => panic!("{other:?} is no number"),
        }
    }

    pub fn text(&self) -> &str {
        match self {
            Json::Text(text) => text,
            other => panic!("{other:?} is no text"),
        }
    }

    pub fn list(&self) -> &[Json<'a>] {
        match self {
            Json::List(items) => items,
            other => panic!("{other:?} is no list"),
        }
    }

    pub fn numbers(&self) -> Vec<i64> {
        self.list().iter().map(Json::number).collect()
    }
}

impl<'a> Reader<'a> {
    /// Returns the next byte that is not a space.
    fn peek(&mut self) -> u8 {
        let bytes = self.text.as_bytes();
        while bytes[self.at].is_ascii_whitespace() {
            self.at += 1;
        }
        bytes[self.at]
    }

    fn take(&mut self, byte: u8) -> bool {
        let is_next = self.peek() == byte;
        if is_next {
            self.at += 1;
        }
        is_next
    }

    /// Takes the text from here on whose bytes pass the test.
    fn take_while(&mut self, is_so: impl Fn(u8) -> bool) -> &'a str {
        let rest = &self.text[self.at..];
        let length = rest.bytes().take_while(|byte| is_so(*byte)).count();
        self.at += length;
        &rest[..length]
    }

    fn value(&mut self) -> Json<'a> {
        match self.peek() {
            b'{' => Json::Object(self.items(b'{', b'}', |reader| {
                let key = reader.string();
                reader.take(b':');
                (key, reader.value())
            })),
            b'[' => Json::List(self.items(b'[', b']', Reader::value)),
            b'"' => Json::Text(self.string()),
            _ => {
                let digits = self.take_while(|byte| byte == b'-' || byte.is_ascii_digit());
                Json::Number(digits.parse().expect("a whole number"))
            }
        }
    }

    fn items<T>(&mut self, open: u8, close: u8, item: impl Fn(&mut Self) -> T) -> Vec<T> {
        let mut items = Vec::new();
        self.take(open);
        while !self.take(close) {
            items.push(item(self));
            self.take(b',');
        }
        items
    }

    fn string(&mut self) -> &'a str {
        self.take(b'"');
        let text = self.take_while(|byte| byte != b'"');
        self.take(b'"');
        text
    }
}
