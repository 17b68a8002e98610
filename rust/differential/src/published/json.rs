//! The documents of a published suite in JSON: every string that an object
//! has as its `markdown`.

use std::{iter::Peekable, str::Chars};

/// How deep arrays and objects may be in each other.
const DEEPEST: usize = 100;

/// The documents, in the order of the file.
///
/// # Errors
///
/// Where the file is no JSON.
pub fn documents(json: &str) -> Result<Vec<String>, String> {
    let mut reader = Reader {
        rest: json.chars().peekable(),
        found: Vec::new(),
    };
    reader.value(0)?;
    match reader.next_mark() {
        None => Ok(reader.found),
        Some(mark) => Err(format!("{mark:?} behind the end")),
    }
}

struct Reader<'j> {
    rest: Peekable<Chars<'j>>,
    found: Vec<String>,
}

impl Reader<'_> {
    /// The next character that is no white space; it stays.
    fn next_mark(&mut self) -> Option<char> {
        while self
            .rest
            .next_if(|char| " \t\r\n".contains(*char))
            .is_some()
        {}
        self.rest.peek().copied()
    }

    /// Takes the next character where it is this one.
    fn takes(&mut self, mark: char) -> bool {
        self.next_mark() == Some(mark) && self.rest.next().is_some()
    }

    fn expect(&mut self, mark: char) -> Result<(), String> {
        match self.takes(mark) {
            true => Ok(()),
            false => Err(format!("{mark:?} is missing before {:?}", self.rest.peek())),
        }
    }

    /// Any value; its text where it is a string.
    fn value(&mut self, depth: usize) -> Result<Option<String>, String> {
        if depth > DEEPEST {
            return Err("too deep".into());
        }
        match self.next_mark() {
            Some('{') => self.object(depth).map(|()| None),
            Some('[') => self.array(depth).map(|()| None),
            Some('"') => self.string().map(Some),
            _ => self.word().map(|()| None),
        }
    }

    fn object(&mut self, depth: usize) -> Result<(), String> {
        self.expect('{')?;
        if self.takes('}') {
            return Ok(());
        }
        loop {
            let name = self.string()?;
            self.expect(':')?;
            let value = self.value(depth + 1)?;
            self.found.extend(value.filter(|_| name == "markdown"));
            if !self.takes(',') {
                return self.expect('}');
            }
        }
    }

    fn array(&mut self, depth: usize) -> Result<(), String> {
        self.expect('[')?;
        if self.takes(']') {
            return Ok(());
        }
        loop {
            self.value(depth + 1)?;
            if !self.takes(',') {
                return self.expect(']');
            }
        }
    }

    /// A number, `true`, `false` or `null`.
    fn word(&mut self) -> Result<(), String> {
        let mut word = String::new();
        while let Some(char) = self
            .rest
            .next_if(|char| char.is_ascii_alphanumeric() || "+-.".contains(*char))
        {
            word.push(char);
        }
        let digits = word.strip_prefix('-').unwrap_or(&word);
        let number = digits.starts_with(|char: char| char.is_ascii_digit());
        match word.as_str() {
            "true" | "false" | "null" => Ok(()),
            _ if number && word.parse::<f64>().is_ok() => Ok(()),
            _ => Err(format!("{word:?} is no value")),
        }
    }

    fn string(&mut self) -> Result<String, String> {
        self.expect('"')?;
        let mut string = String::new();
        loop {
            match self.rest.next().ok_or("a string is not closed")? {
                '"' => return Ok(string),
                '\\' => string.push(self.escape()?),
                char if char < ' ' => return Err(format!("{char:?} in a string")),
                char => string.push(char),
            }
        }
    }

    /// The character that is written behind a backslash.
    fn escape(&mut self) -> Result<char, String> {
        Ok(match self.rest.next() {
            Some(char @ ('"' | '\\' | '/')) => char,
            Some('b') => '\u{8}',
            Some('f') => '\u{c}',
            Some('n') => '\n',
            Some('r') => '\r',
            Some('t') => '\t',
            Some('u') => return self.utf16(),
            other => return Err(format!("{other:?} behind a backslash")),
        })
    }

    /// A character as one unit of UTF-16 or as two, each of four digits.
    fn utf16(&mut self) -> Result<char, String> {
        let first = self.unit()?;
        let mut units = vec![first];
        if (0xD800..0xDC00).contains(&first) {
            let begins = self.rest.next() == Some('\\') && self.rest.next() == Some('u');
            units.push(if begins { self.unit()? } else { 0 });
        }
        String::from_utf16(&units)
            .ok()
            .and_then(|string| string.chars().next())
            .ok_or_else(|| format!("{units:x?} is no character"))
    }

    fn unit(&mut self) -> Result<u16, String> {
        let digits: String = self.rest.by_ref().take(4).collect();
        let all = digits.len() == 4 && digits.chars().all(|char| char.is_ascii_hexdigit());
        let unit = u16::from_str_radix(&digits, 16).ok().filter(|_| all);
        unit.ok_or_else(|| format!("{digits:?} is no number of four digits"))
    }
}

#[cfg(test)]
mod tests {
    use super::*;

    #[test]
    fn published() {
        let json = r##"
            [
              {"markdown": "# a\n\tb\r\n", "html": "<h1>", "example": 1, "options": []},
              {"example": 2.5e-3, "markdown": "\"\\\/\b\f\u00e9\ud83c\udfacé"},
              {"markdown": null, "nested": {"markdown": "", "deep": [{"markdown": "x"}, true, false]}},
              {"html": "markdown", "Markdown": "not this"}
            ]
        "##;
        let found = documents(json).unwrap();
        assert_eq!(found, ["# a\n\tb\r\n", "\"\\/\u{8}\u{c}é🎬é", "", "x"]);
        assert_eq!(documents("{\"markdown\":\"a\"}").unwrap(), ["a"]);
        assert_eq!(documents(" \"markdown\" ").unwrap(), Vec::<String>::new());
        assert_eq!(documents("{}").unwrap(), Vec::<String>::new());
    }

    #[test]
    fn bad() {
        for json in [
            "",
            "{",
            "[1,]",
            "[1 2]",
            "{\"a\"}",
            "{\"a\":1,}",
            "{a:1}",
            "nul",
            "-",
            "-inf",
            "\"a",
            "\"\n\"",
            "\"\\x\"",
            "\"\\u12\"",
            "\"\\u+123\"",
            "\"\\ud83c\"",
            "\"\\ud83cx\"",
            "\"\\udfac\"",
            "[] []",
        ] {
            assert!(documents(json).is_err(), "{json}");
        }
        let deep = "[".repeat(100_000);
        assert_eq!(documents(&deep), Err("too deep".into()));
    }
}
