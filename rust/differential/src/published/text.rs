//! Texts as they are written: cmark-gfm gives the characters that are meant,
//! the notes' tree has the escapes and the character references too.

/// A piece of a text, and how many bytes it takes where it is written.
#[derive(Clone, PartialEq, Eq, Debug)]
pub enum Piece {
    /// Characters that stand for themselves.
    Plain(String),
    /// The character behind a backslash.
    Escape(char),
    /// A reference with its `&` and `;`.
    Reference(String),
}

impl Piece {
    /// How many bytes it takes where it is written.
    pub fn bytes(&self) -> usize {
        match self {
            Self::Plain(text) | Self::Reference(text) => text.len(),
            Self::Escape(char) => 1 + char.len_utf8(),
        }
    }
}

/// The pieces that `written` is made of, if they mean `meant`. White space may
/// follow in `written`. None where they do not.
pub fn pieces(written: &str, meant: &str) -> Option<Vec<Piece>> {
    let (mut written, mut meant) = (written, meant);
    let mut pieces = Vec::new();
    let mut plain = String::new();
    while let Some(char) = meant.chars().next() {
        let piece = escape(written, char).or_else(|| reference(written, char));
        meant = &meant[char.len_utf8()..];
        let Some(piece) = piece else {
            written = written.strip_prefix(char)?;
            plain.push(char);
            continue;
        };
        written = &written[piece.bytes()..];
        if !plain.is_empty() {
            pieces.push(Piece::Plain(std::mem::take(&mut plain)));
        }
        pieces.push(piece);
    }
    if !plain.is_empty() {
        pieces.push(Piece::Plain(plain));
    }
    written.trim().is_empty().then_some(pieces)
}

/// A backslash and the punctuation that is meant.
fn escape(written: &str, meant: char) -> Option<Piece> {
    let behind = written.strip_prefix('\\')?;
    let escaped = meant.is_ascii_punctuation() && behind.starts_with(meant);
    escaped.then_some(Piece::Escape(meant))
}

/// A reference that means one character. Which character a name means is not
/// known here, but that of a `&` that stands for itself is.
fn reference(written: &str, meant: char) -> Option<Piece> {
    let inside = &written.strip_prefix('&')?;
    let inside = &inside[..inside.find(';')?];
    let means = match inside.strip_prefix('#') {
        Some(number) => character(number)? == meant,
        None => {
            let name =
                !inside.is_empty() && inside.chars().all(|char| char.is_ascii_alphanumeric());
            name && (meant == '&') == matches!(inside, "amp" | "AMP")
        }
    };
    means.then(|| Piece::Reference(format!("&{inside};")))
}

/// The character of a number, decimal or with `x` hexadecimal.
fn character(number: &str) -> Option<char> {
    let value = match number.strip_prefix(['x', 'X']) {
        Some(digits) => u32::from_str_radix(digits, 16).ok()?,
        None => number.parse().ok()?,
    };
    let replaced = value == 0 || char::from_u32(value).is_none();
    Some(if replaced {
        '\u{FFFD}'
    } else {
        char::from_u32(value)?
    })
}

/// What a label is looked up by: its letters lowered, each run of white space
/// one space, and none around it.
pub fn identifier(label: &str) -> String {
    let words: Vec<String> = label.split_whitespace().map(str::to_lowercase).collect();
    words.join(" ")
}

/// Where the bracket that is open before `text` closes.
fn closing(text: &str) -> Option<usize> {
    let bytes = text.as_bytes();
    let (mut at, mut open) = (0, 0);
    while at < bytes.len() {
        match bytes[at] {
            b'\\' => at += 1,
            b'`' => at = behind_code(text, at) - 1,
            b'[' => open += 1,
            b']' if open == 0 => return Some(at),
            b']' => open -= 1,
            _ => {}
        }
        at += 1;
    }
    None
}

/// Where the code that begins with these backticks ends, or where they do if
/// nothing closes them.
fn behind_code(text: &str, start: usize) -> usize {
    let run = |at: usize| {
        text.as_bytes()[at..]
            .iter()
            .take_while(|&&byte| byte == b'`')
            .count()
    };
    let fence = run(start);
    let mut at = start + fence;
    while at < text.len() {
        match run(at) {
            0 => at += 1,
            length if length == fence => return at + length,
            length => at += length,
        }
    }
    start + fence
}

/// How a link or an image is written.
#[derive(Clone, PartialEq, Eq, Debug)]
pub enum Written<'s> {
    /// `[a](b)`.
    Bare,
    /// `[a](<b>)`.
    Angle,
    /// `[a]()`.
    Omitted,
    /// `[a][b]`: the label b.
    Full(&'s str),
    /// `[a][]`: the label a.
    Collapsed(&'s str),
    /// `[a]`: the label a.
    Shortcut(&'s str),
}

/// How a link is written, from its `[` on. None where this is not one whole.
pub fn written(link: &str) -> Option<Written<'_>> {
    let text = link.strip_prefix('[')?;
    let close = closing(text)?;
    let (label, behind) = (&text[..close], &text[close + 1..]);
    if let Some(destination) = behind.strip_prefix('(') {
        let destination = destination.strip_suffix(')')?.trim_start();
        return Some(match destination.chars().next() {
            None => Written::Omitted,
            Some('<') => Written::Angle,
            Some(_) => Written::Bare,
        });
    }
    match behind {
        "" => Some(Written::Shortcut(label)),
        "[]" => Some(Written::Collapsed(label)),
        _ => {
            let other = behind.strip_prefix('[')?;
            let close = closing(other)?;
            (close + 1 == other.len()).then(|| Written::Full(&other[..close]))
        }
    }
}

#[cfg(test)]
mod tests {
    use super::*;

    fn plain(text: &str) -> Piece {
        Piece::Plain(text.into())
    }

    #[test]
    fn texts() {
        let reference = |text: &str| Piece::Reference(text.into());
        assert_eq!(pieces("ab", "ab"), Some(vec![plain("ab")]));
        assert_eq!(pieces("ab  ", "ab"), Some(vec![plain("ab")]));
        assert_eq!(pieces("", ""), Some(vec![]));
        let found = pieces(
            "a\\*b\\c&amp;\\&d&#x41;&#0;&ouml;&x; & y",
            "a*b\\c&&dA\u{FFFD}ö&x; & y",
        );
        let wanted = [
            plain("a"),
            Piece::Escape('*'),
            plain("b\\c"),
            reference("&amp;"),
            Piece::Escape('&'),
            plain("d"),
            reference("&#x41;"),
            reference("&#0;"),
            reference("&ouml;"),
            plain("&x; & y"),
        ];
        assert_eq!(found.as_deref(), Some(&wanted[..]));
        let bytes: usize = wanted.iter().map(Piece::bytes).sum();
        assert_eq!(bytes, "a\\*b\\c&amp;\\&d&#x41;&#0;&ouml;&x; & y".len());
        for (written, meant) in [
            ("ab", "a"),
            ("a", "ab"),
            ("\\a", "a"),
            ("&#65;", "B"),
            ("&;", "x"),
        ] {
            assert_eq!(pieces(written, meant), None, "{written}");
        }
    }

    #[test]
    fn identifiers() {
        assert_eq!(identifier(" Two \t\n WÖRDS "), "two wörds");
        assert_eq!(identifier(" \n"), "");
    }

    #[test]
    fn links() {
        use Written::{Angle, Bare, Collapsed, Full, Omitted, Shortcut};
        for (link, wanted) in [
            ("[a](b)", Some(Bare)),
            ("[a]( b \"t\")", Some(Bare)),
            ("[a](\"t\")", Some(Bare)),
            ("[a](<b c>)", Some(Angle)),
            ("[a](\n<>)", Some(Angle)),
            ("[a]()", Some(Omitted)),
            ("[]( )", Some(Omitted)),
            ("[a][B c]", Some(Full("B c"))),
            ("[a][b\\]]", Some(Full("b\\]"))),
            ("[a][]", Some(Collapsed("a"))),
            ("[a]", Some(Shortcut("a"))),
            ("[a[b]\\]]", Some(Shortcut("a[b]\\]"))),
            ("[`]` ``]`` c](b)", Some(Bare)),
            ("[a](b", None),
            ("[a] b", None),
            ("[a][b] c", None),
            ("[a", None),
            ("a]", None),
            ("", None),
        ] {
            assert_eq!(written(link), wanted, "{link}");
        }
    }
}
