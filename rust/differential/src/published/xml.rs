//! The XML that `cmark-gfm -t xml` writes, read into elements. It is not quite
//! XML: a footnote's elements are called `<unknown>`, so that a tag of theirs
//! begins with `<<unknown>`.

/// What cmark-gfm calls the elements that it has no name for.
pub const UNKNOWN: &str = "<unknown>";

/// A place in the source: a line and a column, each from 1; a column counts
/// bytes.
pub type Place = (usize, usize);

/// An element and what it holds.
#[derive(Clone, PartialEq, Eq, Debug, Default)]
pub struct Element {
    pub name: String,
    attributes: Vec<(String, String)>,
    pub children: Vec<Element>,
    /// The characters between its tags that are in no child.
    pub text: String,
}

impl Element {
    /// The value of an attribute.
    pub fn attribute(&self, name: &str) -> Option<&str> {
        let mut named = self.attributes.iter().filter(|(other, _)| other == name);
        named.next().map(|(_, value)| value.as_str())
    }

    /// Where it begins, and the last place in it, where the XML says so.
    pub fn places(&self) -> Option<(Place, Place)> {
        let (start, end) = self.attribute("sourcepos")?.split_once('-')?;
        let place = |place: &str| -> Option<Place> {
            let (line, column) = place.split_once(':')?;
            Some((line.parse().ok()?, column.parse().ok()?))
        };
        Some((place(start)?, place(end)?))
    }
}

/// The root element of a document.
///
/// # Errors
///
/// Where it is not what cmark-gfm writes.
pub fn read(xml: &str) -> Result<Element, String> {
    let mut rest = xml;
    // The elements that are open, the root's own holder first.
    let mut open = vec![Element::default()];
    while let Some(at) = rest.find('<') {
        let (text, tag) = rest.split_at(at);
        last(&mut open)?.text += &unescaped(text)?;
        rest = read_tag(tag, &mut open)?;
    }
    let mut holder = open
        .pop()
        .filter(|_| open.is_empty())
        .ok_or("an element is not closed")?;
    let root = holder.children.pop().ok_or("no element")?;
    match holder.children.is_empty() {
        true => Ok(root),
        false => Err("two elements at the top".into()),
    }
}

/// The innermost element that is open.
fn last(open: &mut [Element]) -> Result<&mut Element, String> {
    open.last_mut()
        .ok_or_else(|| "a closing tag too many".into())
}

/// Reads the tag that `tag` begins with, and gives what is behind it.
fn read_tag<'x>(tag: &'x str, open: &mut Vec<Element>) -> Result<&'x str, String> {
    if tag.starts_with("<?") || tag.starts_with("<!") {
        let end = tag.find('>').ok_or("a declaration is not closed")?;
        return Ok(&tag[end + 1..]);
    }
    if let Some(closing) = tag.strip_prefix("</") {
        let (name, rest) = read_name(closing);
        let element = open.pop().filter(|element| element.name == name);
        let element = element.ok_or_else(|| format!("</{name}> closes nothing"))?;
        last(open)?.children.push(element);
        return rest
            .strip_prefix('>')
            .ok_or_else(|| format!("</{name}> is not closed"));
    }
    let (name, rest) = read_name(&tag[1..]);
    let mut element = Element {
        name: name.into(),
        ..Element::default()
    };
    let rest = read_attributes(rest, &mut element)?;
    if let Some(rest) = rest.strip_prefix("/>") {
        last(open)?.children.push(element);
        return Ok(rest);
    }
    open.push(element);
    rest.strip_prefix('>')
        .ok_or_else(|| format!("<{name} is not closed"))
}

/// The name at the front of a tag, and what is behind it.
fn read_name(tag: &str) -> (&str, &str) {
    let end = match tag.strip_prefix(UNKNOWN) {
        Some(_) => UNKNOWN.len(),
        None => tag
            .find(|char: char| char.is_whitespace() || "/>".contains(char))
            .unwrap_or(tag.len()),
    };
    tag.split_at(end)
}

/// Reads attributes up to the end of the tag.
fn read_attributes<'x>(tag: &'x str, element: &mut Element) -> Result<&'x str, String> {
    let mut rest = tag.trim_start();
    while !rest.starts_with(['/', '>']) {
        let (name, value) = rest
            .split_once("=\"")
            .ok_or_else(|| format!("<{} breaks off", element.name))?;
        let (value, behind) = value
            .split_once('"')
            .ok_or_else(|| format!("{name} is not closed"))?;
        element.attributes.push((name.into(), unescaped(value)?));
        rest = behind.trim_start();
    }
    Ok(rest)
}

/// The characters that are meant: cmark-gfm writes four of them by name.
fn unescaped(text: &str) -> Result<String, String> {
    let mut parts = text.split('&');
    let mut meant = parts.next().unwrap_or_default().to_string();
    for part in parts {
        let (name, behind) = part.split_once(';').ok_or("a & without its ;")?;
        meant.push(match name {
            "lt" => '<',
            "gt" => '>',
            "amp" => '&',
            "quot" => '"',
            _ => return Err(format!("&{name};")),
        });
        meant += behind;
    }
    Ok(meant)
}

#[cfg(test)]
mod tests {
    use super::*;

    const XML: &str = r#"<?xml version="1.0" encoding="UTF-8"?>
<!DOCTYPE document SYSTEM "CommonMark.dtd">
<document sourcepos="1:1-4:3" xmlns="http://commonmark.org/xml/1.0">
  <paragraph sourcepos="1:1-1:12">
    <text sourcepos="1:1-1:7" xml:space="preserve">a &lt;b&gt; &amp;lt; "</text>
    <<unknown> sourcepos="1:8-1:12" />
    <softbreak />
    <link destination="&quot;/&gt;&amp;" title=""></link>
  </paragraph>
  <<unknown> sourcepos="4:7-4:9">
    <paragraph sourcepos="4:7-4:9" />
  </<unknown>>
</document>
"#;

    #[test]
    fn elements() {
        let root = read(XML).unwrap();
        assert_eq!(
            (root.name.as_str(), root.places()),
            ("document", Some(((1, 1), (4, 3))))
        );
        let [paragraph, footnote] = &root.children[..] else {
            panic!("{root:?}");
        };
        let names = |element: &Element| -> Vec<String> {
            element
                .children
                .iter()
                .map(|child| child.name.clone())
                .collect()
        };
        assert_eq!(names(paragraph), ["text", UNKNOWN, "softbreak", "link"]);
        let [text, reference, soft, link] = &paragraph.children[..] else {
            panic!("{paragraph:?}");
        };
        assert_eq!(text.text, "a <b> &lt; \"");
        assert_eq!(text.attribute("xml:space"), Some("preserve"));
        assert_eq!(reference.places(), Some(((1, 8), (1, 12))));
        assert_eq!((soft.places(), soft.attribute("sourcepos")), (None, None));
        assert_eq!(link.attribute("destination"), Some("\"/>&"));
        assert_eq!(link.attribute("title"), Some(""));
        assert_eq!(
            (footnote.name.as_str(), names(footnote)),
            (UNKNOWN, vec!["paragraph".into()])
        );
    }

    /// White space around the characters of a literal is kept.
    #[test]
    fn literals() {
        let code = read("<code_block info=\"x\">\n a\n\n</code_block>").unwrap();
        assert_eq!(
            (code.text.as_str(), code.attribute("info")),
            ("\n a\n\n", Some("x"))
        );
    }

    #[test]
    fn bad() {
        for xml in [
            "",
            "x",
            "<a>",
            "</a>",
            "<a></b>",
            "<a/><b/>",
            "<a b=\"/>",
            "<a b/>",
            "<a>&b;</a>",
            "<a>&</a>",
            "<a></a",
            "<?xml",
            "<a/></a>",
        ] {
            assert!(read(xml).is_err(), "{xml}");
        }
    }

    /// As deep as any document: nothing here calls itself.
    #[test]
    fn deep() {
        let xml = "<a>".repeat(2000) + &"</a>".repeat(2000);
        let mut element = read(&xml).unwrap();
        let mut depth = 1;
        while let Some(child) = element.children.pop() {
            (element, depth) = (child, depth + 1);
        }
        assert_eq!(depth, 2000);
    }
}
