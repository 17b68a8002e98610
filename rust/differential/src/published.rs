//! Notes that nobody here wrote: published examples and other Markdown, parsed
//! by cmark-gfm. Each document's tree is made a `Document` of the reference,
//! with blank lines where the source has them, and that a sheet by `adapt!`.
//! validate.rs on the document and both C functions on the sheet are compared;
//! and again for the sheet with one record taken out, copied or moved.

mod blocks;
mod edits;
mod inlines;
mod json;
#[cfg(test)]
mod made;
mod places;
mod source;
mod text;
mod xml;

use std::{
    collections::BTreeMap,
    fmt, fs,
    io::{self, Write},
    path::{Path, PathBuf},
    process::{Command, Stdio},
};

use cases::Numbers;
use oracle::ast::Document;

use crate::{notes::Notes, Counts, Expected, Harness};

/// The parser, and what it is asked for.
const PARSER: &str = "cmark-gfm";
const EXTENSIONS: [&str; 5] = [
    "table",
    "strikethrough",
    "tasklist",
    "autolink",
    "footnotes",
];

/// What was run.
pub struct Published {
    pub harness: Harness,
    numbers: Numbers,
    files: u64,
    /// The documents alone, without the sheets that are made of theirs.
    documents: Counts,
    records: usize,
    /// How many documents the machine stops in, by its stops.
    stops: BTreeMap<u32, u64>,
}

impl Published {
    /// Nothing yet; `print` is called with each difference.
    pub fn new(seed: u64, print: impl FnMut(&str) + 'static) -> Self {
        Self {
            harness: Harness::new(seed, print),
            numbers: Numbers::new(seed),
            files: 0,
            documents: Counts::default(),
            records: 0,
            stops: BTreeMap::new(),
        }
    }

    /// Compares every document of every file. A folder stands for the files
    /// in it, at any depth, whose names end with `.md` or `.markdown`.
    ///
    /// The makers of documents and validate.rs call themselves for what stands
    /// under a node, so a deep document wants a long stack.
    ///
    /// # Errors
    ///
    /// Where a file cannot be read or has no document, a folder has no file,
    /// or the parser is not there.
    pub fn all(&mut self, paths: &[PathBuf]) -> Result<(), String> {
        for path in paths {
            let files = files(path).map_err(|error| format!("{}: {error}", path.display()))?;
            if files.is_empty() {
                return Err(format!("{}: no Markdown file is in it", path.display()));
            }
            for file in files {
                self.file(&file)
                    .map_err(|error| format!("{}: {error}", file.display()))?;
            }
        }
        Ok(())
    }

    fn file(&mut self, file: &Path) -> Result<(), String> {
        self.files += 1;
        let documents = read(file)?;
        if documents.is_empty() {
            return Err("it has no object with a `markdown` field".into());
        }
        for (markdown, number) in documents.iter().zip(1..) {
            let markdown = plain(markdown);
            let document = document(&parsed(PARSER, &markdown)?, &markdown)?;
            self.document(&format!("{}, document {number}", file.display()), &document);
        }
        Ok(())
    }

    /// Compares a document and the sheets that are made of its sheet.
    fn document(&mut self, name: &str, document: &Document) {
        let notes = Notes::of(document);
        let (words, text) = (notes.sheet().words(), notes.sheet().text());
        let mut expected = Expected::of(words, text);
        if expected.is_accepted() {
            expected.list = oracle::words(document);
            self.there_and_back(name, &notes);
        }
        self.count(&expected);
        self.harness.wanted(name, words, text, &expected);
        let Self {
            harness, numbers, ..
        } = self;
        edits::edits(numbers, words, |edit, words| {
            harness.sheet(&format!("{name}, {edit}"), words, text);
        });
    }

    /// The document that the sheet holds gives the same sheet.
    fn there_and_back(&mut self, name: &str, notes: &Notes<'_>) {
        let sheet = notes.sheet();
        let document = oracle::document(sheet.words(), sheet.text());
        if Notes::of(&document).sheet() != sheet {
            self.harness
                .differs_otherwise(name, "its sheet's document has another sheet");
        }
    }

    fn count(&mut self, expected: &Expected) {
        self.documents.sheet(expected);
        self.records += expected.records;
        if let Some(stop) = &expected.run.stop {
            *self.stops.entry(stop.number).or_default() += 1;
        }
    }
}

impl fmt::Display for Published {
    fn fmt(&self, formatter: &mut fmt::Formatter<'_>) -> fmt::Result {
        let Counts {
            sheets,
            accepted,
            clean,
            ended,
            ..
        } = self.documents;
        writeln!(
            formatter,
            "documents {sheets} (files {}), records {}",
            self.files, self.records
        )?;
        writeln!(
            formatter,
            "  accepted {accepted} ({clean} without an entry; {ended} set to the end, {} stopped), refused {}",
            accepted - ended,
            sheets - accepted
        )?;
        writeln!(
            formatter,
            "  rules, and how many entries: {}",
            listed(self.documents.rules())
        )?;
        let stops = self
            .stops
            .iter()
            .map(|(&stop, &documents)| (stop, documents));
        writeln!(formatter, "  stops, and in how many: {}", listed(stops))?;
        let edited = self.harness.counts.sheets - sheets;
        writeln!(
            formatter,
            "sheets with one record taken out, copied or moved: {edited}"
        )?;
        write!(formatter, "all of them: {}", self.harness.counts)
    }
}

/// Numbers with their counts, in a line.
fn listed(counts: impl Iterator<Item = (u32, u64)>) -> String {
    let counted: Vec<String> = counts
        .map(|(number, count)| format!("{number}: {count}"))
        .collect();
    match counted.is_empty() {
        true => "none".into(),
        false => counted.join(", "),
    }
}

/// The files that a path stands for.
fn files(path: &Path) -> io::Result<Vec<PathBuf>> {
    if !path.is_dir() {
        return Ok(vec![path.into()]);
    }
    let entries: io::Result<Vec<_>> = fs::read_dir(path)?.collect();
    let mut entries: Vec<_> = entries?.into_iter().collect();
    entries.sort_by_key(fs::DirEntry::file_name);
    let mut found = Vec::new();
    for entry in entries {
        let (path, sort) = (entry.path(), entry.file_type()?);
        let markdown = path
            .extension()
            .is_some_and(|ending| ending == "md" || ending == "markdown");
        if sort.is_dir() {
            found.extend(files(&path)?);
        } else if markdown && path.is_file() {
            found.push(path);
        }
    }
    Ok(found)
}

/// The documents of a file: those of a suite in JSON, or the one that it is.
fn read(file: &Path) -> Result<Vec<String>, String> {
    let bytes = fs::read(file).map_err(|error| error.to_string())?;
    let text = String::from_utf8_lossy(&bytes).into_owned();
    match file.extension().is_some_and(|ending| ending == "json") {
        true => json::documents(&text),
        false => Ok(vec![text]),
    }
}

/// The source as cmark-gfm reads it: without a byte order mark, and without
/// U+0000, for which it reads another character of three bytes.
fn plain(markdown: &str) -> String {
    let markdown = markdown.strip_prefix('\u{FEFF}').unwrap_or(markdown);
    markdown.replace('\0', "\u{FFFD}")
}

/// What the parser writes of a document.
fn parsed(parser: &str, markdown: &str) -> Result<String, String> {
    let mut command = Command::new(parser);
    command.args(["-t", "xml", "--sourcepos"]);
    for extension in EXTENSIONS {
        command.args(["-e", extension]);
    }
    let child = command.stdin(Stdio::piped()).stdout(Stdio::piped()).spawn();
    let mut child = child.map_err(|error| match error.kind() {
        io::ErrorKind::NotFound => {
            format!("{parser} is missing; Debian's package has it: apt-get install {PARSER}")
        }
        _ => format!("{parser}: {error}"),
    })?;
    // It reads all before it writes, so this does not wait for itself.
    let written = child
        .stdin
        .take()
        .map(|mut stdin| stdin.write_all(markdown.as_bytes()));
    let output = child
        .wait_with_output()
        .map_err(|error| format!("{parser}: {error}"))?;
    match written {
        Some(Ok(())) if output.status.success() => {}
        _ => return Err(format!("{parser}: {}", output.status)),
    }
    String::from_utf8(output.stdout).map_err(|_| format!("{parser} wrote what is no UTF-8"))
}

/// The document of what the parser wrote.
fn document(xml: &str, markdown: &str) -> Result<Document, String> {
    blocks::document(&xml::read(xml)?, &source::Source::new(markdown))
}

#[cfg(test)]
mod tests {
    use super::*;
    use oracle::ast::{Heading, Paragraph, Text};
    use std::{cell::RefCell, rc::Rc};

    /// A run that keeps what it prints.
    fn run() -> (Published, Rc<RefCell<Vec<String>>>) {
        let printed = Rc::new(RefCell::new(Vec::new()));
        let kept = printed.clone();
        let print = move |shown: &str| kept.borrow_mut().push(shown.into());
        (Published::new(1, print), printed)
    }

    /// One document that is set, one with a fault and a stop, one refused.
    #[test]
    fn counts() {
        let (mut published, printed) = run();
        let heading = |depth| Heading::new(depth, [Text::new("x")]);
        let paragraph = Paragraph::new([Text::new("a\nb")]);
        let long = Paragraph::new([Text::new("x".repeat(16_777_217))]);
        published.document("set", &Document::new(vec![heading(1).into()]));
        published.document(
            "stopped",
            &Document::new(vec![heading(7).into(), paragraph.into()]),
        );
        published.document("refused", &Document::new(vec![long.into()]));
        let shown = published.to_string();
        let wanted = "\
documents 3 (files 0), records 8
  accepted 2 (1 without an entry; 1 set to the end, 1 stopped), refused 1
  rules, and how many entries: 10: 1, 31: 1
  stops, and in how many: 6: 1
sheets with one record taken out, copied or moved: ";
        assert!(shown.starts_with(wanted), "{shown}");
        // A record alone and with what is under it, three edits of each.
        let edited = 3 * (3 + 6 + 3);
        assert_eq!(published.harness.counts.sheets, 3 + edited, "{shown}");
        assert_eq!(published.harness.differences, 0);
        assert_eq!(printed.borrow().len(), 0);
    }

    /// A document whose list is another than the library's.
    #[test]
    fn differences() {
        let (mut published, printed) = run();
        let document = Document::new(vec![Heading::new(7, [Text::new("x")]).into()]);
        let notes = Notes::of(&document);
        let (words, text) = (notes.sheet().words(), notes.sheet().text());
        let mut wanted = Expected::of(words, text);
        wanted.list.clear();
        published.harness.wanted("no list", words, text, &wanted);
        assert!(published.harness.differences > 0);
        assert!(printed.borrow()[0].starts_with("DIFFERENCE in no list"));
        let before = published.harness.differences;
        published.there_and_back("itself", &notes);
        assert_eq!(published.harness.differences, before);
    }

    #[test]
    fn missing_parser() {
        let error = parsed("a-parser-that-is-missing", "x").unwrap_err();
        assert!(error.ends_with("apt-get install cmark-gfm"), "{error}");
        // One that is there, and does not read.
        assert_eq!(parsed("false", "x").unwrap_err().find("false: "), Some(0));
    }

    #[test]
    fn plain_sources() {
        assert_eq!(plain("\u{FEFF}a\0\u{FEFF}"), "a\u{FFFD}\u{FEFF}");
    }

    /// A folder's files in order, and those of the folders in it.
    #[test]
    fn files_of_a_folder() {
        let folder = std::env::temp_dir().join(format!("published-{}", std::process::id()));
        fs::create_dir_all(folder.join("b")).unwrap();
        for name in ["c.md", "a.markdown", "b/d.md", "e.txt", "f.json"] {
            fs::write(folder.join(name), "x").unwrap();
        }
        let found = files(&folder).unwrap();
        let wanted = ["a.markdown", "b/d.md", "c.md"].map(|name| folder.join(name));
        assert_eq!(found, wanted);
        let one = folder.join("f.json");
        assert_eq!(files(&one).unwrap(), [one]);
        assert_eq!(read(&folder.join("c.md")), Ok(vec!["x".into()]));
        assert!(read(&folder.join("f.json")).is_err() && read(&folder.join("g.md")).is_err());
        fs::remove_dir_all(folder).unwrap();
    }

    /// A folder without Markdown and a suite without a document are said, so
    /// that nothing is taken for compared that was not.
    #[test]
    fn nothing_to_compare() {
        let folder = std::env::temp_dir().join(format!("published-none-{}", std::process::id()));
        fs::create_dir_all(&folder).unwrap();
        let suite = folder.join("suite.json");
        fs::write(&suite, r#"[{"html": "x"}]"#).unwrap();
        for (path, wanted) in [
            (&folder, "no Markdown file is in it"),
            (&suite, "no object with a `markdown` field"),
        ] {
            let (mut published, _) = run();
            let said = published.all(std::slice::from_ref(path)).unwrap_err();
            assert!(said.ends_with(wanted), "{said}");
        }
        fs::remove_dir_all(folder).unwrap();
    }
}
