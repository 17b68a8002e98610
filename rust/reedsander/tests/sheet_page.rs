//! docs/SHEET.md: the numbers and names of its tables are this crate's, and
//! the report, the marks and the answers of its worked sheet are as it says.

mod page;

use reedsander::{check_raw, set_raw, Kind, Refusal, Rule, Stop, RECORD_WORDS};

fn sheet_page() -> String {
    page::read("docs/SHEET.md")
}

/// The lines that stand in the page's one fence of this name.
fn fenced(name: &str) -> String {
    page::fenced(&sheet_page(), name).0.to_string()
}

fn numbers(line: &str) -> Vec<u32> {
    let fields = line.split_ascii_whitespace();
    fields.map(|field| field.parse().unwrap()).collect()
}

/// The words and the text of the page's film.
fn worked_sheet() -> (Vec<u32>, Vec<u8>) {
    let film = fenced("film");
    let (counts, behind) = film.split_once('\n').unwrap();
    let [records, bytes] = numbers(counts)[..] else {
        panic!("two counts: {counts}");
    };
    let mut lines = behind.splitn(records as usize + 1, '\n');
    let words: Vec<u32> = lines
        .by_ref()
        .take(records as usize)
        .flat_map(numbers)
        .collect();
    let text = lines.next().unwrap().as_bytes().to_vec();
    assert_eq!(words.len(), records as usize * RECORD_WORDS);
    assert_eq!(text.len(), bytes as usize);
    (words, text)
}

fn answer(number: u64, low: u64) -> u64 {
    number << 32 | low
}

#[test]
fn report() {
    let (sheet, text) = worked_sheet();
    let mut report = [9; 20];
    assert_eq!(check_raw(&sheet, &text, &mut report), answer(0, 2));
    assert_eq!(report[..], numbers(&fenced("report")));
}

#[test]
fn marks() {
    let (sheet, text) = worked_sheet();
    let mut marks = [99; 21];
    assert_eq!(set_raw(&sheet, &text, &mut marks), answer(2, 15));
    assert_eq!(marks[..], numbers(&fenced("marks")));
}

/// With a second cell in row 15 there is one entry, of rule 40, and the
/// machine comes to the end.
#[test]
fn a_second_cell() {
    let (mut sheet, text) = worked_sheet();
    let behind_row = 18 * RECORD_WORDS;
    let cell = [22, 3, 0, 0, 0, 0, 0, 0, 0, 0, 0, 0];
    sheet.splice(behind_row..behind_row, cell);
    let mut report = [9; 20];
    assert_eq!(check_raw(&sheet, &text, &mut report), answer(0, 1));
    assert_eq!(report[..7], [40, 1, 60, 67, 1, 3, 9]);
    let mut marks = [99; 22];
    assert_eq!(set_raw(&sheet, &text, &mut marks), answer(0, 22));
}

/// The cells of each row that begins with a number, in the section of this
/// heading.
fn rows(heading: &str) -> Vec<(u32, Vec<String>)> {
    let page = sheet_page();
    let (_, behind) = page.split_once(&format!("\n## {heading}\n")).unwrap();
    let section = behind.split("\n## ").next().unwrap();
    let rows = section.lines().filter_map(|line| {
        let mut cells = line.strip_prefix("| ")?.split(" | ");
        let number = cells.next()?.parse().ok()?;
        let others = cells.map(|cell| cell.trim_end_matches(" |").to_string());
        Some((number, others.collect()))
    });
    rows.collect()
}

/// Number and name of each row; what stands in brackets behind a name is left
/// out.
fn names(heading: &str) -> Vec<(u32, String)> {
    let name = |cells: Vec<String>| cells[0].split(" (").next().unwrap().to_string();
    let rows = rows(heading).into_iter();
    rows.map(|(number, cells)| (number, name(cells))).collect()
}

#[test]
fn numbers_and_names() {
    let kinds = Kind::ALL
        .iter()
        .map(|kind| (kind.number(), kind.name().to_string()));
    assert_eq!(names("Kinds"), kinds.collect::<Vec<_>>());
    let rules = Rule::ALL
        .iter()
        .map(|rule| (rule.number(), rule.name().to_string()));
    assert_eq!(names("The rules"), rules.collect::<Vec<_>>());
    let stops = Stop::ALL
        .iter()
        .map(|stop| (stop.number(), stop.name().to_string()));
    assert_eq!(names("The setting machine"), stops.collect::<Vec<_>>());
    let refusals = (1..)
        .map_while(|number| Refusal::from_raw(number, 0))
        .map(|refusal| (refusal.number(), refusal.name().to_string()));
    assert_eq!(names("Refusals"), refusals.collect::<Vec<_>>());
}

/// `16 to 19` and `20, 22, 23` as numbers.
fn listed(cell: &str) -> Vec<u32> {
    let parts = cell.split(", ").flat_map(|part| {
        let (first, last) = part.split_once(" to ").unwrap_or((part, part));
        first.parse().unwrap()..=last.parse().unwrap()
    });
    parts.collect()
}

/// The rules beside each stop, and those that stand beside none.
#[test]
fn rules_of_stops() {
    let mut beside = Vec::new();
    for ((_, cells), stop) in rows("The setting machine").iter().zip(Stop::ALL) {
        let rules: Vec<u32> = stop.rules().iter().map(|rule| rule.number()).collect();
        assert_eq!(listed(cells.last().unwrap()), rules, "{stop}");
        beside.extend(rules);
    }
    let page = sheet_page();
    let (_, none) = page.split_once("37 rules stand beside none: ").unwrap();
    let none = none.split(". ").next().unwrap().replace(" and ", ", ");
    let others = Rule::ALL.iter().map(|rule| rule.number());
    let others: Vec<u32> = others.filter(|rule| !beside.contains(rule)).collect();
    assert_eq!((listed(&none), others.len()), (others, 37));
}
