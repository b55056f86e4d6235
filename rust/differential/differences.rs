//! The rows of docs/DIFFERENCES.md: what each row names is asked of the oracle and of the library, and held to what the row says. The
//! input is read out of the row itself. A row that is not in the lists of this program, and one of the lists that is not in the
//! document, is a fault too.

use crate::differences_calls::{Call, Given};
use crate::stream::read;
use crate::{differences_original, differences_standard};

/// Where the document is, seen from the repository's top.
pub const DOCUMENT: &str = "docs/DIFFERENCES.md";

/// The column of a table that has the input.
const INPUT: &str = "input";

/// A table of the document.
struct Table {
    heading: &'static str,
    /// The columns that have the domain and the answers of the oracle and of the library. Where no column has the domain, every row is
    /// inside it.
    columns: [Option<&'static str>; 3],
    calls: fn() -> Vec<Call>,
}

const TABLES: [Table; 2] = [
    Table {
        heading: "## This library and the original",
        columns: [Some("domain"), Some("original"), Some("here")],
        calls: differences_original::calls,
    },
    Table {
        heading: "## The original and the standard, and this library with the original",
        columns: [None, Some("original and here"), Some("original and here")],
        calls: differences_standard::calls,
    },
];

/// Prints a line for each row and one for all, and says whether every row is as it says.
pub fn check(file: &str) -> bool {
    let Some(bytes) = read(file) else { return false };
    let text = String::from_utf8_lossy(&bytes);
    let outcomes: Vec<Outcome> = TABLES.iter().flat_map(|table| table.check(&text)).collect();
    for outcome in &outcomes {
        match outcome {
            Ok(line) => println!("as it says: {line}"),
            Err(line) => println!("FAULT: {line}"),
        }
    }
    let good = outcomes.iter().filter(|outcome| outcome.is_ok()).count();
    let faults = outcomes.len() - good;
    println!("differences: {good} rows of {file} are as they say, {faults} faults");
    faults == 0 && good > 0
}

/// A row: what was found, or what is wrong.
type Outcome = Result<String, String>;

impl Table {
    /// The document's rows in their order, then what the lists have and the document has not.
    fn check(&self, text: &str) -> Vec<Outcome> {
        let Some(rows) = Rows::of(text, self.heading) else {
            return vec![Err(format!("no table under '{}'", self.heading))];
        };
        let (calls, mut met) = ((self.calls)(), vec![]);
        let mut outcomes: Vec<Outcome> = rows.cells.iter().map(|row| self.row(&rows, row, &calls, &mut met)).collect();
        let listed = calls.iter().flat_map(|call| call.inputs.iter().map(|input| key(call.name, input)));
        outcomes.extend(listed.filter(|key| !met.contains(key)).map(|key| Err(format!("not in the document: {key}"))));
        outcomes
    }

    fn row(&self, rows: &Rows, row: &[&str], calls: &[Call], met: &mut Vec<String>) -> Outcome {
        let input = rows.cell(row, INPUT).ok_or(format!("no input: {}", row.join(" | ")))?;
        if met.iter().any(|key| key == input) {
            return Err(format!("twice in the document: {input}"));
        }
        let Given { domain, original, here, shows } = ask(calls, input)?;
        met.push(input.to_string());
        let given = [domain, original.as_str(), here.as_str()];
        let says = self.columns.map(|column| column.map_or(Some("inside"), |name| rows.cell(row, name).map(answer_in)));
        if says != given.map(Some) {
            return Err(format!("{input}: says {says:?}, is {given:?}"));
        }
        match shows {
            true => Ok(format!("{input} | {}", given.join(" | "))),
            false => Err(format!("the standard says nothing else on {input}")),
        }
    }
}

/// What both sides give for an input as a row has it.
fn ask(calls: &[Call], input: &str) -> Result<Given, String> {
    for call in calls {
        if let Some(of) = call.inputs.iter().find(|of| key(call.name, of) == input) {
            return (call.ask)(of).ok_or(format!("not to be read: {input}"));
        }
    }
    Err(format!("not in the list: {input}"))
}

/// How a row names a function and its input.
fn key(name: &str, input: &str) -> String {
    format!("`{name}` of {input}")
}

/// The answer that a cell gives: what stands in its first code span, or all of it where it has none.
fn answer_in(cell: &str) -> &str {
    cell.split('`').nth(1).unwrap_or(cell)
}

/// The first table under a heading.
struct Rows<'a> {
    columns: Vec<&'a str>,
    cells: Vec<Vec<&'a str>>,
}

impl<'a> Rows<'a> {
    fn of(text: &'a str, heading: &str) -> Option<Rows<'a>> {
        let under = text.lines().skip_while(|line| *line != heading).skip(1).take_while(|line| !line.starts_with('#'));
        let mut lines = under.skip_while(|line| !line.starts_with('|')).take_while(|line| line.starts_with('|'));
        let columns = cells(lines.next()?);
        Some(Rows { columns, cells: lines.skip(1).map(cells).collect() })
    }

    fn cell(&self, row: &[&'a str], column: &str) -> Option<&'a str> {
        row.get(self.columns.iter().position(|name| *name == column)?).copied()
    }
}

fn cells(line: &str) -> Vec<&str> {
    line.trim_matches('|').split('|').map(str::trim).collect()
}
