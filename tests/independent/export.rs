//! Requests 101 and 104, written from document 02 and its readings, without the Rattle
//! code: a model in free MPS form, and the reader of that form.

use std::collections::BTreeMap;

use super::{
    answer, print_number, refuse, report, Answer, Lines, Program, Sort, Value, ROWS, VARIABLES,
};

/// Writes the model `text` in free MPS form to `out`, as `generate` writes its listing.
pub fn export(text: &[u8], out: &mut [u8]) -> Answer {
    answer(report(text, |program| List::of(program).export()), out)
}

/// Writes the `row`, `low`, `var` and `col` lines that the export `text` was made from,
/// without strings, names and indices. A text that is no export is refused: 3 at 0.
pub fn read_export(text: &[u8], out: &mut [u8]) -> Answer {
    let list = List::read(text).filter(|list| list.export() == text);
    answer(list.map_or(refuse(3, 0), |list| Ok(list.lines())), out)
}

/// A list in document 01's form and order, as far as an export has it: its first `less`
/// rows are `L`, or `R` with a floor, the others `E` without one; its first `whole`
/// variables are `D`, the others `C`.
#[derive(Default)]
struct List {
    less: usize,
    rows: Vec<Sides>,
    whole: usize,
    columns: Vec<Column>,
}

struct Sides {
    right: Value,
    floor: Option<Value>,
}

/// A variable's bounds, and what it has in the rows (by their numbers, from 1) and in
/// the objective of the listing. A row that is absent has the coefficient 0.
struct Column {
    lower: Value,
    upper: Option<Value>,
    coefficients: BTreeMap<usize, Value>,
    objective: Value,
}

impl List {
    fn of(program: &Program) -> List {
        let variables = program.variables.iter().zip(&program.objective);
        let mut columns: Vec<Column> = variables
            .map(|(variable, objective)| Column {
                lower: variable.lower.unwrap_or(Value::ZERO),
                upper: variable.upper,
                coefficients: BTreeMap::new(),
                objective: *objective,
            })
            .collect();
        let rows = || program.inequalities.iter().chain(&program.equations);
        for (number, row) in (1..).zip(rows()) {
            for (variable, coefficient) in &row.coefficients {
                columns[*variable].coefficients.insert(number, *coefficient);
            }
        }
        let names = program.variables.iter().map(|variable| variable.name);
        let discrete = |name: &usize| program.model.names[*name].sort == Sort::Discrete;
        List {
            less: program.inequalities.len(),
            rows: rows()
                .map(|row| Sides {
                    right: row.right,
                    floor: row.floor,
                })
                .collect(),
            whole: names.filter(discrete).count(),
            columns,
        }
    }

    /// The kind of a row, its floor aside.
    fn kind(&self, row: usize) -> &'static [u8] {
        if row <= self.less {
            b"L"
        } else {
            b"E"
        }
    }

    /// The coefficients of a column that are not 0, by row.
    fn cells<'a>(&self, column: &'a Column) -> impl Iterator<Item = (usize, Value)> + 'a {
        let cell = |row| Some((row, *column.coefficients.get(&row)?));
        (1..=self.rows.len())
            .filter_map(cell)
            .filter(|(_, value)| *value != Value::ZERO)
    }

    fn export(&self) -> Vec<u8> {
        let mut text = Text(Vec::new());
        text.put("NAME MODEL\nROWS\n N OBJ\n");
        for (row, sides) in (1..).zip(&self.rows) {
            text.put(" ")
                .bytes(self.kind(row))
                .name(" R", row)
                .put("\n");
            if sides.floor.is_some() {
                text.put(" G").name(" F", row).put("\n");
            }
        }
        text.put("COLUMNS\n");
        for (number, column) in (1..).zip(&self.columns) {
            if number == 1 && self.whole > 0 {
                text.put(" M 'MARKER' 'INTORG'\n");
            }
            for (row, value) in self.cells(column) {
                text.name(" C", number).name(" R", row).value(value);
                if self.rows[row - 1].floor.is_some() {
                    text.name(" C", number).name(" F", row).value(value);
                }
            }
            let cost = column.objective.negated_if(true);
            text.name(" C", number).put(" OBJ").value(cost);
            if number == self.whole {
                text.put(" M 'MARKER' 'INTEND'\n");
            }
        }
        text.put("RHS\n");
        for (row, sides) in (1..).zip(&self.rows) {
            text.put(" MODEL").name(" R", row).value(sides.right);
            if let Some(floor) = sides.floor {
                text.put(" MODEL").name(" F", row).value(floor);
            }
        }
        text.put("BOUNDS\n");
        for (number, column) in (1..).zip(&self.columns) {
            text.put(" LO MODEL").name(" C", number).value(column.lower);
            match column.upper {
                Some(upper) => text.put(" UP MODEL").name(" C", number).value(upper),
                None => text.put(" PL MODEL").name(" C", number).put("\n"),
            };
        }
        text.put("ENDATA\n");
        text.0
    }

    /// The lines of the listing, without strings, names and indices.
    fn lines(&self) -> Vec<u8> {
        let mut lines = Lines(Vec::new());
        for (number, sides) in (1..).zip(&self.rows) {
            lines.start("row");
            lines.count(number);
            lines.field(match sides.floor {
                Some(_) => b"R",
                None => self.kind(number),
            });
            lines.value(sides.right);
            lines.end();
            lines.low(number, sides.floor);
        }
        for (number, column) in (1..).zip(&self.columns) {
            lines.start("var");
            lines.count(number);
            lines.field(if number <= self.whole { b"D" } else { b"C" });
            lines.value(column.lower);
            match column.upper {
                Some(upper) => lines.value(upper),
                None => lines.field(b"inf"),
            }
            lines.end();
        }
        for (number, column) in (1..).zip(&self.columns) {
            let objective = (self.rows.len() + 1, column.objective);
            for (row, value) in self.cells(column).chain([objective]) {
                lines.start("col");
                lines.count(number);
                lines.count(row);
                lines.value(value);
                lines.end();
            }
        }
        lines.0
    }

    /// The only list that `text` can be the export of, if it is one at all: what the text
    /// says is taken up line by line, in any order, and a line of no known form is passed
    /// over, as are the coefficients of an `F` row. None if there are too many rows or
    /// variables, a number is missing, a value does not fit, or an `E` row has a floor.
    fn read(text: &[u8]) -> Option<List> {
        let mut list = List::default();
        for line in text.split(|byte| *byte == b'\n') {
            let fields: Vec<&[u8]> = line.split(|byte| *byte == b' ').collect();
            match fields[..] {
                [b"", kind @ (b"L" | b"E"), _] => {
                    list.less += usize::from(kind == b"L");
                    list.rows.push(Sides {
                        right: Value::ZERO,
                        floor: None,
                    });
                }
                [b"", b"G", _] if list.less < list.rows.len() => return None,
                [b"", b"G", _] => list.rows.last_mut()?.floor = Some(Value::ZERO),
                [b"", b"M", _, b"'INTORG'"] | [b"", b"PL", _, _] => {}
                [b"", b"M", _, b"'INTEND'"] => list.whole = list.columns.len(),
                [b"", b"MODEL", row, value] => {
                    let value = read_value(value)?;
                    let sides = list.row(row)?;
                    match row {
                        [b'F', ..] => sides.floor = Some(value),
                        _ => sides.right = value,
                    }
                }
                [b"", b"LO", _, column, value] => list.column(column)?.lower = read_value(value)?,
                [b"", b"UP", _, column, value] => {
                    list.column(column)?.upper = Some(read_value(value)?)
                }
                [b"", column, b"OBJ", value] => {
                    list.column(column)?.objective = read_value(value)?.negated_if(true);
                }
                [b"", _, [b'F', ..], _] => {}
                [b"", column, row, value] => {
                    let (row, value) = (read_number(row)?, read_value(value)?);
                    list.column(column)?.coefficients.insert(row, value);
                }
                _ => {}
            }
            if list.rows.len() > ROWS || list.columns.len() > VARIABLES {
                return None;
            }
        }
        Some(list)
    }

    fn row(&mut self, name: &[u8]) -> Option<&mut Sides> {
        self.rows.get_mut(read_number(name)?.checked_sub(1)?)
    }

    /// The variable of that name: one that is there, or the next one.
    fn column(&mut self, name: &[u8]) -> Option<&mut Column> {
        let number = read_number(name)?;
        if number == self.columns.len() + 1 {
            self.columns.push(Column {
                lower: Value::ZERO,
                upper: None,
                coefficients: BTreeMap::new(),
                objective: Value::ZERO,
            });
        }
        self.columns.get_mut(number.checked_sub(1)?)
    }
}

struct Text(Vec<u8>);

impl Text {
    fn put(&mut self, words: &str) -> &mut Text {
        self.bytes(words.as_bytes())
    }

    fn bytes(&mut self, bytes: &[u8]) -> &mut Text {
        self.0.extend_from_slice(bytes);
        self
    }

    fn name(&mut self, letter: &str, number: usize) -> &mut Text {
        self.put(letter);
        print_number(number as i64, 1, &mut self.0);
        self
    }

    /// The last field of a line.
    fn value(&mut self, value: Value) -> &mut Text {
        self.put(" ");
        value.print(&mut self.0);
        self.put("\n")
    }
}

/// The number behind the letter of a name.
fn read_number(name: &[u8]) -> Option<usize> {
    std::str::from_utf8(name.get(1..)?).ok()?.parse().ok()
}

/// A value that fits; its form is seen when it is printed again.
fn read_value(bytes: &[u8]) -> Option<Value> {
    match bytes {
        [b'-', decimal @ ..] => Some(Value::from_decimal(decimal, 0)?.negated_if(true)),
        decimal => Value::from_decimal(decimal, 0),
    }
}
