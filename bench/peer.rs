//! The peer of the benchmark: plain Rust that reads a script with columns of days, moments and lengths of
//! time, evaluates an expression of columns, casts and sums, and writes the answer. Values are plain
//! 64-bit integers beside a list of truth values, and each step takes one pass over a column.

use std::io::{self, BufWriter, Read, Write};
use std::process::ExitCode;
use std::rc::Rc;

const DAY_NANOS: i64 = 86_400_000_000_000;

#[derive(Clone, Copy, PartialEq)]
enum Unit {
    Nanoseconds,
    Microseconds,
    Milliseconds,
}

#[derive(Clone, Copy, PartialEq)]
enum Type {
    Date,
    Datetime(Unit),
    Duration(Unit),
}

/// A value counts where its row is valid.
struct Column<'a> {
    name: &'a str,
    dtype: Type,
    values: Vec<i64>,
    valid: Vec<bool>,
}

enum Node {
    Input(usize),
    Cast(Type),
    Add,
}

impl Unit {
    fn nanoseconds(self) -> i64 {
        match self {
            Unit::Nanoseconds => 1,
            Unit::Microseconds => 1_000,
            Unit::Milliseconds => 1_000_000,
        }
    }

    fn name(self) -> &'static str {
        match self {
            Unit::Nanoseconds => "ns",
            Unit::Microseconds => "us",
            Unit::Milliseconds => "ms",
        }
    }

    fn coarser(self, other: Unit) -> Unit {
        if self.nanoseconds() < other.nanoseconds() { other } else { self }
    }

    /// A tick of this unit in another: `floors` says how a coarser one rounds.
    fn change(self, to: Unit, floors: bool) -> impl Fn(i64) -> Option<i64> {
        let (from, to) = (self.nanoseconds(), to.nanoseconds());
        move |tick: i64| {
            if from >= to {
                tick.checked_mul(from / to)
            } else if floors {
                Some(tick.div_euclid(to / from))
            } else {
                Some(tick / (to / from))
            }
        }
    }
}

impl Type {
    fn parse(text: &str) -> Option<Type> {
        if text == "date" {
            return Some(Type::Date);
        }
        let (kind, rest) = text.split_once('[')?;
        let unit = match rest {
            "ns]" => Unit::Nanoseconds,
            "us]" => Unit::Microseconds,
            "ms]" => Unit::Milliseconds,
            _ => return None,
        };
        match kind {
            "datetime" => Some(Type::Datetime(unit)),
            "duration" => Some(Type::Duration(unit)),
            _ => None,
        }
    }

    fn text(self) -> String {
        match self {
            Type::Date => "date".to_string(),
            Type::Datetime(unit) => format!("datetime[{}]", unit.name()),
            Type::Duration(unit) => format!("duration[{}]", unit.name()),
        }
    }

    fn holds(self, value: i64) -> bool {
        self != Type::Date || i32::try_from(value).is_ok()
    }
}

impl<'a> Column<'a> {
    fn new(name: &'a str, dtype: Type, rows: usize) -> Column<'a> {
        Column {
            name,
            dtype,
            values: Vec::with_capacity(rows),
            valid: Vec::with_capacity(rows),
        }
    }

    fn push(&mut self, slot: Option<i64>) {
        self.values.push(slot.unwrap_or(0));
        self.valid.push(slot.is_some());
    }

    fn slots(&self) -> impl Iterator<Item = Option<i64>> + '_ {
        self.values.iter().zip(&self.valid).map(|(value, valid)| valid.then_some(*value))
    }

    fn parse(mut tokens: impl Iterator<Item = &'a str>) -> Option<Column<'a>> {
        let name = tokens.next()?;
        if name.len() > 64 || !name.bytes().all(|b| b.is_ascii_graphic()) {
            return None;
        }
        let dtype = Type::parse(tokens.next()?)?;
        let mut column = Column::new(name, dtype, 0);
        for token in tokens {
            match token {
                "|" => {}
                "null" => column.push(None),
                _ => {
                    let value = token.parse().ok()?;
                    if !dtype.holds(value) {
                        return None;
                    }
                    column.push(Some(value));
                }
            }
        }
        Some(column)
    }

    fn map(&self, dtype: Type, change: impl Fn(i64) -> Option<i64>) -> Column<'a> {
        let mut column = Column::new(self.name, dtype, self.values.len());
        for slot in self.slots() {
            column.push(slot.and_then(&change));
        }
        column
    }

    /// None where there is no such cast and a slot is valid.
    fn cast(&self, target: Type) -> Option<Column<'a>> {
        match (self.dtype, target) {
            (Type::Datetime(from), Type::Datetime(to)) => Some(self.map(target, from.change(to, true))),
            (Type::Duration(from), Type::Duration(to)) => Some(self.map(target, from.change(to, false))),
            (Type::Datetime(from), Type::Date) => {
                let day = DAY_NANOS / from.nanoseconds();
                let date = |tick: i64| i32::try_from(tick.div_euclid(day)).ok().map(i64::from);
                Some(self.map(target, date))
            }
            (Type::Date, Type::Date) => Some(self.map(target, Some)),
            _ if self.valid.iter().all(|valid| !valid) => Some(self.map(target, Some)),
            _ => None,
        }
    }

    /// A moment and a length of time; None for other types and for lengths that differ.
    fn add(&self, other: &Column) -> Option<Column<'a>> {
        let (Type::Datetime(u), Type::Duration(v)) = (self.dtype, other.dtype) else {
            return None;
        };
        if self.values.len() != other.values.len() {
            return None;
        }
        let unit = u.coarser(v);
        let (moment, length) = (u.change(unit, true), v.change(unit, false));
        let sum = |x: Option<i64>, y: Option<i64>| Some(moment(x?)?.wrapping_add(length(y?)?));
        let mut column = Column::new(self.name, Type::Datetime(unit), self.values.len());
        for (x, y) in self.slots().zip(other.slots()) {
            column.push(sum(x, y));
        }
        Some(column)
    }

    fn write(&self, text: &mut impl Write) -> io::Result<()> {
        writeln!(text, "{} {} {}", self.name, self.dtype.text(), self.values.len())?;
        for slot in self.slots() {
            match slot {
                Some(tick) => writeln!(text, "{tick}")?,
                None => text.write_all(b"null\n")?,
            }
        }
        Ok(())
    }
}

fn nodes<'a>(tokens: impl Iterator<Item = &'a str>) -> Option<Vec<Node>> {
    tokens
        .map(|token| match token {
            "+" => Some(Node::Add),
            _ => match token.strip_prefix('$') {
                Some(number) => number.parse().ok().map(Node::Input),
                None => Type::parse(token.strip_prefix("cast:")?).map(Node::Cast),
            },
        })
        .collect()
}

/// The columns and the expression, or the number of the bad line.
fn read(script: &[u8]) -> Result<(Vec<Rc<Column<'_>>>, Vec<Node>), usize> {
    let mut columns = Vec::new();
    let mut expression = None;
    let mut number = 0;
    for line in script.split_inclusive(|b| *b == b'\n') {
        number += 1;
        let line = line.strip_suffix(b"\n").unwrap_or(line);
        let line = line.strip_suffix(b"\r").unwrap_or(line);
        let line = str::from_utf8(line).map_err(|_| number)?;
        let mut tokens = line.split([' ', '\t']).filter(|token| !token.is_empty());
        match tokens.next() {
            // What a plan saves is not this program's to save.
            None | Some("plan") => {}
            Some("col") if expression.is_none() => {
                columns.push(Rc::new(Column::parse(tokens).ok_or(number)?));
            }
            Some("expr") if expression.is_none() => {
                expression = Some(nodes(tokens).ok_or(number)?);
            }
            Some(_) => return Err(number),
        }
    }
    match expression {
        Some(expression) => Ok((columns, expression)),
        None => Err(number + 1),
    }
}

/// The column of the expression; the scripts of the benchmark refuse none.
fn evaluate<'a>(columns: &[Rc<Column<'a>>], expression: &[Node]) -> Option<Rc<Column<'a>>> {
    let mut stack: Vec<Rc<Column<'a>>> = Vec::new();
    for node in expression {
        let column = match node {
            Node::Input(index) => Rc::clone(columns.get(*index)?),
            Node::Cast(target) => Rc::new(stack.pop()?.cast(*target)?),
            Node::Add => {
                let right = stack.pop()?;
                Rc::new(stack.pop()?.add(&right)?)
            }
        };
        stack.push(column);
    }
    stack.pop()
}

fn main() -> io::Result<ExitCode> {
    let mut script = Vec::new();
    io::stdin().read_to_end(&mut script)?;
    let mut text = BufWriter::new(io::stdout().lock());
    let code = match read(&script) {
        Ok((columns, expression)) => match evaluate(&columns, &expression) {
            Some(answer) => {
                answer.write(&mut text)?;
                0
            }
            None => {
                writeln!(text, "refused")?;
                1
            }
        },
        Err(line) => {
            writeln!(text, "bad line {line}")?;
            2
        }
    };
    text.flush()?;
    Ok(ExitCode::from(code))
}
