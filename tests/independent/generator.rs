//! A second generator for the recipe modelling language, written from documents 01 and 02
//! and their readings alone. It is meant to be compared with the first one, so it favours
//! plain steps over clever ones, in the order of document 01. The export and its reader
//! (request 101) are in export.rs.

#[path = "export.rs"]
mod export;

pub use export::{export, read_export};

use std::cmp::Ordering;
use std::collections::HashMap;
use std::ops::RangeInclusive;

/// Number 0, place 0 and the report's length; or a refusal, its place and length 0.
#[derive(Clone, Copy, Debug, PartialEq, Eq)]
pub struct Answer {
    pub number: u32,
    pub place: usize,
    pub length: usize,
}

/// Writes the listing of the model `text` to `out`, with zero bytes behind it, or fills
/// `out` with zeros if the model is refused.
pub fn generate(text: &[u8], out: &mut [u8]) -> Answer {
    answer(report(text, |program| program.print()), out)
}

/// What `print` makes of an accepted model.
fn report(text: &[u8], print: fn(&Program) -> Vec<u8>) -> Outcome<Vec<u8>> {
    if text.len() > TEXT_LIMIT {
        return refuse(1, TEXT_LIMIT);
    }
    let model = Parser::new(text).model()?;
    let program = Program::build(&model)?;
    Ok(print(&program))
}

/// Puts a report into the buffer, unless it is longer: then it is refused with its own length.
fn answer(report: Outcome<Vec<u8>>, out: &mut [u8]) -> Answer {
    out.fill(0);
    let (number, place, length) = match report {
        Err(refusal) => (refusal.number, refusal.place, 0),
        Ok(lines) => match out.get_mut(..lines.len()) {
            Some(part) => {
                part.copy_from_slice(&lines);
                (0, 0, lines.len())
            }
            None => (11, lines.len(), 0),
        },
    };
    Answer {
        number,
        place,
        length,
    }
}

const TEXT_LIMIT: usize = 16_384;
const NAME_LENGTH: usize = 15;
const STRING_LENGTH: usize = 60;
const NAMES: usize = 64;
const CONSTRAINTS: usize = 64;
const TOKENS: usize = 4_096;
const NESTING: usize = 12;
const DATA_ELEMENTS: usize = 2_048;
const VARIABLES: usize = 512;
const ROWS: usize = 512;
const POSITIONS: usize = 4;
const RUN_LENGTH: i64 = 256;

struct Refusal {
    number: u32,
    place: usize,
}

type Outcome<T> = Result<T, Refusal>;

fn refuse<T>(number: u32, place: usize) -> Outcome<T> {
    Err(Refusal { number, place })
}

// ---------------------------------------------------------------------------- Values

const LITERAL_DIGITS: usize = 18;
const MANTISSA_LIMIT: i64 = 999_999_999;
const SCALE_LIMIT: usize = 6;

const fn powers_of_ten() -> [i64; 19] {
    let mut powers = [1; 19];
    let mut i = 1;
    while i < 19 {
        powers[i] = powers[i - 1] * 10;
        i += 1;
    }
    powers
}

const POWERS: [i64; 19] = powers_of_ten();

/// mantissa / 10^scale, with the smallest scale possible.
#[derive(Clone, Copy, Debug, PartialEq, Eq)]
struct Value {
    mantissa: i64,
    scale: usize,
}

impl Value {
    const ZERO: Value = Value::of(0);
    const ONE: Value = Value::of(1);

    const fn of(mantissa: i64) -> Value {
        Value { mantissa, scale: 0 }
    }

    /// Brings the value to its smallest scale; none if it does not fit.
    fn new(mut mantissa: i64, mut scale: usize) -> Option<Value> {
        while scale > 0 && mantissa % 10 == 0 {
            mantissa /= 10;
            scale -= 1;
        }
        let fits = scale <= SCALE_LIMIT && mantissa.abs() <= MANTISSA_LIMIT;
        fits.then_some(Value { mantissa, scale })
    }

    /// Reads a literal: a decimal, perhaps with a power of ten.
    fn from_literal(bytes: &[u8]) -> Option<Value> {
        match bytes.iter().position(|&byte| byte == b'E') {
            Some(end) => Value::from_decimal(&bytes[..end], read_power(&bytes[end + 1..])),
            None => Value::from_decimal(bytes, 0),
        }
    }

    /// Reads digits, digits.digits or .digits and multiplies by that power of ten; none if
    /// there are too many digits or if the product does not fit.
    fn from_decimal(bytes: &[u8], power: i64) -> Option<Value> {
        let digits = bytes.iter().filter(|byte| byte.is_ascii_digit());
        if digits.clone().count() > LITERAL_DIGITS {
            return None;
        }
        let mut mantissa = read_digits(digits);
        let point = bytes.iter().position(|&byte| byte == b'.');
        let places = point.map_or(0, |point| bytes.len() - point - 1);
        let power = power - places as i64;
        for _ in 0..power {
            mantissa = i64::checked_mul(mantissa, 10)?;
        }
        Value::new(mantissa, (-power).max(0) as usize)
    }

    fn mantissa_at(self, scale: usize) -> i64 {
        self.mantissa * POWERS[scale - self.scale]
    }

    fn plus(self, other: Value) -> Option<Value> {
        let scale = self.scale.max(other.scale);
        Value::new(self.mantissa_at(scale) + other.mantissa_at(scale), scale)
    }

    fn times(self, other: Value) -> Option<Value> {
        Value::new(self.mantissa * other.mantissa, self.scale + other.scale)
    }

    fn negated_if(self, negative: bool) -> Value {
        let factor = if negative { -1 } else { 1 };
        Value {
            mantissa: self.mantissa * factor,
            ..self
        }
    }

    fn whole(self) -> Option<i64> {
        (self.scale == 0).then_some(self.mantissa)
    }

    /// The largest whole number that is not above the value.
    fn rounded_down(self) -> i64 {
        self.mantissa.div_euclid(POWERS[self.scale])
    }

    /// The smallest whole number that is not below the value.
    fn rounded_up(self) -> i64 {
        -self.negated_if(true).rounded_down()
    }

    fn print(self, lines: &mut Vec<u8>) {
        if self.mantissa < 0 {
            lines.push(b'-');
        }
        let size = self.mantissa.abs();
        let power = POWERS[self.scale];
        print_number(size / power, 1, lines);
        if self.scale > 0 {
            lines.push(b'.');
            print_number(size % power, self.scale, lines);
        }
    }
}

impl Ord for Value {
    fn cmp(&self, other: &Value) -> Ordering {
        let mantissa = self.mantissa_at(SCALE_LIMIT);
        mantissa.cmp(&other.mantissa_at(SCALE_LIMIT))
    }
}

impl PartialOrd for Value {
    fn partial_cmp(&self, other: &Value) -> Option<Ordering> {
        Some(self.cmp(other))
    }
}

/// Reads an optional sign and one or two digits.
fn read_power(bytes: &[u8]) -> i64 {
    match bytes {
        [b'-', digits @ ..] => -read_power(digits),
        [b'+', digits @ ..] => read_power(digits),
        digits => read_digits(digits.iter()),
    }
}

fn read_digits<'a>(digits: impl Iterator<Item = &'a u8>) -> i64 {
    digits.fold(0, |sum, byte| sum * 10 + i64::from(byte - b'0'))
}

/// Prints a number that is not negative with at least `width` digits.
fn print_number(mut number: i64, width: usize, lines: &mut Vec<u8>) {
    let mut digits = [b'0'; 20];
    let mut start = digits.len();
    while number > 0 {
        start -= 1;
        digits[start] = b'0' + (number % 10) as u8;
        number /= 10;
    }
    lines.extend_from_slice(&digits[start.min(digits.len() - width)..]);
}

// ---------------------------------------------------------------------------- Tokens

#[derive(Clone, Copy, Debug, PartialEq, Eq)]
enum Kind {
    Open,
    Close,
    Maximize,
    Minimize,
    Init,
    Sum,
    Sigma,
    Word(Sort),
    Name,
    Literal,
    String,
    Plus,
    Minus,
    Star,
    Comma,
    Semicolon,
    Colon,
    Equal,
    AtMost,
    AtLeast,
    RoundOpen,
    RoundClose,
    SquareOpen,
    SquareClose,
    End,
}

/// The sorts of names, in the order of their declarations.
#[derive(Clone, Copy, Debug, PartialEq, Eq, PartialOrd, Ord)]
enum Sort {
    Index,
    Integer,
    Real,
    Formula,
    Discrete,
    Continuous,
}

impl Sort {
    fn is_datum(self) -> bool {
        matches!(self, Sort::Integer | Sort::Real)
    }

    fn is_variable(self) -> bool {
        matches!(self, Sort::Discrete | Sort::Continuous)
    }
}

/// `value` is that of a literal.
#[derive(Clone, Copy)]
struct Token<'t> {
    kind: Kind,
    place: usize,
    bytes: &'t [u8],
    value: Value,
}

impl<'t> Token<'t> {
    /// A string's bytes between its braces.
    fn content(&self) -> &'t [u8] {
        &self.bytes[1..self.bytes.len() - 1]
    }
}

/// Gives the tokens one by one; the next one is only looked at when asked for.
struct Tokens<'t> {
    text: &'t [u8],
    position: usize,
    ahead: Option<Token<'t>>,
    counted: usize,
    counting: bool,
}

impl<'t> Tokens<'t> {
    fn new(text: &'t [u8]) -> Tokens<'t> {
        Tokens {
            text,
            position: 0,
            ahead: None,
            counted: 0,
            counting: true,
        }
    }

    fn peek(&mut self) -> Outcome<Token<'t>> {
        if let Some(token) = self.ahead {
            return Ok(token);
        }
        let token = self.read()?;
        match token.kind {
            Kind::Init | Kind::Close => self.counting = false,
            Kind::End => {}
            _ if self.counting && self.counted == TOKENS => return refuse(6, token.place),
            _ => self.counted += 1,
        }
        self.ahead = Some(token);
        Ok(token)
    }

    fn take(&mut self) -> Outcome<Token<'t>> {
        let token = self.peek()?;
        self.ahead = None;
        Ok(token)
    }

    fn take_if(&mut self, kind: Kind) -> Outcome<Option<Token<'t>>> {
        if self.peek()?.kind == kind {
            self.take().map(Some)
        } else {
            Ok(None)
        }
    }

    fn expect(&mut self, kind: Kind) -> Outcome<Token<'t>> {
        let token = self.peek()?;
        if token.kind == kind {
            self.take()
        } else {
            refuse(3, token.place)
        }
    }

    /// Where the bytes from `start` on stop being of one class.
    fn end_of(&self, start: usize, class: impl Fn(&u8) -> bool) -> usize {
        let rest = self.text.get(start..).unwrap_or(&[]);
        start + rest.iter().take_while(|byte| class(byte)).count()
    }

    fn byte(&self, place: usize) -> u8 {
        self.text.get(place).copied().unwrap_or(0)
    }

    /// Reads the longest token possible, with the tests that belong to itself.
    fn read(&mut self) -> Outcome<Token<'t>> {
        let text = self.text;
        let place = self.end_of(self.position, |byte| b" \t\n\r".contains(byte));
        let mut value = Value::ZERO;
        let next = self.byte(place + 1);
        let mut end = place + 1;
        let kind = match self.byte(place) {
            _ if place == text.len() => {
                end = place;
                Kind::End
            }
            b'a'..=b'z' => {
                end = self.end_of(place, |b| b.is_ascii_lowercase() || b.is_ascii_digit());
                let kind = lower_case_word(&text[place..end]);
                if kind == Kind::Name && end - place > NAME_LENGTH {
                    return refuse(4, place);
                }
                kind
            }
            b'A'..=b'Z' => {
                end = self.end_of(place, u8::is_ascii_uppercase);
                match capital_word(&text[place..end]) {
                    Some(kind) => kind,
                    None => return refuse(3, place),
                }
            }
            byte if byte.is_ascii_digit() || (byte == b'.' && next.is_ascii_digit()) => {
                end = self.end_of(place, u8::is_ascii_digit);
                if self.byte(end) == b'.' && self.byte(end + 1).is_ascii_digit() {
                    end = self.end_of(end + 1, u8::is_ascii_digit);
                }
                end = self.end_of_power(end);
                match Value::from_literal(&text[place..end]) {
                    Some(literal) => value = literal,
                    None => return refuse(5, place),
                }
                Kind::Literal
            }
            b'{' => {
                end = self.end_of_string(place)?;
                Kind::String
            }
            b'<' if next == b'=' => {
                end += 1;
                Kind::AtMost
            }
            b'>' if next == b'=' => {
                end += 1;
                Kind::AtLeast
            }
            b'+' => Kind::Plus,
            b'-' => Kind::Minus,
            b'*' => Kind::Star,
            b',' => Kind::Comma,
            b';' => Kind::Semicolon,
            b':' => Kind::Colon,
            b'=' => Kind::Equal,
            b'(' => Kind::RoundOpen,
            b')' => Kind::RoundClose,
            b'[' => Kind::SquareOpen,
            b']' => Kind::SquareClose,
            _ => return refuse(2, place),
        };
        self.position = end;
        Ok(Token {
            kind,
            place,
            bytes: &text[place..end],
            value,
        })
    }

    /// Where a power of ten ends that begins at `place`: `E`, an optional sign and one or
    /// two digits. If there is none, `place` itself.
    fn end_of_power(&self, place: usize) -> usize {
        let sign = usize::from(matches!(self.byte(place + 1), b'+' | b'-'));
        let digits = place + 1 + sign;
        if self.byte(place) != b'E' || !self.byte(digits).is_ascii_digit() {
            return place;
        }
        digits + 1 + usize::from(self.byte(digits + 1).is_ascii_digit())
    }

    fn end_of_string(&self, place: usize) -> Outcome<usize> {
        let may_stand = |b: &u8| (32..=126).contains(b) && !b"{}".contains(b);
        let stop = self.end_of(place + 1, may_stand);
        if stop < self.text.len() && self.byte(stop) != b'}' {
            return refuse(2, stop);
        }
        let length = stop - place - 1;
        if stop == self.text.len() || length == 0 || length > STRING_LENGTH {
            return refuse(3, place);
        }
        Ok(stop + 1)
    }
}

fn lower_case_word(bytes: &[u8]) -> Kind {
    match bytes {
        b"index" => Kind::Word(Sort::Index),
        b"integer" => Kind::Word(Sort::Integer),
        b"real" => Kind::Word(Sort::Real),
        b"formula" => Kind::Word(Sort::Formula),
        b"discrete" => Kind::Word(Sort::Discrete),
        b"continuous" => Kind::Word(Sort::Continuous),
        _ => Kind::Name,
    }
}

fn capital_word(bytes: &[u8]) -> Option<Kind> {
    match bytes {
        b"OPEN" => Some(Kind::Open),
        b"CLOSE" => Some(Kind::Close),
        b"MAXIMIZE" => Some(Kind::Maximize),
        b"MINIMIZE" => Some(Kind::Minimize),
        b"INIT" => Some(Kind::Init),
        b"SUM" => Some(Kind::Sum),
        b"S" => Some(Kind::Sigma),
        _ => None,
    }
}

// ----------------------------------------------------------------------------- Trees

#[derive(Clone, Copy)]
struct Sign {
    negative: bool,
    place: usize,
}

type Formula = Vec<Term>;

/// The places are those of the `*` before each further primary.
struct Term {
    sign: Option<Sign>,
    first: Primary,
    others: Vec<(usize, Primary)>,
}

enum Primary {
    Literal(Value),
    Index { name: usize, place: usize },
    Datum(Access),
    Declared(usize),
    Sum(Box<Run>, Formula),
    Group(Formula),
}

/// A datum or variable with its subscripts.
struct Access {
    name: usize,
    place: usize,
    subscripts: Vec<Formula>,
}

/// An index that runs between limits; the place is its `SUM`, `S` or domain index.
struct Run {
    index: usize,
    place: usize,
    lower: Formula,
    upper: Formula,
}

type Linear = Vec<LinearTerm>;

/// The places are those of the `*` after each factor.
struct LinearTerm {
    sign: Option<Sign>,
    factors: Vec<(Primary, usize)>,
    last: Last,
}

enum Last {
    Variable(Access),
    Sigma(Box<Run>, Linear),
}

struct Name<'t> {
    bytes: &'t [u8],
    place: usize,
    sort: Sort,
    domain: Vec<Run>,
    formula: Formula,
    values: HashMap<Subscripts, Value>,
}

struct Constraint<'t> {
    string: &'t [u8],
    place: usize,
    left: Linear,
    relation: Kind,
    right: Formula,
    floor: Option<Formula>,
    domain: Vec<Run>,
}

#[derive(Default)]
struct Model<'t> {
    string: &'t [u8],
    names: Vec<Name<'t>>,
    minimize: bool,
    objective: Linear,
    constraints: Vec<Constraint<'t>>,
    data_string: &'t [u8],
    data_elements: usize,
}

// --------------------------------------------------------------------------- Grammar

struct Parser<'t> {
    tokens: Tokens<'t>,
    model: Model<'t>,
    known: HashMap<&'t [u8], usize>,
    open_brackets: usize,
}

impl<'t> Parser<'t> {
    fn new(text: &'t [u8]) -> Parser<'t> {
        Parser {
            tokens: Tokens::new(text),
            model: Model::default(),
            known: HashMap::new(),
            open_brackets: 0,
        }
    }

    fn model(mut self) -> Outcome<Model<'t>> {
        self.tokens.expect(Kind::Open)?;
        self.model.string = self.tokens.expect(Kind::String)?.content();
        self.declarations()?;
        let direction = self.tokens.peek()?;
        match direction.kind {
            Kind::Maximize => self.model.minimize = false,
            Kind::Minimize => self.model.minimize = true,
            _ => return refuse(3, direction.place),
        }
        self.tokens.take()?;
        self.tokens.expect(Kind::Colon)?;
        self.model.objective = self.linear(true)?;
        let mut string = self.tokens.expect(Kind::String)?;
        loop {
            self.constraint(string)?;
            match self.tokens.take_if(Kind::String)? {
                Some(next) => string = next,
                None => break,
            }
        }
        if self.tokens.take_if(Kind::Init)?.is_some() {
            self.data()?;
        }
        self.tokens.expect(Kind::Close)?;
        self.tokens.expect(Kind::End)?;
        Ok(self.model)
    }

    fn declarations(&mut self) -> Outcome<()> {
        let mut last = None;
        loop {
            let word = self.tokens.peek()?;
            let Kind::Word(sort) = word.kind else {
                return Ok(());
            };
            if Some(sort) <= last {
                return refuse(3, word.place);
            }
            last = Some(sort);
            self.tokens.take()?;
            self.declaration(sort)?;
            while self.tokens.take_if(Kind::Comma)?.is_some() {
                self.declaration(sort)?;
            }
            self.tokens.expect(Kind::Semicolon)?;
        }
    }

    /// One list entry. The name is entered at the end, so that it is unknown before.
    fn declaration(&mut self, sort: Sort) -> Outcome<()> {
        let token = self.tokens.expect(Kind::Name)?;
        if self.known.contains_key(token.bytes) {
            return refuse(4, token.place);
        }
        if self.model.names.len() == NAMES {
            return refuse(6, token.place);
        }
        let mut domain = Vec::new();
        let mut formula = Vec::new();
        if sort == Sort::Formula {
            self.tokens.expect(Kind::Equal)?;
            formula = self.formula()?;
        } else if sort != Sort::Index && self.tokens.peek()?.kind == Kind::SquareOpen {
            self.open(Kind::SquareOpen)?;
            let mut indices = vec![self.index()?];
            while indices.len() < POSITIONS && self.tokens.take_if(Kind::Comma)?.is_some() {
                indices.push(self.index()?);
            }
            self.close(Kind::SquareClose)?;
            domain = self.domain(Some(&indices))?;
        }
        self.known.insert(token.bytes, self.model.names.len());
        self.model.names.push(Name {
            bytes: token.bytes,
            place: token.place,
            sort,
            domain,
            formula,
            values: HashMap::new(),
        });
        Ok(())
    }

    /// A domain; a declared one names the indices due, in their order and none twice.
    fn domain(&mut self, due: Option<&[usize]>) -> Outcome<Vec<Run>> {
        let most = due.map_or(POSITIONS, <[usize]>::len);
        let least = due.map_or(1, <[usize]>::len);
        let mut runs: Vec<Run> = Vec::new();
        self.open(Kind::RoundOpen)?;
        loop {
            let lower = self.formula()?;
            self.tokens.expect(Kind::AtMost)?;
            let place = self.tokens.peek()?.place;
            let index = self.index()?;
            if let Some(indices) = due {
                let twice = runs.iter().any(|run| run.index == index);
                if twice || indices.get(runs.len()) != Some(&index) {
                    return refuse(3, place);
                }
            }
            self.tokens.expect(Kind::AtMost)?;
            let upper = self.formula()?;
            runs.push(Run {
                index,
                place,
                lower,
                upper,
            });
            if runs.len() < least {
                self.tokens.expect(Kind::Comma)?;
            } else if runs.len() == most || self.tokens.take_if(Kind::Comma)?.is_none() {
                self.close(Kind::RoundClose)?;
                return Ok(runs);
            }
        }
    }

    fn constraint(&mut self, string: Token<'t>) -> Outcome<()> {
        if self.model.constraints.len() == CONSTRAINTS {
            return refuse(6, string.place);
        }
        let left = self.linear(true)?;
        let relation = self.tokens.peek()?;
        match relation.kind {
            Kind::AtMost | Kind::AtLeast | Kind::Equal => self.tokens.take()?,
            _ => return refuse(3, relation.place),
        };
        let right = self.formula()?;
        let mut floor = None;
        if relation.kind == Kind::AtMost && self.tokens.take_if(Kind::Comma)?.is_some() {
            self.tokens.expect(Kind::AtLeast)?;
            floor = Some(self.formula()?);
        }
        let domain = match self.tokens.peek()?.kind {
            Kind::RoundOpen => self.domain(None)?,
            _ => Vec::new(),
        };
        self.model.constraints.push(Constraint {
            string: string.content(),
            place: string.place,
            left,
            relation: relation.kind,
            right,
            floor,
            domain,
        });
        Ok(())
    }

    /// An optional sign, then terms joined by `+` or `-`; `term` reads one behind its sign.
    fn joined<T>(
        &mut self,
        term: impl Fn(&mut Self, Option<Sign>) -> Outcome<T>,
    ) -> Outcome<Vec<T>> {
        let mut terms = Vec::new();
        let mut sign = self.sign()?;
        loop {
            terms.push(term(self, sign)?);
            sign = self.sign()?;
            if sign.is_none() {
                return Ok(terms);
            }
        }
    }

    fn formula(&mut self) -> Outcome<Formula> {
        self.joined(|parser, sign| {
            let first = parser.primary()?;
            let mut others = Vec::new();
            while let Some(star) = parser.tokens.take_if(Kind::Star)? {
                others.push((star.place, parser.primary()?));
            }
            Ok(Term {
                sign,
                first,
                others,
            })
        })
    }

    fn primary(&mut self) -> Outcome<Primary> {
        let token = self.tokens.peek()?;
        match token.kind {
            Kind::Literal => {
                self.tokens.take()?;
                Ok(Primary::Literal(token.value))
            }
            Kind::Name => {
                let name = self.known_name(token)?;
                let place = token.place;
                let primary = match self.model.names[name].sort {
                    Sort::Index => Primary::Index { name, place },
                    Sort::Formula => Primary::Declared(name),
                    Sort::Integer | Sort::Real => return self.access(name).map(Primary::Datum),
                    Sort::Discrete | Sort::Continuous => return refuse(3, place),
                };
                self.tokens.take()?;
                Ok(primary)
            }
            Kind::Sum => {
                let run = self.run()?;
                let body = self.formula()?;
                self.close(Kind::RoundClose)?;
                Ok(Primary::Sum(Box::new(run), body))
            }
            Kind::RoundOpen => {
                self.open(Kind::RoundOpen)?;
                let inner = self.formula()?;
                self.close(Kind::RoundClose)?;
                Ok(Primary::Group(inner))
            }
            _ => refuse(3, token.place),
        }
    }

    /// A linear form; inside a sigma's body no further sigma may stand.
    fn linear(&mut self, sigma_allowed: bool) -> Outcome<Linear> {
        self.joined(|parser, sign| {
            let mut factors = Vec::new();
            let last = loop {
                let token = parser.tokens.peek()?;
                if token.kind == Kind::Sigma && sigma_allowed {
                    break parser.sigma()?;
                }
                if token.kind == Kind::Name {
                    let name = parser.known_name(token)?;
                    if parser.model.names[name].sort.is_variable() {
                        break Last::Variable(parser.access(name)?);
                    }
                }
                let factor = parser.primary()?;
                factors.push((factor, parser.tokens.expect(Kind::Star)?.place));
            };
            Ok(LinearTerm {
                sign,
                factors,
                last,
            })
        })
    }

    fn sigma(&mut self) -> Outcome<Last> {
        let run = self.run()?;
        let body = if self.tokens.peek()?.kind == Kind::Sigma {
            vec![LinearTerm {
                sign: None,
                factors: Vec::new(),
                last: self.sigma()?,
            }]
        } else {
            self.linear(false)?
        };
        self.close(Kind::RoundClose)?;
        Ok(Last::Sigma(Box::new(run), body))
    }

    /// The part that `SUM` and `S` share: `(index, lower, upper,`.
    fn run(&mut self) -> Outcome<Run> {
        let place = self.tokens.take()?.place;
        self.open(Kind::RoundOpen)?;
        let index = self.index()?;
        self.tokens.expect(Kind::Comma)?;
        let lower = self.formula()?;
        self.tokens.expect(Kind::Comma)?;
        let upper = self.formula()?;
        self.tokens.expect(Kind::Comma)?;
        Ok(Run {
            index,
            place,
            lower,
            upper,
        })
    }

    /// The name ahead, a datum or variable, with as many subscripts as it has indices.
    fn access(&mut self, name: usize) -> Outcome<Access> {
        let place = self.tokens.take()?.place;
        let positions = self.model.names[name].domain.len();
        let mut subscripts = Vec::new();
        if positions > 0 {
            self.open(Kind::SquareOpen)?;
            subscripts.push(self.formula()?);
            while subscripts.len() < positions {
                self.tokens.expect(Kind::Comma)?;
                subscripts.push(self.formula()?);
            }
            self.close(Kind::SquareClose)?;
        }
        Ok(Access {
            name,
            place,
            subscripts,
        })
    }

    fn sign(&mut self) -> Outcome<Option<Sign>> {
        let token = self.tokens.peek()?;
        if token.kind != Kind::Plus && token.kind != Kind::Minus {
            return Ok(None);
        }
        self.tokens.take()?;
        Ok(Some(Sign {
            negative: token.kind == Kind::Minus,
            place: token.place,
        }))
    }

    fn known_name(&self, token: Token<'t>) -> Outcome<usize> {
        match self.known.get(token.bytes) {
            Some(&name) => Ok(name),
            None => refuse(4, token.place),
        }
    }

    fn index(&mut self) -> Outcome<usize> {
        let token = self.tokens.expect(Kind::Name)?;
        let name = self.known_name(token)?;
        if self.model.names[name].sort != Sort::Index {
            return refuse(3, token.place);
        }
        Ok(name)
    }

    fn open(&mut self, bracket: Kind) -> Outcome<()> {
        let token = self.tokens.expect(bracket)?;
        if self.open_brackets == NESTING {
            return refuse(6, token.place);
        }
        self.open_brackets += 1;
        Ok(())
    }

    fn close(&mut self, bracket: Kind) -> Outcome<()> {
        self.tokens.expect(bracket)?;
        self.open_brackets -= 1;
        Ok(())
    }
}

// ------------------------------------------------- The data section, carried out as read

/// A portion under way: its name, and the marked positions from the outermost run on.
struct Portion {
    name: usize,
    place: usize,
    order: Vec<usize>,
}

/// The value of each position that is bound by now.
type Entries = [Option<i64>; POSITIONS];

impl<'t> Parser<'t> {
    fn data(&mut self) -> Outcome<()> {
        self.model.data_string = self.tokens.expect(Kind::String)?.content();
        self.portion()?;
        loop {
            let token = self.tokens.peek()?;
            match token.kind {
                Kind::Name => self.portion()?,
                Kind::Plus | Kind::Minus => return refuse(10, token.place),
                _ => return Ok(()),
            }
        }
    }

    fn portion(&mut self) -> Outcome<()> {
        let token = self.tokens.expect(Kind::Name)?;
        let name = self.known_name(token)?;
        let place = token.place;
        if !self.model.names[name].sort.is_datum() {
            return refuse(3, place);
        }
        let mut entries = [None; POSITIONS];
        let mut order = Vec::new();
        if !self.model.names[name].domain.is_empty() {
            let marks = self.entries(name, &mut entries)?;
            let repeated = (1..marks.len()).any(|i| marks[..i].iter().any(|m| m.1 == marks[i].1));
            if repeated {
                return refuse(7, place);
            }
            order = marks.iter().map(|mark| mark.0).collect();
            if self.tokens.peek()?.kind == Kind::RoundOpen {
                order = self.order(&marks, place)?;
            }
        }
        self.carry_out(&Portion { name, place, order }, 0, entries)
    }

    /// The bracketed entries: fixed ones are bound, marked ones given back with their index.
    fn entries(&mut self, name: usize, entries: &mut Entries) -> Outcome<Vec<(usize, usize)>> {
        let mut marks = Vec::new();
        let positions = self.model.names[name].domain.len();
        self.open(Kind::SquareOpen)?;
        for (position, entry) in entries.iter_mut().enumerate().take(positions) {
            if position > 0 {
                self.tokens.expect(Kind::Comma)?;
            }
            if self.tokens.peek()?.kind == Kind::Name {
                marks.push((position, self.index()?));
                continue;
            }
            let negative = self.sign()?.is_some_and(|sign| sign.negative);
            let literal = self.tokens.expect(Kind::Literal)?;
            if literal.bytes.iter().any(|byte| b".E".contains(byte)) {
                return refuse(3, literal.place);
            }
            *entry = literal.value.negated_if(negative).whole();
        }
        self.close(Kind::SquareClose)?;
        Ok(marks)
    }

    /// An order list, which has to rearrange the marks.
    fn order(&mut self, marks: &[(usize, usize)], place: usize) -> Outcome<Vec<usize>> {
        let mut indices = Vec::new();
        self.open(Kind::RoundOpen)?;
        indices.push(self.index()?);
        while self.tokens.take_if(Kind::Comma)?.is_some() {
            indices.push(self.index()?);
        }
        self.close(Kind::RoundClose)?;
        let mut order = Vec::new();
        for index in &indices {
            match marks.iter().find(|mark| mark.1 == *index) {
                Some(mark) if !order.contains(&mark.0) => order.push(mark.0),
                _ => return refuse(7, place),
            }
        }
        if order.len() < marks.len() {
            return refuse(7, place);
        }
        Ok(order)
    }

    /// Runs the marked positions from number `depth` of the order on.
    fn carry_out(&mut self, portion: &Portion, depth: usize, entries: Entries) -> Outcome<()> {
        let Some(&position) = portion.order.get(depth) else {
            return self.number(portion, entries);
        };
        self.tokens.peek()?;
        let domain = &self.model.names[portion.name].domain;
        let mut bound = Bound::default();
        for (run, entry) in domain[..position].iter().zip(entries) {
            if let Some(value) = entry {
                bound = bound.with(run.index, value);
            }
        }
        for value in self.model.start(&domain[position], &bound)? {
            let mut entries = entries;
            entries[position] = Some(value);
            self.carry_out(portion, depth + 1, entries)?;
        }
        Ok(())
    }

    fn number(&mut self, portion: &Portion, entries: Entries) -> Outcome<()> {
        let place = self.tokens.peek()?.place;
        let Some(sign) = self.sign()? else {
            return refuse(10, place);
        };
        let literal = self.tokens.expect(Kind::Literal)?.value;
        let value = literal.negated_if(sign.negative);
        let model = &mut self.model;
        if model.names[portion.name].sort == Sort::Integer && value.whole().is_none() {
            return refuse(8, place);
        }
        let subscripts = entries.map(|entry| entry.unwrap_or(0));
        model.domain_test(portion.name, &subscripts, portion.place)?;
        let values = &mut model.names[portion.name].values;
        if values.contains_key(&subscripts) {
            return refuse(10, place);
        }
        if model.data_elements == DATA_ELEMENTS {
            return refuse(6, place);
        }
        model.data_elements += 1;
        values.insert(subscripts, value);
        Ok(())
    }
}

// ------------------------------------------------------------------------ Evaluation

/// One value per position, zero where there is none.
type Subscripts = [i64; POSITIONS];

/// The indices bound, with their values, from the outermost on.
#[derive(Clone, Copy, Default)]
struct Bound {
    indices: [usize; POSITIONS],
    values: Subscripts,
    count: usize,
}

impl Bound {
    fn get(&self, index: usize) -> Option<i64> {
        let bound = &self.indices[..self.count];
        let position = bound.iter().position(|one| *one == index)?;
        Some(self.values[position])
    }

    /// Binds one more; no more than four are ever asked for.
    fn with(mut self, index: usize, value: i64) -> Bound {
        self.indices[self.count] = index;
        self.values[self.count] = value;
        self.count += 1;
        self
    }
}

fn fitting(result: Option<Value>, place: usize) -> Outcome<Value> {
    result.ok_or(Refusal { number: 5, place })
}

fn whole(value: Value, place: usize) -> Outcome<i64> {
    value.whole().ok_or(Refusal { number: 8, place })
}

impl Model<'_> {
    fn formula(&self, formula: &Formula, bound: &Bound) -> Outcome<Value> {
        let mut total = Value::ZERO;
        for term in formula {
            let mut product = self.primary(&term.first, bound)?;
            for (star, primary) in &term.others {
                product = fitting(product.times(self.primary(primary, bound)?), *star)?;
            }
            // Only the first term may be without a sign, and 0 plus it always fits.
            let (negative, place) = term.sign.map_or((false, 0), |s| (s.negative, s.place));
            total = fitting(total.plus(product.negated_if(negative)), place)?;
        }
        Ok(total)
    }

    fn primary(&self, primary: &Primary, bound: &Bound) -> Outcome<Value> {
        match primary {
            Primary::Literal(value) => Ok(*value),
            Primary::Index { name, place } => match bound.get(*name) {
                Some(value) => Ok(Value::of(value)),
                None => refuse(7, *place),
            },
            Primary::Datum(access) => {
                let subscripts = self.element(access, bound)?;
                match self.names[access.name].values.get(&subscripts) {
                    Some(value) => Ok(*value),
                    None => refuse(10, access.place),
                }
            }
            Primary::Declared(name) => self.formula(&self.names[*name].formula, bound),
            Primary::Sum(run, body) => {
                let mut total = Value::ZERO;
                for value in self.start(run, bound)? {
                    let one = self.formula(body, &bound.with(run.index, value))?;
                    total = fitting(total.plus(one), run.place)?;
                }
                Ok(total)
            }
            Primary::Group(formula) => self.formula(formula, bound),
        }
    }

    /// The limits of a run, the lower one rounded up and the upper one down.
    fn limits(&self, run: &Run, bound: &Bound) -> Outcome<RangeInclusive<i64>> {
        let lower = self.formula(&run.lower, bound)?;
        let upper = self.formula(&run.upper, bound)?;
        Ok(lower.rounded_up()..=upper.rounded_down())
    }

    /// The values that a run takes, with the tests at its start.
    fn start(&self, run: &Run, bound: &Bound) -> Outcome<RangeInclusive<i64>> {
        let limits = self.limits(run, bound)?;
        if limits.end() - limits.start() >= RUN_LENGTH {
            return refuse(8, run.place);
        }
        if bound.count == POSITIONS || bound.get(run.index).is_some() {
            return refuse(7, run.place);
        }
        Ok(limits)
    }

    /// The subscripts of a name that is read, tested.
    fn element(&self, access: &Access, bound: &Bound) -> Outcome<Subscripts> {
        let mut subscripts = Subscripts::default();
        for (subscript, formula) in subscripts.iter_mut().zip(&access.subscripts) {
            *subscript = whole(self.formula(formula, bound)?, access.place)?;
        }
        self.domain_test(access.name, &subscripts, access.place)?;
        Ok(subscripts)
    }

    fn domain_test(&self, name: usize, subscripts: &Subscripts, place: usize) -> Outcome<()> {
        let mut bound = Bound::default();
        for (run, subscript) in self.names[name].domain.iter().zip(subscripts) {
            if !self.limits(run, &bound)?.contains(subscript) {
                return refuse(9, place);
            }
            bound = bound.with(run.index, *subscript);
        }
        Ok(())
    }

    /// Visits the elements of a domain, the first index outermost.
    fn walk(
        &self,
        domain: &[Run],
        bound: &Bound,
        visit: &mut dyn FnMut(&Bound) -> Outcome<()>,
    ) -> Outcome<()> {
        let Some((run, inner)) = domain.split_first() else {
            return visit(bound);
        };
        for value in self.start(run, bound)? {
            self.walk(inner, &bound.with(run.index, value), visit)?;
        }
        Ok(())
    }

    fn missing_data(&self) -> Outcome<()> {
        for name in self.names.iter().filter(|name| name.sort.is_datum()) {
            self.walk(&name.domain, &Bound::default(), &mut |bound| {
                if !name.values.contains_key(&bound.values) {
                    return refuse(10, name.place);
                }
                Ok(())
            })?;
        }
        Ok(())
    }
}

// -------------------------------------------------------------- Numbering and bounds

struct Variable {
    name: usize,
    subscripts: Subscripts,
    lower: Option<Value>,
    upper: Option<Value>,
}

struct Row {
    constraint: usize,
    subscripts: Subscripts,
    right: Value,
    floor: Option<Value>,
    coefficients: Vec<(usize, Value)>,
}

/// All that is listed. Variables and rows are numbered from 0 here.
struct Program<'m> {
    model: &'m Model<'m>,
    variables: Vec<Variable>,
    numbers: HashMap<(usize, Subscripts), usize>,
    objective: Vec<Value>,
    inequalities: Vec<Row>,
    equations: Vec<Row>,
}

impl<'m> Program<'m> {
    fn build(model: &'m Model) -> Outcome<Program<'m>> {
        model.missing_data()?;
        let mut program = Program {
            model,
            variables: Vec::new(),
            numbers: HashMap::new(),
            objective: Vec::new(),
            inequalities: Vec::new(),
            equations: Vec::new(),
        };
        program.number_variables()?;
        let once = Bound::default();
        program.objective = program.gather(&model.objective, &once)?;
        for value in &mut program.objective {
            *value = value.negated_if(model.minimize);
        }
        for (number, constraint) in model.constraints.iter().enumerate() {
            let bounded = bounded_variable(constraint);
            model.walk(&constraint.domain, &once, &mut |bound| match bounded {
                Some(access) => program.bound(constraint, access, bound),
                None => program.row(number, bound),
            })?;
        }
        Ok(program)
    }

    /// Discrete names are declared before continuous ones, so text order is enough.
    fn number_variables(&mut self) -> Outcome<()> {
        let model = self.model;
        for (number, name) in model.names.iter().enumerate() {
            if !name.sort.is_variable() {
                continue;
            }
            model.walk(&name.domain, &Bound::default(), &mut |bound| {
                if self.variables.len() == VARIABLES {
                    return refuse(6, name.place);
                }
                let element = (number, bound.values);
                self.numbers.insert(element, self.variables.len());
                self.variables.push(Variable {
                    name: number,
                    subscripts: bound.values,
                    lower: None,
                    upper: None,
                });
                Ok(())
            })?;
        }
        Ok(())
    }

    fn variable(&self, access: &Access, bound: &Bound) -> Outcome<usize> {
        let subscripts = self.model.element(access, bound)?;
        match self.numbers.get(&(access.name, subscripts)) {
            Some(number) => Ok(*number),
            None => refuse(9, access.place),
        }
    }

    /// The right side and the floor of a constraint, in this order.
    fn sides(&self, constraint: &Constraint, bound: &Bound) -> Outcome<(Value, Option<Value>)> {
        let right = self.model.formula(&constraint.right, bound)?;
        let floor = match &constraint.floor {
            Some(floor) => Some(self.model.formula(floor, bound)?),
            None => None,
        };
        Ok((right, floor))
    }

    /// The coefficients of a linear form, one per variable.
    fn gather(&self, linear: &Linear, bound: &Bound) -> Outcome<Vec<Value>> {
        let mut sums = vec![Value::ZERO; self.variables.len()];
        self.add(linear, Value::ONE, false, bound, &mut sums)?;
        Ok(sums)
    }

    /// Adds a linear form; `start` and `negative` are what stands before its sigma.
    fn add(
        &self,
        linear: &Linear,
        start: Value,
        negative: bool,
        bound: &Bound,
        sums: &mut [Value],
    ) -> Outcome<()> {
        for term in linear {
            let mut coefficient = start;
            for (factor, star) in &term.factors {
                let factor = self.model.primary(factor, bound)?;
                coefficient = fitting(coefficient.times(factor), *star)?;
            }
            let negative = negative != term.sign.is_some_and(|sign| sign.negative);
            match &term.last {
                Last::Variable(access) => {
                    let sum = &mut sums[self.variable(access, bound)?];
                    *sum = fitting(sum.plus(coefficient.negated_if(negative)), access.place)?;
                }
                Last::Sigma(run, body) => {
                    for value in self.model.start(run, bound)? {
                        let inner = bound.with(run.index, value);
                        self.add(body, coefficient, negative, &inner, sums)?;
                    }
                }
            }
        }
        Ok(())
    }

    /// One element of a constraint that is a bound.
    fn bound(&mut self, constraint: &Constraint, access: &Access, bound: &Bound) -> Outcome<()> {
        let number = self.variable(access, bound)?;
        let (right, floor) = self.sides(constraint, bound)?;
        let (least, most) = match constraint.relation {
            Kind::AtMost => (floor, Some(right)),
            Kind::AtLeast => (Some(right), None),
            _ => (Some(right), Some(right)),
        };
        let variable = &mut self.variables[number];
        if let Some(least) = least {
            variable.lower = Some(variable.lower.map_or(least, |lower| lower.max(least)));
        }
        if let Some(most) = most {
            variable.upper = Some(variable.upper.map_or(most, |upper| upper.min(most)));
        }
        Ok(())
    }

    /// One element of any other constraint.
    fn row(&mut self, number: usize, bound: &Bound) -> Outcome<()> {
        let constraint = &self.model.constraints[number];
        let sums = self.gather(&constraint.left, bound)?;
        let (right, floor) = self.sides(constraint, bound)?;
        if self.inequalities.len() + self.equations.len() == ROWS {
            return refuse(6, constraint.place);
        }
        let negative = constraint.relation == Kind::AtLeast;
        let coefficients = sums
            .iter()
            .enumerate()
            .filter(|(_, sum)| **sum != Value::ZERO)
            .map(|(variable, sum)| (variable, sum.negated_if(negative)));
        let row = Row {
            constraint: number,
            subscripts: bound.values,
            right: right.negated_if(negative),
            floor,
            coefficients: coefficients.collect(),
        };
        match constraint.relation {
            Kind::Equal => self.equations.push(row),
            _ => self.inequalities.push(row),
        }
        Ok(())
    }
}

/// The variable of a left side that is one variable without sign or factor.
fn bounded_variable<'m>(constraint: &'m Constraint) -> Option<&'m Access> {
    match &constraint.left[..] {
        [LinearTerm {
            sign: None,
            factors,
            last: Last::Variable(access),
        }] if factors.is_empty() => Some(access),
        _ => None,
    }
}

// --------------------------------------------------------------------------- Listing

impl<'m> Program<'m> {
    fn print(&self) -> Vec<u8> {
        let model = self.model;
        let discrete = |variable: &&Variable| model.names[variable.name].sort == Sort::Discrete;
        let discrete_count = self.variables.iter().filter(discrete).count();
        let row_count = self.inequalities.len() + self.equations.len();

        let mut lines = Lines(Vec::new());
        lines.start("lp");
        lines.count(discrete_count);
        lines.count(self.variables.len());
        lines.count(self.inequalities.len());
        lines.count(row_count);
        lines.field(model.string);
        lines.field(model.data_string);
        lines.end();

        let mut columns = vec![Vec::new(); self.variables.len()];
        let rows = self.inequalities.iter().chain(&self.equations);
        for (number, row) in (1..).zip(rows) {
            let constraint = &model.constraints[row.constraint];
            lines.start("row");
            lines.count(number);
            lines.field(match (constraint.relation, row.floor) {
                (Kind::Equal, _) => b"E",
                (_, Some(_)) => b"R",
                (_, None) => b"L",
            });
            lines.value(row.right);
            lines.field(constraint.string);
            lines.subscripts(&row.subscripts[..constraint.domain.len()]);
            lines.end();
            lines.low(number, row.floor);
            for (variable, coefficient) in &row.coefficients {
                columns[*variable].push((number, *coefficient));
            }
        }

        for (number, variable) in (1..).zip(&self.variables) {
            let name = &model.names[variable.name];
            lines.start("var");
            lines.count(number);
            lines.field(if discrete(&variable) { b"D" } else { b"C" });
            lines.value(variable.lower.unwrap_or(Value::ZERO));
            match variable.upper {
                Some(upper) => lines.value(upper),
                None => lines.field(b"inf"),
            }
            lines.field(name.bytes);
            lines.subscripts(&variable.subscripts[..name.domain.len()]);
            lines.end();
        }

        for (column, objective) in columns.iter_mut().zip(&self.objective) {
            column.push((row_count + 1, *objective));
        }
        for (number, column) in (1..).zip(columns) {
            for (row, coefficient) in column {
                lines.start("col");
                lines.count(number);
                lines.count(row);
                lines.value(coefficient);
                lines.end();
            }
        }
        lines.start("end");
        lines.end();
        lines.0
    }
}

struct Lines(Vec<u8>);

impl Lines {
    fn start(&mut self, word: &str) {
        self.0.extend_from_slice(word.as_bytes());
    }

    fn field(&mut self, bytes: &[u8]) {
        self.0.push(b'\t');
        self.0.extend_from_slice(bytes);
    }

    fn count(&mut self, count: usize) {
        self.0.push(b'\t');
        print_number(count as i64, 1, &mut self.0);
    }

    fn value(&mut self, value: Value) {
        self.0.push(b'\t');
        value.print(&mut self.0);
    }

    fn subscripts(&mut self, subscripts: &[i64]) {
        for subscript in subscripts {
            self.value(Value::of(*subscript));
        }
    }

    fn end(&mut self) {
        self.0.push(b'\n');
    }

    /// The line behind that of a row, if the row has a floor.
    fn low(&mut self, row: usize, floor: Option<Value>) {
        if let Some(floor) = floor {
            self.start("low");
            self.count(row);
            self.value(floor);
            self.end();
        }
    }
}
