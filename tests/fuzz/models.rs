//! Random model texts: mostly right ones, written by the grammar, and changes that break them. Exports likewise.
//!
//! Runs are short and few names depend on each other, since a text may ask for as many steps as it writes.

/// Numbers from a seed (xorshift).
pub struct Random {
    state: u64,
}

impl Random {
    pub fn new(seed: u64) -> Random {
        Random {
            state: seed.wrapping_mul(0x9e37_79b9_7f4a_7c15) | 1,
        }
    }

    pub fn next(&mut self) -> u64 {
        self.state ^= self.state << 13;
        self.state ^= self.state >> 7;
        self.state ^= self.state << 17;
        self.state
    }

    pub fn below(&mut self, n: usize) -> usize {
        (self.next() >> 11) as usize % n
    }

    pub fn chance(&mut self, percent: usize) -> bool {
        self.below(100) < percent
    }

    fn of<'a>(&mut self, choices: &[&'a str]) -> &'a str {
        choices[self.below(choices.len())]
    }
}

/// A limit of a declared domain, of a kind whose value the writer knows. `Halves` are so many halves, and the last two are half of an
/// integer and half of an earlier index.
#[derive(Clone, Copy)]
enum Limit {
    Halves(i64),
    Integer(usize),
    Earlier(usize),
    HalfInteger(usize),
    HalfEarlier(usize),
}

#[derive(Clone)]
struct Name {
    spelling: String,
    domain: Vec<(usize, Limit, Limit)>,
}

const INDICES: [&str; 5] = ["i", "j", "k", "l", "m1"];

struct Writer<'a> {
    random: &'a mut Random,
    text: String,
    indices: usize,
    scalars: Vec<(String, i64)>,
    integers: Vec<Name>,
    reals: Vec<Name>,
    formulas: usize,
    variables: Vec<Name>,
    bound: Vec<usize>,
}

/// A model text.
pub fn model(random: &mut Random) -> Vec<u8> {
    let indices = 1 + random.below(INDICES.len());
    let mut writer = Writer {
        random,
        text: String::new(),
        indices,
        scalars: Vec::new(),
        integers: Vec::new(),
        reals: Vec::new(),
        formulas: 0,
        variables: Vec::new(),
        bound: Vec::new(),
    };
    writer.model();
    writer.text.into_bytes()
}

impl Writer<'_> {
    fn put(&mut self, token: &str) {
        let blank = match self.random.below(20) {
            0 => "\n",
            1 => "  ",
            2 => "\t",
            _ => " ",
        };
        self.text.push_str(token);
        self.text.push_str(blank);
    }

    fn title(&mut self) {
        let title = self
            .random
            .of(&["{a}", "{row of feeds}", "{b, c; 1}", "{~!}", "{S(}"]);
        self.put(title);
    }

    fn model(&mut self) {
        self.put("OPEN");
        self.title();
        self.declarations();
        let goal = self.random.of(&["MINIMIZE", "MAXIMIZE"]);
        self.put(goal);
        self.put(":");
        self.linear();
        for _ in 0..1 + self.random.below(5) {
            self.constraint();
        }
        if self.scalars.len() + self.integers.len() + self.reals.len() > 0 || self.random.chance(3)
        {
            self.put("INIT");
            self.title();
            self.data();
        }
        self.put("CLOSE");
    }

    // ---- declarations

    fn declarations(&mut self) {
        self.put("index");
        for i in 0..self.indices {
            self.comma(i);
            self.put(INDICES[i]);
        }
        self.put(";");
        for (i, name) in ["n", "t"].iter().enumerate().take(self.random.below(3)) {
            self.put(if i == 0 { "integer" } else { "," });
            self.put(name);
            let value = if self.random.chance(90) {
                2 + self.random.below(2)
            } else {
                self.random.below(5)
            } as i64;
            self.scalars.push((name.to_string(), value));
        }
        self.integers = self.names(
            &["q1", "q2"],
            if self.scalars.is_empty() {
                "integer"
            } else {
                ","
            },
        );
        if !self.scalars.is_empty() || !self.integers.is_empty() {
            self.put(";");
        }
        self.reals = self.names(&["p", "a", "price"], "real");
        if !self.reals.is_empty() {
            self.put(";");
        }
        for i in 0..self.random.below(4) {
            self.put(if i == 0 { "formula" } else { "," });
            let name = format!("f{i}");
            self.put(&name);
            self.put("=");
            // A declared formula may use any index: it is bound, or not, where the formula is used.
            self.bound = (0..self.random.below(2)).collect();
            self.formula(2);
            self.formulas = i + 1;
        }
        self.bound.clear();
        if self.formulas > 0 {
            self.put(";");
        }
        for (word, spellings) in [("discrete", ["z", "y1"]), ("continuous", ["x", "y"])] {
            let names = self.names(&spellings, word);
            if !names.is_empty() {
                self.put(";");
            }
            self.variables.extend(names);
        }
        if self.variables.is_empty() {
            self.put("continuous x ;");
            self.variables.push(Name {
                spelling: "x".to_string(),
                domain: Vec::new(),
            });
        }
    }

    fn comma(&mut self, i: usize) {
        if i > 0 {
            self.put(",");
        }
    }

    fn names(&mut self, spellings: &[&str], word: &str) -> Vec<Name> {
        let mut names = Vec::new();
        for (i, spelling) in spellings
            .iter()
            .enumerate()
            .take(self.random.below(spellings.len() + 1))
        {
            self.put(if i == 0 { word } else { "," });
            self.put(spelling);
            let domain = self.declared_domain();
            names.push(Name {
                spelling: spelling.to_string(),
                domain,
            });
        }
        names
    }

    fn declared_domain(&mut self) -> Vec<(usize, Limit, Limit)> {
        let mut domain: Vec<(usize, Limit, Limit)> = Vec::new();
        let first = self.random.below(self.indices);
        for j in 0..self.random.below(4).min(self.indices) {
            let lower = match self.random.below(100) {
                0..=79 => Limit::Halves(2),
                80..=89 => Limit::Halves(1),
                90..=94 if j > 0 => Limit::HalfEarlier(self.random.below(j)),
                _ => Limit::Halves(self.random.below(8) as i64 - 4),
            };
            let half = self.random.chance(15);
            let upper = match self.random.below(4) {
                0 if !self.scalars.is_empty() => {
                    let integer = self.random.below(self.scalars.len());
                    if half {
                        Limit::HalfInteger(integer)
                    } else {
                        Limit::Integer(integer)
                    }
                }
                1 if j > 0 && self.random.chance(40) => {
                    let earlier = self.random.below(j);
                    if half {
                        Limit::HalfEarlier(earlier)
                    } else {
                        Limit::Earlier(earlier)
                    }
                }
                _ if self.random.chance(90) => Limit::Halves(6 + i64::from(half)),
                _ => Limit::Halves(self.random.below(11) as i64 - 2),
            };
            domain.push(((first + j) % self.indices, lower, upper));
        }
        if domain.is_empty() {
            return domain;
        }
        self.put("[");
        for (j, entry) in domain.iter().enumerate() {
            self.comma(j);
            self.put(INDICES[entry.0]);
        }
        self.put("]");
        self.put("(");
        for (j, &(index, lower, upper)) in domain.iter().enumerate() {
            self.comma(j);
            self.limit(lower, &domain);
            self.put("<=");
            self.put(INDICES[index]);
            self.put("<=");
            self.limit(upper, &domain);
        }
        self.put(")");
        domain
    }

    fn limit(&mut self, limit: Limit, domain: &[(usize, Limit, Limit)]) {
        let tokens = match limit {
            Limit::Halves(n) if n % 2 != 0 => format!("{}", n as f64 / 2.0),
            Limit::Halves(n) if self.random.chance(5) => format!("{}E0", n / 2),
            Limit::Halves(n) => (n / 2).to_string(),
            Limit::Integer(i) => self.scalars[i].0.clone(),
            Limit::Earlier(j) => INDICES[domain[j].0].to_string(),
            Limit::HalfInteger(i) => format!("0.5 * {}", self.scalars[i].0),
            Limit::HalfEarlier(j) => format!(".5 * {}", INDICES[domain[j].0]),
        };
        self.put(&tokens);
    }

    /// The value of a limit, in halves.
    fn halves(&self, limit: Limit, element: &[i64]) -> i64 {
        match limit {
            Limit::Halves(n) => n,
            Limit::Integer(i) => 2 * self.scalars[i].1,
            Limit::Earlier(j) => 2 * element[j],
            Limit::HalfInteger(i) => self.scalars[i].1,
            Limit::HalfEarlier(j) => element[j],
        }
    }

    fn elements(
        &self,
        domain: &[(usize, Limit, Limit)],
        element: &mut Vec<i64>,
        all: &mut Vec<Vec<i64>>,
    ) {
        let Some(&(_, lower, upper)) = domain.get(element.len()) else {
            all.push(element.clone());
            return;
        };
        // Every whole number between the two.
        for k in -9..=9 {
            if self.halves(lower, element) <= 2 * k && 2 * k <= self.halves(upper, element) {
                element.push(k);
                self.elements(domain, element, all);
                element.pop();
            }
        }
    }

    // ---- formulas

    fn literal(&mut self) {
        let literals: &[&str] = match self.random.below(100) {
            0..=81 => &["0", "1", "2", "3", "0.5", ".25", "1.50", "100"],
            82..=91 => &[
                "1E0",
                "5E-1",
                "2.0E+00",
                "25E-2",
                "10E-1",
                ".2E1",
                "0E99",
                "1.5E+2",
                "1000000000E-9",
                "0.0000001E07",
            ],
            92..=98 => &[
                "12.75",
                "99999",
                "0.001",
                "999999999",
                "0.000001",
                "1000",
                "0.01",
                "7",
            ],
            _ => return self.power(),
        };
        let literal = self.random.of(literals);
        self.put(literal);
    }

    /// A literal with any power of ten, which may not fit, or an `E` with too few or too many digits.
    fn power(&mut self) {
        let decimal = self
            .random
            .of(&["0", "1", "2.5", ".001", "120", "000000001000000000"]);
        let sign = self.random.of(&["", "", "+", "-", "-"]);
        let digits = match self.random.below(20) {
            0 => String::new(),
            1 => self.random.below(1000).to_string(),
            2..=5 => self.random.below(100).to_string(),
            _ => self.random.below(10).to_string(),
        };
        let literal = format!("{decimal}E{sign}{digits}");
        self.put(&literal);
    }

    fn formula(&mut self, depth: usize) {
        if self.random.chance(15) {
            let sign = self.random.of(&["+", "-"]);
            self.put(sign);
        }
        for i in 0..1 + self.random.below(2) {
            if i > 0 {
                let sign = self.random.of(&["+", "-"]);
                self.put(sign);
            }
            self.term(depth);
        }
    }

    fn term(&mut self, depth: usize) {
        self.primary(depth);
        if self.random.chance(25) {
            self.put("*");
            self.primary(depth);
        }
    }

    fn primary(&mut self, depth: usize) {
        match self.random.below(if depth == 0 { 6 } else { 10 }) {
            0 if !self.scalars.is_empty() => {
                let name = self.scalars[self.random.below(self.scalars.len())]
                    .0
                    .clone();
                self.put(&name);
            }
            1 if self.formulas > 0 => {
                let name = format!("f{}", self.random.below(self.formulas));
                self.put(&name);
            }
            2 | 3 if !self.bound.is_empty() => {
                let index = self.bound[self.random.below(self.bound.len())];
                self.put(INDICES[index]);
            }
            4 => self.datum(depth),
            6 => {
                self.put("(");
                self.formula(depth - 1);
                self.put(")");
            }
            7 => self.sum(depth),
            8 | 9 => self.datum(depth),
            _ => self.literal(),
        }
    }

    fn datum(&mut self, depth: usize) {
        let names: Vec<Name> = self.reals.iter().chain(&self.integers).cloned().collect();
        if names.is_empty() {
            return self.literal();
        }
        let name = &names[self.random.below(names.len())];
        self.named(name, depth);
    }

    fn named(&mut self, name: &Name, depth: usize) {
        self.put(&name.spelling);
        if name.domain.is_empty() {
            return;
        }
        self.put("[");
        for j in 0..name.domain.len() {
            self.comma(j);
            if !self.bound.is_empty() && self.random.chance(70) {
                let index = self.bound[self.random.below(self.bound.len())];
                self.put(INDICES[index]);
            } else if depth > 0 && self.random.chance(4) {
                self.formula(depth - 1);
            } else {
                let number = self
                    .random
                    .of(&["1", "1", "1", "2", "1 + 1", "2 * 1", "2.0", "10E-1"]);
                self.put(number);
            }
        }
        self.put("]");
    }

    /// Takes an index that has no value, if there is one, and writes an index and its limits.
    fn run(&mut self) -> usize {
        let free: Vec<usize> = (0..self.indices)
            .filter(|i| !self.bound.contains(i))
            .collect();
        let index = if free.is_empty() || self.random.chance(3) {
            self.random.below(self.indices)
        } else {
            free[self.random.below(free.len())]
        };
        self.put(INDICES[index]);
        self.put(",");
        self.lower();
        self.put(",");
        if !self.scalars.is_empty() && self.random.chance(40) {
            let name = self.scalars[self.random.below(self.scalars.len())]
                .0
                .clone();
            self.put(&name);
        } else if !self.bound.is_empty() && self.random.chance(30) {
            let index = self.bound[self.random.below(self.bound.len())];
            self.put(INDICES[index]);
        } else {
            self.upper();
        }
        self.put(",");
        index
    }

    /// A lower limit of a run: mostly one that is 1 once it is rounded up.
    fn lower(&mut self) {
        let lower = if self.random.chance(97) {
            self.random.of(&["1", "1", "1", "1", "1", "1", "1", "0.5"])
        } else {
            self.random.of(&["0.000001", "-0.5", "-1.5", "1.5", "0"])
        };
        self.put(lower);
    }

    /// An upper limit of a run: short, and now and then longer than what is declared.
    fn upper(&mut self) {
        let most = if self.random.chance(95) { 3 } else { 5 };
        let places = self.random.of(&["", "", "", "", "", ".5", ".999999", ".0"]);
        let upper = format!("{}{places}", self.random.below(most));
        self.put(&upper);
    }

    fn sum(&mut self, depth: usize) {
        self.put("SUM");
        self.put("(");
        if self.random.chance(2) {
            return self.long_run();
        }
        let index = self.run();
        self.bound.push(index);
        self.formula(depth - 1);
        self.bound.pop();
        self.put(")");
    }

    /// The rest of a sum of 256 or 257 elements, whose body is a literal.
    fn long_run(&mut self) {
        let index = self.random.below(self.indices);
        self.put(INDICES[index]);
        let limits = self.random.of(&[
            ", 1, 256,",
            ", 1, 257,",
            ", 0.5, 256.5,",
            ", -0.5, 256.5,",
            ", -0.5, 255.5,",
            ", 1.5, 257.25,",
        ]);
        self.put(limits);
        self.literal();
        self.put(")");
    }

    // ---- linear forms

    fn variable(&mut self) {
        let name = self.variables[self.random.below(self.variables.len())].clone();
        self.named(&name, 1);
    }

    /// The sign of the term with this number, which the first rarely has, and its factors.
    fn before_variable(&mut self, i: usize) {
        if i > 0 || self.random.chance(10) {
            let sign = self.random.of(&["+", "-"]);
            self.put(sign);
        }
        while self.random.chance(35) {
            self.primary(1);
            self.put("*");
        }
    }

    fn linear(&mut self) {
        for i in 0..1 + self.random.below(3) {
            self.before_variable(i);
            if self.random.chance(45) {
                self.sigma();
            } else {
                self.variable();
            }
        }
    }

    fn sigma(&mut self) {
        self.put("S");
        self.put("(");
        let index = self.run();
        self.bound.push(index);
        if self.bound.len() < 4 && self.random.chance(25) {
            self.sigma();
        } else {
            for i in 0..1 + self.random.below(2) {
                self.before_variable(i);
                self.variable();
            }
        }
        self.bound.pop();
        self.put(")");
    }

    fn constraint(&mut self) {
        self.title();
        let count = self.random.below(3).min(self.indices);
        let first = self.random.below(self.indices);
        let domain: Vec<usize> = (0..count).map(|j| (first + j) % self.indices).collect();
        self.bound = domain.clone();
        if self.random.chance(35) {
            self.variable();
        } else {
            self.linear();
        }
        let relation = self.random.of(&["<=", "<=", ">=", "="]);
        self.put(relation);
        self.formula(2);
        // A floor, rarely where none may stand.
        if self.random.chance(if relation == "<=" { 40 } else { 1 }) {
            self.put(",");
            self.put(">=");
            self.formula(2);
        }
        self.bound.clear();
        if domain.is_empty() {
            return;
        }
        self.put("(");
        for (j, index) in domain.iter().enumerate() {
            self.comma(j);
            self.lower();
            self.put("<=");
            self.put(INDICES[*index]);
            self.put("<=");
            if j > 0 && self.random.chance(30) {
                self.put(INDICES[domain[0]]);
            } else {
                self.upper();
            }
        }
        self.put(")");
    }

    // ---- data

    fn data(&mut self) {
        for (name, value) in self.scalars.clone() {
            self.put(&name);
            let number = format!("+ {value}");
            self.put(&number);
        }
        for (whole, names) in [(true, self.integers.clone()), (false, self.reals.clone())] {
            for name in names {
                self.portions(&name, whole);
            }
        }
        if self.random.chance(4) {
            self.put("x + 1");
        }
    }

    fn number(&mut self, whole: bool) {
        let number = if whole {
            self.random.of(&[
                "+ 1", "+ 2", "+ 1.0", "+ 1", "+ 2", "+ 1", "+ 10E-1", "- 1", "+ 0", "+ 2E0",
            ])
        } else {
            self.random.of(&[
                "+ 1", "+ 0.5", "- 2.25", "+ 3.10", "+ 0", "+ 12", "+ 0.01", "+ 2.5E-3", "- 1.2E1",
            ])
        };
        self.put(number);
    }

    fn portions(&mut self, name: &Name, whole: bool) {
        let mut elements = Vec::new();
        self.elements(&name.domain, &mut Vec::new(), &mut elements);
        if elements.is_empty() && self.random.chance(50) {
            return;
        }
        if name.domain.is_empty() {
            self.put(&name.spelling);
            self.number(whole);
        } else if self.random.chance(25) {
            for element in &elements {
                self.put(&name.spelling);
                let mut entries: Vec<String> = element.iter().map(i64::to_string).collect();
                if self.random.chance(1) {
                    entries[0] += "E0";
                }
                let entries = format!("[{}]", entries.join(","));
                self.put(&entries);
                self.number(whole);
            }
        } else {
            self.put(&name.spelling);
            let marks: Vec<&str> = (0..name.domain.len())
                .map(|j| INDICES[j % self.indices])
                .collect();
            let entries = format!("[{}]", marks.join(","));
            self.put(&entries);
            if self.random.chance(20) {
                let order: Vec<&str> = if self.random.chance(50) {
                    marks.iter().rev().copied().collect()
                } else {
                    marks
                };
                let order = format!("({})", order.join(","));
                self.put(&order);
            }
            let count = elements.len() + usize::from(self.random.chance(2))
                - usize::from(!elements.is_empty() && self.random.chance(2));
            for _ in 0..count {
                self.number(whole);
            }
        }
    }
}

/// A text with a few changes: bytes or words left out, doubled, swapped or put in, or the end cut off.
pub fn changed(random: &mut Random, text: &[u8]) -> Vec<u8> {
    let mut text = text.to_vec();
    for _ in 0..1 + random.below(3) {
        if text.is_empty() {
            break;
        }
        let at = random.below(text.len());
        match random.below(9) {
            0 => {
                text.remove(at);
            }
            1 => text[at] = random.below(256) as u8,
            2 => text.truncate(at),
            3 => {
                let end = (at + 1 + random.below(12)).min(text.len());
                text.drain(at..end);
            }
            4 => {
                let end = (at + 1 + random.below(12)).min(text.len());
                let piece = text[at..end].to_vec();
                let to = random.below(text.len());
                text.splice(to..to, piece);
            }
            _ => {
                let words = [
                    "+",
                    "-",
                    "*",
                    ",",
                    ";",
                    ":",
                    "=",
                    "<=",
                    ">=",
                    ",>=",
                    ", >= 1",
                    "(",
                    ")",
                    "[",
                    "]",
                    "{x}",
                    "OPEN",
                    "CLOSE",
                    "INIT",
                    "SUM(i,1,2,",
                    "S(i,1,2,",
                    "i",
                    "j",
                    "x",
                    "n",
                    "p[1]",
                    "0.5",
                    "7",
                    "99999",
                    "1000000000",
                    "1E0",
                    "2.5E-3",
                    "1E9",
                    "E",
                    "E5",
                    "index",
                    "real",
                    "integer",
                    "formula",
                    "discrete",
                    "continuous",
                    "MINIMIZE",
                    "averylongnameindeed",
                    "?",
                    "SUM(k,1,257,",
                    "SUM(k,0.5,256.5,",
                    "SUM(k,-0.5,256.5,",
                    " ",
                ];
                let blank = random.of(&[" ", " ", " ", ""]);
                let word = format!("{blank}{}{blank}", random.of(&words));
                text.splice(at..at, word.into_bytes());
            }
        }
    }
    text
}

/// The export of a random list, written line by line, and whether it has no more rows and variables than allowed.
pub fn export(random: &mut Random) -> (Vec<u8>, bool) {
    let (rows, variables) = (size(random), size(random));
    let (less, whole) = (random.below(rows + 1), random.below(variables + 1));
    let mut text = "NAME MODEL\nROWS\n N OBJ\n".to_string();
    let percent = [0, 30, 100][random.below(3)];
    let mut floors = vec![false; rows + 1];
    for row in 1..=rows {
        let kind = if row <= less { "L" } else { "E" };
        text += &format!(" {kind} R{row}\n");
        floors[row] = row <= less && random.chance(percent);
        if floors[row] {
            text += &format!(" G F{row}\n");
        }
    }
    text += "COLUMNS\n";
    for variable in 1..=variables {
        if variable == 1 && whole > 0 {
            text += " M 'MARKER' 'INTORG'\n";
        }
        // A column has some five coefficients at most.
        let mut row = 1 + random.below(2);
        while row <= rows {
            let value = value(random);
            if value != "0" {
                text += &format!(" C{variable} R{row} {value}\n");
                if floors[row] {
                    text += &format!(" C{variable} F{row} {value}\n");
                }
            }
            row += 1 + random.below(1 + rows / 3);
        }
        text += &format!(" C{variable} OBJ {}\n", value(random));
        if variable == whole {
            text += " M 'MARKER' 'INTEND'\n";
        }
    }
    text += "RHS\n";
    for row in 1..=rows {
        text += &format!(" MODEL R{row} {}\n", value(random));
        if floors[row] {
            text += &format!(" MODEL F{row} {}\n", value(random));
        }
    }
    text += "BOUNDS\n";
    for variable in 1..=variables {
        text += &format!(" LO MODEL C{variable} {}\n", value(random));
        text += &if random.chance(50) {
            format!(" PL MODEL C{variable}\n")
        } else {
            format!(" UP MODEL C{variable} {}\n", value(random))
        };
    }
    text += "ENDATA\n";
    (text.into_bytes(), rows <= 512 && variables <= 512)
}

/// How many rows or variables: mostly few, rarely as many as allowed or more.
fn size(random: &mut Random) -> usize {
    match random.below(200) {
        0 => 510 + random.below(5),
        1..=20 => random.below(60),
        _ => random.below(7),
    }
}

/// A value that fits, as it is printed: of up to nine digits and six decimals.
fn value(random: &mut Random) -> String {
    let digits = 1 + random.below(9);
    let size = if random.chance(5) {
        999_999_999
    } else {
        random.below(10usize.pow(digits as u32))
    };
    let decimals = random.below(7);
    let number = format!("{size:0width$}", width = decimals + 1);
    let (whole, rest) = number.split_at(number.len() - decimals);
    let rest = rest.trim_end_matches('0');
    let sign = if size > 0 && random.chance(40) {
        "-"
    } else {
        ""
    };
    let point = if rest.is_empty() { "" } else { "." };
    format!("{sign}{whole}{point}{rest}")
}

/// An export with a change or two: a byte changed, deleted or inserted, the end cut off, a field replaced, a line swapped with
/// another, doubled or left out.
pub fn changed_export(random: &mut Random, text: &[u8]) -> Vec<u8> {
    let mut text = text.to_vec();
    for _ in 0..1 + random.below(2) {
        if text.is_empty() {
            break;
        }
        let at = random.below(text.len());
        match random.below(8) {
            0 => text[at] = random.below(256) as u8,
            1 => {
                text.remove(at);
            }
            2 => {
                let bytes = b" \n-.0123456789+ERCFG\r\t";
                text.insert(at, bytes[random.below(bytes.len())]);
            }
            3 => text.truncate(at),
            4 => {
                let ends_field = |b: &u8| b" \n".contains(b);
                let start = text[..at].iter().rposition(ends_field).map_or(0, |k| k + 1);
                let end = text[at..].iter().position(ends_field);
                let end = end.map_or(text.len(), |k| at + k);
                let fields = [
                    "0",
                    "-0",
                    "1",
                    "-1",
                    "0.5",
                    "1.50",
                    "1E0",
                    "999999999",
                    "1000000000",
                    "0.0000001",
                    "",
                    "C1",
                    "C2",
                    "R1",
                    "R2",
                    "F1",
                    "F2",
                    "OBJ",
                    "L",
                    "G",
                    "E",
                    "LO",
                    "UP",
                    "PL",
                ];
                let field = random.of(&fields);
                text.splice(start..end, field.bytes());
            }
            change => {
                let mut lines: Vec<&[u8]> = text.split_inclusive(|b| *b == b'\n').collect();
                let line = random.below(lines.len());
                let other = random.below(lines.len());
                match change {
                    5 => lines.swap(line, other),
                    6 => lines.insert(line, lines[line]),
                    _ => {
                        lines.remove(line);
                    }
                }
                text = lines.concat();
            }
        }
    }
    text
}
