//! A case as it is stored: one JSON object of strings and whole numbers on a line.

use std::collections::HashMap;

pub enum Json {
    String(Vec<u8>),
    Number(usize),
}

/// The object on a line.
pub fn object(line: &[u8]) -> Option<HashMap<Vec<u8>, Json>> {
    Reader { rest: line }.object()
}

struct Reader<'a> {
    rest: &'a [u8],
}

impl Reader<'_> {
    fn object(mut self) -> Option<HashMap<Vec<u8>, Json>> {
        let mut object = HashMap::new();
        self.sign(b'{')?;
        loop {
            let key = self.string()?;
            self.sign(b':')?;
            self.blanks();
            let value = match self.rest.first()? {
                b'"' => Json::String(self.string()?),
                _ => Json::Number(self.number()?),
            };
            object.insert(key, value);
            if self.sign(b',').is_none() {
                self.sign(b'}')?;
                self.blanks();
                return self.rest.is_empty().then_some(object);
            }
        }
    }

    fn blanks(&mut self) {
        while let [b' ' | b'\t' | b'\r', rest @ ..] = self.rest {
            self.rest = rest;
        }
    }

    fn byte(&mut self) -> Option<u8> {
        let (&byte, rest) = self.rest.split_first()?;
        self.rest = rest;
        Some(byte)
    }

    fn sign(&mut self, sign: u8) -> Option<()> {
        self.blanks();
        if *self.rest.first()? != sign {
            return None;
        }
        self.byte().map(|_| ())
    }

    fn number(&mut self) -> Option<usize> {
        let end = self.rest.iter().take_while(|b| b.is_ascii_digit()).count();
        let (digits, rest) = self.rest.split_at(end);
        self.rest = rest;
        std::str::from_utf8(digits).ok()?.parse().ok()
    }

    fn string(&mut self) -> Option<Vec<u8>> {
        let mut bytes = Vec::new();
        self.sign(b'"')?;
        loop {
            match self.byte()? {
                b'"' => return Some(bytes),
                b'\\' => bytes.push(self.escape()?),
                byte if byte.is_ascii() => bytes.push(byte),
                _ => return None,
            }
        }
    }

    fn escape(&mut self) -> Option<u8> {
        match self.byte()? {
            b'n' => Some(b'\n'),
            b't' => Some(b'\t'),
            b'r' => Some(b'\r'),
            b'b' => Some(8),
            b'f' => Some(12),
            byte @ (b'"' | b'\\' | b'/') => Some(byte),
            b'u' => {
                let digits = self.rest.get(..4)?;
                self.rest = &self.rest[4..];
                u8::from_str_radix(std::str::from_utf8(digits).ok()?, 16).ok()
            }
            _ => None,
        }
    }
}
