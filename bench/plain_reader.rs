//! A plain N-Quads reader as a reference for speed: owned terms, the standard library alone, one thread.
//! It reads valid documents and panics on others.
//!
//! rustc -C opt-level=3 --edition 2021 -o plain_reader plain_reader.rs
//! ./plain_reader read < FILE     parses the terms and quads of each line
//! ./plain_reader load < FILE     also numbers the terms and sorts three lists of quads
use std::collections::HashMap;
use std::io::Read;

const LANG_STRING: &str = "http://www.w3.org/1999/02/22-rdf-syntax-ns#langString";
const STRING: &str = "http://www.w3.org/2001/XMLSchema#string";

#[derive(PartialEq, Eq, Hash)]
enum Term {
    Blank(String),
    Iri(String),
    Literal { lexical: String, datatype: String, tag: Option<String> },
}

struct Quad<T> {
    s: T,
    p: T,
    o: T,
    g: Option<T>,
}

#[derive(Clone, Copy, PartialEq, Eq, PartialOrd, Ord)]
struct Numbers {
    g: Option<u64>,
    s: u64,
    p: u64,
    o: u64,
}

/// The classes of each byte, one bit each: 1 in an IRI, 2 in a string, 4 in a blank node label, 8 in a language tag.
static CLASSES: [u8; 256] = {
    let mut table = [0; 256];
    let mut at = 0;
    while at < 256 {
        let byte = at as u8;
        let word = byte.is_ascii_alphanumeric();
        let iri = byte > b' ' && !matches!(byte, b'<' | b'>' | b'"' | b'{' | b'}' | b'|' | b'^' | b'`' | b'\\');
        let string = !matches!(byte, b'"' | b'\\' | b'\n' | b'\r');
        let label = word || matches!(byte, b'_' | b':' | b'-' | b'.') || byte >= 128;
        let tag = word || byte == b'-';
        table[at] = iri as u8 | (string as u8) << 1 | (label as u8) << 2 | (tag as u8) << 3;
        at += 1;
    }
    table
};

struct Cursor<'a> {
    text: &'a str,
    at: usize,
}

impl<'a> Cursor<'a> {
    fn peek(&self) -> Option<u8> {
        self.text.as_bytes().get(self.at).copied()
    }

    fn accept(&mut self, byte: u8) -> Option<()> {
        (self.peek()? == byte).then(|| self.at += 1)
    }

    fn blanks(&mut self) {
        while matches!(self.peek(), Some(b' ' | b'\t')) {
            self.at += 1;
        }
    }

    /// Returns the longest run of bytes of a class. If `escapes`, a backslash and the byte after it belong to the run.
    fn run(&mut self, class: u8, escapes: bool) -> (&'a str, bool) {
        let bytes = self.text.as_bytes();
        let from = self.at;
        let mut escaped = false;
        while let Some(byte) = self.peek() {
            if CLASSES[byte as usize] & class != 0 {
                self.at += 1;
            } else if escapes && byte == b'\\' && self.at + 1 < bytes.len() {
                escaped = true;
                self.at += 2;
            } else {
                break;
            }
        }
        (&self.text[from..self.at], escaped)
    }

    fn iri(&mut self) -> Option<String> {
        self.accept(b'<')?;
        let (raw, escaped) = self.run(1, true);
        self.accept(b'>')?;
        let iri = decoded(raw, escaped)?;
        let scheme = &iri[..iri.find(':')?];
        let is_scheme = scheme.starts_with(|c: char| c.is_ascii_alphabetic())
            && scheme.bytes().all(|b| b.is_ascii_alphanumeric() || matches!(b, b'+' | b'-' | b'.'));
        is_scheme.then_some(iri)
    }

    fn literal(&mut self) -> Option<Term> {
        self.accept(b'"')?;
        let (raw, escaped) = self.run(2, true);
        self.accept(b'"')?;
        let lexical = decoded(raw, escaped)?;
        if self.accept(b'@').is_some() {
            let tag = Some(self.run(8, false).0.to_ascii_lowercase());
            return Some(Term::Literal { lexical, datatype: LANG_STRING.to_owned(), tag });
        }
        let datatype = match self.text[self.at..].starts_with("^^") {
            true => {
                self.at += 2;
                self.iri()?
            }
            false => STRING.to_owned(),
        };
        Some(Term::Literal { lexical, datatype, tag: None })
    }

    fn term(&mut self) -> Option<Term> {
        match self.peek()? {
            b'<' => self.iri().map(Term::Iri),
            b'"' => self.literal(),
            _ => {
                self.accept(b'_')?;
                self.accept(b':')?;
                let label = self.run(4, false).0.trim_end_matches('.');
                self.at = label.as_ptr() as usize + label.len() - self.text.as_ptr() as usize;
                Some(Term::Blank(label.to_owned()))
            }
        }
    }

    fn next_term(&mut self) -> Option<Term> {
        self.blanks();
        self.term()
    }

    fn quad(&mut self) -> Option<Quad<Term>> {
        let (s, p, o) = (self.next_term()?, self.next_term()?, self.next_term()?);
        self.blanks();
        let g = match self.peek()? {
            b'.' => None,
            _ => Some(self.term()?),
        };
        self.blanks();
        self.accept(b'.')?;
        Some(Quad { s, p, o, g })
    }
}

fn decoded(raw: &str, escaped: bool) -> Option<String> {
    if !escaped {
        return Some(raw.to_owned());
    }
    let mut text = String::with_capacity(raw.len());
    let mut characters = raw.chars();
    while let Some(c) = characters.next() {
        let digits = match c {
            '\\' => characters.next()?,
            _ => {
                text.push(c);
                continue;
            }
        };
        text.push(match digits {
            'u' | 'U' => {
                let count = if digits == 'u' { 4 } else { 8 };
                let mut code = 0;
                for _ in 0..count {
                    code = code * 16 + characters.next()?.to_digit(16)?;
                }
                char::from_u32(code)?
            }
            't' => '\t',
            'b' => '\u{8}',
            'n' => '\n',
            'r' => '\r',
            'f' => '\u{c}',
            other => other,
        });
    }
    Some(text)
}

fn read(document: &[u8]) -> Vec<Quad<Term>> {
    let mut quads = Vec::new();
    for line in document.split(|byte| *byte == b'\n') {
        let text = std::str::from_utf8(line).expect("UTF-8");
        let mut cursor = Cursor { text, at: 0 };
        cursor.blanks();
        if !matches!(cursor.peek(), None | Some(b'#' | b'\r')) {
            quads.push(cursor.quad().expect("a statement"));
        }
    }
    quads
}

fn numbered(quads: Vec<Quad<Term>>) -> (usize, Vec<Numbers>) {
    let mut numbers = HashMap::new();
    let mut number = |term| {
        let next = numbers.len() as u64;
        *numbers.entry(term).or_insert(next)
    };
    let quads = quads
        .into_iter()
        .map(|quad| Numbers { s: number(quad.s), p: number(quad.p), o: number(quad.o), g: quad.g.map(&mut number) })
        .collect();
    (numbers.len(), quads)
}

fn sorted(mut spo: Vec<Numbers>) -> [Vec<Numbers>; 3] {
    spo.sort_unstable();
    spo.dedup();
    let mut pos = spo.clone();
    pos.sort_unstable_by_key(|quad| (quad.g, quad.p, quad.o, quad.s));
    let mut osp = spo.clone();
    osp.sort_unstable_by_key(|quad| (quad.g, quad.o, quad.s, quad.p));
    [spo, pos, osp]
}

fn main() {
    let mut document = Vec::new();
    std::io::stdin().lock().read_to_end(&mut document).expect("input");
    let quads = read(&document);
    if std::env::args().nth(1).as_deref() == Some("load") {
        let (terms, quads) = numbered(quads);
        let lists = sorted(quads);
        println!("{} quads {terms} terms {}", lists[0].len(), lists.iter().map(Vec::len).sum::<usize>());
    } else {
        println!("{} lines", quads.len());
    }
}
