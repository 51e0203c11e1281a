//! Headers of PLY files.

#[derive(Clone, Copy, PartialEq, Debug)]
pub enum Kind {
    Ascii,
    Little,
    Big,
}

/// The type of a value: its size in bytes, and what it is.
#[derive(Clone, Copy, PartialEq, Debug)]
pub struct Type {
    pub size: usize,
    pub form: Form,
}

#[derive(Clone, Copy, PartialEq, Debug)]
pub enum Form {
    Signed,
    Unsigned,
    Float,
}

impl Type {
    pub fn is_float(self) -> bool {
        self.form == Form::Float
    }
}

fn type_of(word: &[u8]) -> Option<Type> {
    let (size, form) = match word {
        b"char" | b"int8" => (1, Form::Signed),
        b"uchar" | b"uint8" => (1, Form::Unsigned),
        b"short" | b"int16" => (2, Form::Signed),
        b"ushort" | b"uint16" => (2, Form::Unsigned),
        b"int" | b"int32" => (4, Form::Signed),
        b"uint" | b"uint32" => (4, Form::Unsigned),
        b"float" | b"float32" => (4, Form::Float),
        b"double" | b"float64" => (8, Form::Float),
        _ => return None,
    };
    Some(Type { size, form })
}

pub struct Property {
    pub name: Vec<u8>,
    pub item: Type,
    /// The type of a list's count.
    pub length: Option<Type>,
}

pub struct Element {
    pub name: Vec<u8>,
    pub rows: u32,
    pub properties: Vec<Property>,
}

impl Element {
    pub fn place(&self, name: &str) -> Option<usize> {
        self.properties.iter().position(|p| p.name == name.as_bytes())
    }
}

pub struct Header {
    pub kind: Kind,
    pub elements: Vec<Element>,
    /// The offset of the body.
    pub body: usize,
}

impl Header {
    pub fn place(&self, name: &str) -> Option<usize> {
        self.elements.iter().position(|e| e.name == name.as_bytes())
    }
}

/// What a line of a header is.
enum Line {
    Good,
    Bad,
    Twice,
    End,
}

fn is_name(word: &[u8]) -> bool {
    word.iter().all(|c| (0x21..=0x7e).contains(c))
}

fn element_of(name: &[u8], count: &[u8]) -> Option<Element> {
    if !is_name(name) || count.len() > 10 || !count.iter().all(u8::is_ascii_digit) {
        return None;
    }
    let rows = count.iter().fold(0u64, |v, &b| v * 10 + (b - b'0') as u64);
    Some(Element { name: name.to_vec(), rows: u32::try_from(rows).ok()?, properties: vec![] })
}

fn property_of(words: &[&[u8]]) -> Option<Property> {
    let (item, length, name) = match words {
        [_, item, name] => (type_of(item)?, None, name),
        [_, b"list", length, item, name] => (type_of(item)?, Some(type_of(length)?), name),
        _ => return None,
    };
    if length.map_or(false, Type::is_float) || !is_name(name) {
        return None;
    }
    Some(Property { name: name.to_vec(), item, length })
}

/// Takes the words of a line.
fn take_line(words: &[&[u8]], kind: &mut Option<Kind>, elements: &mut Vec<Element>) -> Line {
    match (words, *kind) {
        ([], _) | ([b"comment" | b"obj_info", ..], _) => Line::Good,
        ([b"format", form, b"1.0"], None) => {
            *kind = match *form {
                b"ascii" => Some(Kind::Ascii),
                b"binary_little_endian" => Some(Kind::Little),
                b"binary_big_endian" => Some(Kind::Big),
                _ => None,
            };
            if kind.is_some() {
                Line::Good
            } else {
                Line::Bad
            }
        }
        (_, None) => Line::Bad,
        ([b"end_header"], _) => Line::End,
        ([b"element", name, count], _) => {
            match element_of(name, count) {
                None => Line::Bad,
                Some(new) if elements.iter().any(|e| e.name == new.name) => Line::Twice,
                Some(new) => {
                    elements.push(new);
                    Line::Good
                }
            }
        }
        ([b"property", ..], _) => match (property_of(words), elements.last_mut()) {
            (Some(new), Some(last)) if last.properties.iter().any(|p| p.name == new.name) => Line::Twice,
            (Some(new), Some(last)) => {
                last.properties.push(new);
                Line::Good
            }
            _ => Line::Bad,
        },
        _ => Line::Bad,
    }
}

/// The header of a file, or what is printed after `refused `.
pub fn read_header(data: &[u8]) -> Result<Header, String> {
    let mut at = match data {
        [b'p', b'l', b'y', b'\n', ..] => 4,
        [b'p', b'l', b'y', b'\r', b'\n', ..] => 5,
        _ => return Err("1 not_ply".into()),
    };
    let (mut kind, mut elements) = (None, vec![]);
    for number in 2..=1000 {
        let rest = &data[at..];
        let no_end = || if rest.len() < 1002 { "6 head_cut".into() } else { format!("3 long_line line {number}") };
        let end = rest.iter().take(1002).position(|&c| c == b'\n').ok_or_else(no_end)?;
        let line = rest[..end].strip_suffix(b"\r").unwrap_or(&rest[..end]);
        if line.len() > 1000 {
            return Err(format!("3 long_line line {number}"));
        }
        at += end + 1;
        let words: Vec<&[u8]> = line.split(|&c| c == b' ' || c == b'\t').filter(|w| !w.is_empty()).collect();
        match (take_line(&words, &mut kind, &mut elements), kind) {
            (Line::End, Some(kind)) => return Ok(Header { kind, elements, body: at }),
            (Line::Good, _) => {}
            (Line::Twice, _) => return Err(format!("5 twice line {number}")),
            _ => return Err(format!("2 bad_line line {number}")),
        }
    }
    Err("4 long_header".into())
}
