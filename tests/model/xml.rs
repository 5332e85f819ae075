//! A small reader of XML 1.0: elements, attributes, text, the five named entities and
//! characters by number. What is not well formed is refused; so is what no picture has:
//! declarations, comments, CDATA and processing instructions.

use std::iter::Peekable;
use std::str::Chars;

#[derive(Clone, PartialEq, Eq, Debug)]
pub struct Element {
    pub name: String,
    pub attributes: Vec<(String, String)>,
    pub children: Vec<Element>,
    /// All text that stands in it, its children's not.
    pub text: String,
}

impl Element {
    pub fn attribute(&self, name: &str) -> Option<&str> {
        self.attributes.iter().find(|(own, _)| own == name).map(|(_, value)| &value[..])
    }

    /// An attribute that is a whole number.
    pub fn number(&self, name: &str) -> Result<u64, String> {
        let value = self.attribute(name).and_then(|value| value.parse().ok());
        value.ok_or_else(|| format!("<{}> has no number {name}: {self:?}", self.name))
    }
}

/// The one element of a document, or what is wrong with it.
pub fn parse(text: &str) -> Result<Element, String> {
    let mut reader = Reader { rest: text.chars().peekable() };
    reader.blanks();
    reader.expect('<')?;
    let root = reader.element()?;
    reader.blanks();
    match reader.rest.next() {
        None => Ok(root),
        Some(c) => Err(format!("{c:?} behind the last element")),
    }
}

struct Reader<'a> {
    rest: Peekable<Chars<'a>>,
}

impl Reader<'_> {
    fn next(&mut self) -> Result<char, String> {
        let c = self.rest.next().ok_or("it ends too early")?;
        if allowed(c) {
            Ok(c)
        } else {
            Err(format!("{c:?} may not stand in XML"))
        }
    }

    fn expect(&mut self, right: char) -> Result<(), String> {
        match self.next()? {
            c if c == right => Ok(()),
            c => Err(format!("{c:?} where {right:?} should stand")),
        }
    }

    fn is_next(&mut self, c: char) -> bool {
        self.rest.peek() == Some(&c)
    }

    /// Passes over blanks; whether there were any.
    fn blanks(&mut self) -> bool {
        let mut any = false;
        while self.rest.next_if(|c| is_blank(*c)).is_some() {
            any = true;
        }
        any
    }

    fn name(&mut self) -> Result<String, String> {
        let first = self.next()?;
        if !(first.is_alphabetic() || first == '_' || first == ':') {
            return Err(format!("{first:?} begins no name"));
        }
        let mut name = first.to_string();
        while let Some(c) = self.rest.next_if(|c| c.is_alphanumeric() || "_:-.".contains(*c)) {
            name.push(c);
        }
        Ok(name)
    }

    /// An element whose `<` was read.
    fn element(&mut self) -> Result<Element, String> {
        let name = self.name()?;
        let attributes = self.attributes(&name)?;
        let mut element = Element { name, attributes, children: vec![], text: String::new() };
        if self.is_next('/') {
            self.expect('/')?;
            self.expect('>')?;
            return Ok(element);
        }
        self.expect('>')?;
        self.content(&mut element)?;
        let end = self.name()?;
        if end != element.name {
            return Err(format!("<{}> is ended by </{end}>", element.name));
        }
        self.blanks();
        self.expect('>')?;
        Ok(element)
    }

    fn attributes(&mut self, element: &str) -> Result<Vec<(String, String)>, String> {
        let mut all: Vec<(String, String)> = vec![];
        loop {
            let blank = self.blanks();
            if self.is_next('>') || self.is_next('/') {
                return Ok(all);
            }
            if !blank {
                return Err(format!("no blank before an attribute of <{element}>"));
            }
            let name = self.name()?;
            if all.iter().any(|(other, _)| *other == name) {
                return Err(format!("<{element}> has {name} twice"));
            }
            self.blanks();
            self.expect('=')?;
            self.blanks();
            let value = self.value()?;
            all.push((name, value));
        }
    }

    /// A value in quotes of either kind.
    fn value(&mut self) -> Result<String, String> {
        let quote = self.next()?;
        if quote != '"' && quote != '\'' {
            return Err(format!("a value begins with {quote:?}"));
        }
        let mut value = String::new();
        loop {
            match self.next()? {
                c if c == quote => return Ok(value),
                '<' => return Err("< in a value".to_string()),
                '&' => value.push(self.entity()?),
                c => value.push(c),
            }
        }
    }

    /// What stands in an element, up to the name in its end tag.
    fn content(&mut self, element: &mut Element) -> Result<(), String> {
        let mut brackets = 0;
        loop {
            let c = self.next()?;
            match c {
                '<' if self.is_next('/') => return self.expect('/'),
                '<' => {
                    let child = self.element()?;
                    element.children.push(child);
                }
                '&' => element.text.push(self.entity()?),
                '>' if brackets >= 2 => return Err("]]> in a text".to_string()),
                _ => element.text.push(c),
            }
            brackets = if c == ']' { brackets + 1 } else { 0 };
        }
    }

    /// An entity whose `&` was read.
    fn entity(&mut self) -> Result<char, String> {
        let mut name = String::new();
        loop {
            match self.next()? {
                ';' => break,
                c if c.is_ascii_alphanumeric() || c == '#' => name.push(c),
                c => return Err(format!("{c:?} in an entity")),
            }
        }
        let number = |digits: &str, base: u32| {
            let digits = Some(digits).filter(|digits| digits.chars().all(|c| c.is_digit(base)));
            digits.and_then(|digits| u32::from_str_radix(digits, base).ok()).and_then(char::from_u32)
        };
        let c = match &name[..] {
            "lt" => Some('<'),
            "gt" => Some('>'),
            "amp" => Some('&'),
            "quot" => Some('"'),
            "apos" => Some('\''),
            _ => match (name.strip_prefix("#x"), name.strip_prefix('#')) {
                (Some(digits), _) => number(digits, 16),
                (_, Some(digits)) => number(digits, 10),
                _ => None,
            },
        };
        c.filter(|c| allowed(*c)).ok_or_else(|| format!("&{name}; is no character"))
    }
}

fn is_blank(c: char) -> bool {
    matches!(c, ' ' | '\t' | '\n' | '\r')
}

/// XML 1.0's characters.
fn allowed(c: char) -> bool {
    is_blank(c) || (c >= ' ' && c != '\u{fffe}' && c != '\u{ffff}')
}

/// What is well formed.
pub const GOOD: [&str; 6] = [
    "<a/>",
    " <a b=\"1\" c='2' />\n",
    "<a>x<b>y</b>z</a >",
    "<a b=\"'&lt;>\">&amp;&#48;&#x304B;</a>",
    "<a>]] > ]]&gt; ></a>",
    "<a:b_c-d.e/>",
];

/// What is not.
pub const BAD: [&str; 30] = [
    "",
    "x",
    "<a>",
    "<a",
    "<a/",
    "</a>",
    "<a></b>",
    "<a><b></a></b>",
    "<a/><b/>",
    "<a/>x",
    "x<a/>",
    "<a b/>",
    "<a b=1/>",
    "<a b=\"1/>",
    "<a b=\"1\"c=\"2\"/>",
    "<a b=\"1\" b=\"2\"/>",
    "<a b=\"<\"/>",
    "<a b=\"&\"/>",
    "<a>&</a>",
    "<a>& </a>",
    "<a>&lt</a>",
    "<a>&none;</a>",
    "<a>&#0;</a>",
    "<a>&#xFFFF;</a>",
    "<a>&#x+41;</a>",
    "<a>\u{1}</a>",
    "<a>\u{ffff}</a>",
    "<a>]]></a>",
    "< a/>",
    "<1a/>",
];

/// That the reader takes what is well formed and refuses what is not.
pub fn check() -> Result<(), String> {
    let refused = GOOD.iter().find_map(|text| parse(text).err().map(|why| (text, why)));
    if let Some((text, why)) = refused {
        return Err(format!("XML that is well formed is refused: {text:?}: {why}"));
    }
    match BAD.iter().find(|text| parse(text).is_ok()) {
        None => Ok(()),
        Some(text) => Err(format!("what is no XML is taken: {text:?}")),
    }
}
