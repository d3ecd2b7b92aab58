//! A stand-in for the wire derive, whose text was not to be had. A type is one little-endian number: a struct's fields
//! stand in it from the lowest bit upward, an enum is its case's number. Bits that no field has are dropped on reading
//! and written as 0. What this decides is no evidence about the crate.

use proc_macro::{Delimiter, TokenStream, TokenTree};

#[proc_macro_derive(EtherCrabWireReadWrite, attributes(wire))]
pub fn read_write(item: TokenStream) -> TokenStream {
    let item = Item::parse(item);
    (item.reading() + &item.writing()).parse().expect("the derive writes Rust")
}

#[proc_macro_derive(EtherCrabWireRead, attributes(wire))]
pub fn read(item: TokenStream) -> TokenStream {
    Item::parse(item).reading().parse().expect("the derive writes Rust")
}

/// A derived type.
struct Item {
    name: String,
    is_enum: bool,
    parts: Vec<Part>,
}

/// A field, or an enum's case: its name, its `wire` words, and for a case its number.
#[derive(Default)]
struct Part {
    name: String,
    bits: u32,
    pre_skip: u32,
    post_skip: u32,
    number: String,
}

impl Item {
    fn parse(item: TokenStream) -> Self {
        let mut name = String::new();
        let mut is_enum = false;
        let mut body = TokenStream::new();
        let mut tokens = item.into_iter();
        while let Some(token) = tokens.next() {
            match token {
                TokenTree::Ident(word) if ["struct", "enum"].contains(&word.to_string().as_str()) => {
                    is_enum = word.to_string() == "enum";
                    name = tokens.next().expect("a type has a name").to_string();
                }
                TokenTree::Group(group) if group.delimiter() == Delimiter::Brace => body = group.stream(),
                _ => {}
            }
        }
        Item { name, is_enum, parts: Part::parse_all(body) }
    }

    /// Each field with the place of its lowest bit.
    fn places(&self) -> Vec<(&Part, u32)> {
        let mut at = 0;
        let mut places = Vec::new();
        for part in &self.parts {
            places.push((part, at + part.pre_skip));
            at += part.pre_skip + part.bits + part.post_skip;
        }
        places
    }

    fn reading(&self) -> String {
        let body = if self.is_enum {
            let cases: String = self.parts.iter().map(|p| format!("{} => Some(Self::{}),", p.number, p.name)).collect();
            format!("match number {{ {cases} _ => None }}")
        } else {
            let field = |(p, at): &(&Part, u32)| {
                format!("{}: crate::wire::FromWire::from_wire(number >> {at} & {:#x})?,", p.name, p.mask())
            };
            let fields: String = self.places().iter().map(field).collect();
            format!("Some(Self {{ {fields} }})")
        };
        format!("impl crate::wire::FromWire for {} {{ fn from_wire(number: u128) -> Option<Self> {{ {body} }} }}", self.name)
    }

    fn writing(&self) -> String {
        let body = if self.is_enum {
            "*self as u128".to_string()
        } else {
            let field =
                |(p, at): &(&Part, u32)| format!("| (crate::wire::ToWire::to_wire(&self.{}) & {:#x}) << {at}", p.name, p.mask());
            let fields: String = self.places().iter().map(field).collect();
            format!("0 {fields}")
        };
        format!("impl crate::wire::ToWire for {} {{ fn to_wire(&self) -> u128 {{ {body} }} }}", self.name)
    }
}

impl Part {
    fn mask(&self) -> u128 {
        (1 << self.bits) - 1
    }

    /// The parts of a struct's or an enum's body. A comma inside of a type's `<>` doesn't occur in the text.
    fn parse_all(body: TokenStream) -> Vec<Part> {
        let mut parts = Vec::new();
        let mut part = Part::default();
        let mut tokens = body.into_iter().peekable();
        while let Some(token) = tokens.next() {
            match token {
                TokenTree::Punct(mark) if mark.as_char() == '#' => {
                    if let Some(TokenTree::Group(group)) = tokens.next() {
                        part.attribute(group.stream());
                    }
                }
                TokenTree::Punct(mark) if mark.as_char() == ',' => parts.push(std::mem::take(&mut part)),
                TokenTree::Ident(word) if part.name.is_empty() && word.to_string() != "pub" => part.name = word.to_string(),
                TokenTree::Literal(number) => part.number = number.to_string(),
                _ => {}
            }
        }
        if !part.name.is_empty() {
            parts.push(part);
        }
        parts
    }

    /// Takes the words of `wire(bits = 1, post_skip = 7)`; other attributes are passed over.
    fn attribute(&mut self, attribute: TokenStream) {
        let mut tokens = attribute.into_iter();
        if tokens.next().is_none_or(|word| word.to_string() != "wire") {
            return;
        }
        let Some(TokenTree::Group(group)) = tokens.next() else { return };
        let words: Vec<String> = group.stream().into_iter().map(|token| token.to_string()).collect();
        for setting in words.split(|word| word == ",") {
            let [key, _, value] = setting else { panic!("unknown wire words: {setting:?}") };
            let value: u32 = value.parse().expect("a number of bits or bytes");
            match key.as_str() {
                "bytes" => self.bits = 8 * value,
                "bits" => self.bits = value,
                "pre_skip" => self.pre_skip = value,
                "post_skip" => self.post_skip = value,
                other => panic!("unknown wire word: {other}"),
            }
        }
    }
}
