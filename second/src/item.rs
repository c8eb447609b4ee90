//! Items: tags, lengths and the stretches of input that enclose them.

use crate::content;
use crate::refusal::{Fault, Refusal};

/// The most bytes a record may have, header included.
pub const LARGEST_RECORD: usize = 65_535;

/// A part of some bytes, by its first place and its length.
#[derive(Clone, Copy, Debug, PartialEq, Eq)]
pub struct Span {
    pub start: usize,
    pub len: usize,
}

impl Span {
    /// Cuts the span out of the bytes it belongs to.
    pub fn of<'a>(&self, bytes: &'a [u8]) -> &'a [u8] {
        &bytes[self.start..self.start + self.len]
    }
}

/// The place of one item: its tag, the first byte of its content, its end, and how deep it lies.
#[derive(Clone, Copy, Debug, PartialEq, Eq)]
pub struct Item {
    pub depth: usize,
    pub tag: usize,
    pub content: usize,
    pub end: usize,
}

impl Item {
    /// Gives the whole item, tag and length included.
    pub fn whole(&self) -> Span {
        Span {
            start: self.tag,
            len: self.end - self.tag,
        }
    }

    /// Gives the item's content.
    pub fn inside(&self) -> Span {
        Span {
            start: self.content,
            len: self.end - self.content,
        }
    }

    /// Gives the stretch in which this item's own items stand.
    pub fn stretch(&self) -> Stretch {
        Stretch {
            depth: self.depth + 1,
            at: self.content,
            end: self.end,
        }
    }
}

/// What is still unread of an encloser.
#[derive(Clone, Copy, Debug)]
pub struct Stretch {
    depth: usize,
    at: usize,
    end: usize,
}

impl Stretch {
    /// Gives the stretch of a whole input from one of its places on.
    pub fn from(input: &[u8], at: usize) -> Stretch {
        Stretch {
            depth: 0,
            at,
            end: input.len(),
        }
    }

    /// Gives the place of the next byte.
    pub fn at(&self) -> usize {
        self.at
    }

    /// Tells whether nothing is left.
    pub fn is_empty(&self) -> bool {
        self.at == self.end
    }

    /// Refuses bytes that are left after the last item.
    pub fn finish(&self) -> Result<(), Refusal> {
        if !self.is_empty() {
            return Err(Fault::LeftOver.at(self.at));
        }
        Ok(())
    }
}

/// Reads items and keeps the places of all that it has read.
pub struct Reader<'a> {
    input: &'a [u8],
    items: Vec<Item>,
}

impl<'a> Reader<'a> {
    /// Makes a reader that has read nothing yet.
    pub fn new(input: &'a [u8]) -> Reader<'a> {
        Reader {
            input,
            items: Vec::new(),
        }
    }

    /// Gives the places of the items read, in reading order.
    pub fn into_items(self) -> Vec<Item> {
        self.items
    }

    /// Tells whether an item with this tag begins here.
    pub fn next_is(&self, from: &Stretch, tag: u8) -> bool {
        !from.is_empty() && self.input[from.at] == tag
    }

    /// Reads the tag and length of an item inside another.
    pub fn open(&mut self, from: &mut Stretch, tag: u8) -> Result<Item, Refusal> {
        let item = self.header(from, tag)?;
        self.enter(from, item)
    }

    /// Reads the tag and length of an item that nothing encloses but the input.
    pub fn open_outermost(&mut self, from: &mut Stretch, tag: u8) -> Result<Item, Refusal> {
        let item = self.header(from, tag)?;
        if item.whole().len > LARGEST_RECORD {
            return Err(Fault::RecordSize.at(item.tag));
        }
        self.enter(from, item)
    }

    /// Reads an item whose content a rule judges; gives the content's place and the rule's result.
    pub fn judged<T>(
        &mut self,
        from: &mut Stretch,
        tag: u8,
        rule: impl Fn(&[u8]) -> Result<T, Fault>,
    ) -> Result<(Span, T), Refusal> {
        let item = self.open(from, tag)?;
        let inside = item.inside();
        match rule(inside.of(self.input)) {
            Ok(result) => Ok((inside, result)),
            Err(fault) => Err(fault.at(item.tag)),
        }
    }

    /// Reads an item whose content must follow a rule and gives the content's place.
    pub fn string(
        &mut self,
        from: &mut Stretch,
        tag: u8,
        rule: fn(&[u8]) -> Result<(), Fault>,
    ) -> Result<Span, Refusal> {
        let (inside, ()) = self.judged(from, tag, rule)?;
        Ok(inside)
    }

    /// Reads an INTEGER whose value must follow a rule.
    pub fn integer(
        &mut self,
        from: &mut Stretch,
        rule: fn(i64) -> Result<i64, Fault>,
    ) -> Result<i64, Refusal> {
        let (_, value) = self.judged(from, tag::INTEGER, |c| content::integer(c).and_then(rule))?;
        Ok(value)
    }

    /// Reads a BIT STRING and gives the place of its bytes after the 00.
    pub fn bits(&mut self, from: &mut Stretch) -> Result<Span, Refusal> {
        let inside = self.string(from, tag::BIT_STRING, content::bit_string)?;
        Ok(Span {
            start: inside.start + 1,
            len: inside.len - 1,
        })
    }

    /// Reads a tag and a length, without asking whether the content is there.
    fn header(&self, from: &Stretch, tag: u8) -> Result<Item, Refusal> {
        if from.is_empty() {
            return Err(Fault::Missing.at(from.end));
        }
        if self.input[from.at] != tag {
            return Err(Fault::Tag.at(from.at));
        }
        let Some((size, length)) = length(&self.input[from.at + 1..from.end]) else {
            return Err(Fault::Length.at(from.at));
        };
        let content = from.at + 1 + size;
        Ok(Item {
            depth: from.depth,
            tag: from.at,
            content,
            end: content + length,
        })
    }

    /// Takes an item whose content its encloser holds, and moves behind it.
    fn enter(&mut self, from: &mut Stretch, item: Item) -> Result<Item, Refusal> {
        if item.end > from.end {
            return Err(Fault::Overrun.at(item.tag));
        }
        from.at = item.end;
        self.items.push(item);
        Ok(item)
    }
}

/// Reads a length in one of its three forms; gives the form's size and the length.
pub fn length(bytes: &[u8]) -> Option<(usize, usize)> {
    match *bytes {
        [n @ 0..=0x7F, ..] => Some((1, usize::from(n))),
        [0x81, n @ 0x80..=0xFF, ..] => Some((2, usize::from(n))),
        [0x82, high @ 0x01..=0xFF, low, ..] => {
            Some((3, usize::from(high) * 256 + usize::from(low)))
        }
        _ => None,
    }
}

/// The tags that a record uses.
pub mod tag {
    pub const BOOLEAN: u8 = 0x01;
    pub const INTEGER: u8 = 0x02;
    pub const BIT_STRING: u8 = 0x03;
    pub const OCTET_STRING: u8 = 0x04;
    pub const IDENTIFIER: u8 = 0x06;
    pub const UTF8_STRING: u8 = 0x0C;
    pub const PRINTABLE_STRING: u8 = 0x13;
    pub const IA5_STRING: u8 = 0x16;
    pub const TIME: u8 = 0x18;
    pub const SEQUENCE: u8 = 0x30;
    pub const EXPLICIT_0: u8 = 0xA0;
}
