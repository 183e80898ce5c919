//! The encoding of a value by document 01, 'Output'. Nesting and room are limits of that document: the Rust has a value all the same.
use crate::runtime::{Bytes, Inline, Object, OwnedTuple, Repr, TypeHash, Value, Vec as Items};

const NESTING: usize = 64;

/// The bytes, or the number of the refusal.
pub fn encoded(value: &Value, room: usize) -> Result<Vec<u8>, u8> {
    let mut output = Output { bytes: Vec::new(), bits: 0, room: 8 * room };
    output.value(value, 1)?;
    Ok(output.bytes)
}

struct Output {
    bytes: Vec<u8>,
    bits: usize,
    room: usize,
}

impl Output {
    fn put(&mut self, width: usize, number: u64) -> Result<(), u8> {
        if self.bits + width > self.room {
            return Err(27);
        }
        for at in (0..width).rev() {
            if self.bits % 8 == 0 {
                self.bytes.push(0);
            }
            *self.bytes.last_mut().expect("a byte") |= ((number >> at & 1) as u8) << (7 - self.bits % 8);
            self.bits += 1;
        }
        Ok(())
    }

    fn text(&mut self, bytes: &[u8]) -> Result<(), u8> {
        self.put(16, bytes.len() as u64)?;
        bytes.iter().try_for_each(|byte| self.put(8, u64::from(*byte)))
    }

    fn items(&mut self, items: &[Value], nesting: usize) -> Result<(), u8> {
        self.put(12, items.len() as u64)?;
        items.iter().try_for_each(|item| self.value(item, nesting + 1))
    }

    fn value(&mut self, value: &Value, nesting: usize) -> Result<(), u8> {
        if nesting > NESTING {
            return Err(26);
        }
        match value.as_ref() {
            Repr::Inline(inline) => self.inline(inline),
            Repr::Dynamic(dynamic) => match *dynamic {},
            Repr::Any(any) => match any.type_hash() {
                String::HASH => {
                    self.put(4, 6)?;
                    self.text(any.borrow_ref::<String>().expect("text").as_bytes())
                }
                Bytes::HASH => {
                    self.put(4, 7)?;
                    self.text(&any.borrow_ref::<Bytes>().expect("bytes").0)
                }
                Items::HASH => {
                    self.put(4, 8)?;
                    self.items(&any.borrow_ref::<Items>().expect("a vec"), nesting)
                }
                OwnedTuple::HASH => {
                    self.put(4, 9)?;
                    self.items(&any.borrow_ref::<OwnedTuple>().expect("a tuple"), nesting)
                }
                _ => self.object(&any.borrow_ref::<Object>().expect("an object"), nesting),
            },
        }
    }

    fn inline(&mut self, inline: &Inline) -> Result<(), u8> {
        let (kind, width, number) = match *inline {
            Inline::Unit => (0, 0, 0),
            Inline::Bool(held) => (1, 1, u64::from(held)),
            Inline::Unsigned(number) => (2, 64, number),
            Inline::Signed(number) => (3, 64, number as u64),
            Inline::Float(float) => (4, 64, if float.is_nan() { 0x7FF8_0000_0000_0000 } else { float.to_bits() }),
            Inline::Char(char) => (5, 21, u64::from(u32::from(char))),
        };
        self.put(4, kind)?;
        self.put(width, number)
    }

    fn object(&mut self, object: &Object, nesting: usize) -> Result<(), u8> {
        self.put(4, 10)?;
        self.put(12, object.entries.len() as u64)?;
        for (key, value) in &object.entries {
            self.text(key.as_bytes())?;
            self.value(value, nesting + 1)?;
        }
        Ok(())
    }
}
