//! Attributes as a tree, with everything that can be wrong about them, and as bytes.

/// Type bit of a nest.
pub const NESTED: u16 = 0x8000;

/// How the bytes up to the next multiple of 4 are written.
#[derive(Clone, Copy, PartialEq, Eq)]
pub enum Padding {
    Zero,
    Filled(u8),
    Absent,
}

#[derive(Clone)]
pub enum Body {
    Leaf(Vec<u8>),
    /// Attributes, and stray bytes after them.
    Nest(Vec<Attribute>, Vec<u8>),
}

#[derive(Clone)]
pub struct Attribute {
    /// The type as it stands on the wire, with its two bits.
    pub kind: u16,
    pub body: Body,
    /// The stated length, where it isn't the true one.
    pub stated: Option<u16>,
    pub padding: Padding,
}

impl Attribute {
    pub fn leaf(kind: u16, payload: &[u8]) -> Self {
        Attribute { kind, body: Body::Leaf(payload.to_vec()), stated: None, padding: Padding::Zero }
    }

    pub fn number(kind: u16, number: u32) -> Self {
        Self::leaf(kind, &number.to_le_bytes())
    }

    /// A name with its NUL.
    pub fn name(kind: u16, name: &[u8]) -> Self {
        Self::leaf(kind, &[name, b"\0"].concat())
    }

    pub fn nest(kind: u16, inside: Vec<Attribute>) -> Self {
        let body = Body::Nest(inside, Vec::new());
        Attribute { kind: kind | NESTED, body, stated: None, padding: Padding::Zero }
    }

    /// The type without its two bits.
    pub fn plain_kind(&self) -> u16 {
        self.kind & 0x3FFF
    }

    pub fn inside(&mut self) -> Option<&mut Vec<Attribute>> {
        match &mut self.body {
            Body::Nest(inside, _) => Some(inside),
            Body::Leaf(_) => None,
        }
    }

    pub fn payload(&mut self) -> Option<&mut Vec<u8>> {
        match &mut self.body {
            Body::Leaf(payload) => Some(payload),
            Body::Nest(..) => None,
        }
    }

    fn write(&self, out: &mut Vec<u8>) {
        let start = out.len();
        out.extend([0; 4]);
        match &self.body {
            Body::Leaf(payload) => out.extend(payload),
            Body::Nest(inside, stray) => {
                write_all(inside, out);
                out.extend(stray);
            }
        }
        let length = out.len() - start;
        out[start..start + 2].copy_from_slice(&self.stated.unwrap_or(length as u16).to_le_bytes());
        out[start + 2..start + 4].copy_from_slice(&self.kind.to_le_bytes());
        let padded = start + length.next_multiple_of(4);
        match self.padding {
            Padding::Zero => out.resize(padded, 0),
            Padding::Filled(byte) => out.resize(padded, byte),
            Padding::Absent => {}
        }
    }
}

/// Attributes as bytes, one after the other.
pub fn write_all(attributes: &[Attribute], out: &mut Vec<u8>) {
    for attribute in attributes {
        attribute.write(out);
    }
}

/// The last attribute of a type, bits aside: the one that counts.
pub fn last(attributes: &mut [Attribute], kind: u16) -> Option<&mut Attribute> {
    attributes.iter_mut().rev().find(|attribute| attribute.plain_kind() == kind)
}

/// What stands inside the last nest of a type.
pub fn inside_last(attributes: &mut [Attribute], kind: u16) -> Option<&mut Vec<Attribute>> {
    last(attributes, kind)?.inside()
}
