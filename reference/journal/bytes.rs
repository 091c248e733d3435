//! Reading and writing of bytes: numbers with the lowest byte first, and records.

/// Bytes that are read from the front. Each reader gives nothing where too few are left.
pub struct Bytes<'a>(pub &'a [u8]);

impl<'a> Bytes<'a> {
    pub fn is_empty(&self) -> bool {
        self.0.is_empty()
    }

    pub fn take(&mut self, count: usize) -> Option<&'a [u8]> {
        let (taken, rest) = self.0.split_at_checked(count)?;
        self.0 = rest;
        Some(taken)
    }

    pub fn one(&mut self) -> Option<u8> {
        Some(self.take(1)?[0])
    }

    pub fn two(&mut self) -> Option<u16> {
        Some(u16::from_le_bytes(self.take(2)?.try_into().ok()?))
    }

    pub fn four(&mut self) -> Option<u32> {
        Some(u32::from_le_bytes(self.take(4)?.try_into().ok()?))
    }

    /// A record: its kind and its body.
    pub fn record(&mut self) -> Option<(u16, &'a [u8])> {
        let length = self.two()?;
        let kind = self.two()?;
        Some((kind, self.take(length as usize)?))
    }

    /// Something, where nothing is left after it.
    pub fn end<T>(&self, read: T) -> Option<T> {
        self.is_empty().then_some(read)
    }
}

/// The bytes of a record.
pub fn record(kind: u16, body: &[u8]) -> Vec<u8> {
    let length = u16::try_from(body.len()).expect("a body of at most 65,535 bytes");
    let mut bytes = Vec::with_capacity(4 + body.len());
    bytes.extend(length.to_le_bytes());
    bytes.extend(kind.to_le_bytes());
    bytes.extend(body);
    bytes
}
