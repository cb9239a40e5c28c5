//! Little-endian input and output.

/// Reads numbers from the front of a slice. `None` means that the slice was too short.
pub struct Reader<'a> {
    bytes: &'a [u8],
    at: usize,
}

impl<'a> Reader<'a> {
    pub fn new(bytes: &'a [u8]) -> Self {
        Reader { bytes, at: 0 }
    }

    pub fn at_end(&self) -> bool {
        self.at == self.bytes.len()
    }

    /// How many bytes have been read.
    pub fn at(&self) -> usize {
        self.at
    }

    pub fn take(&mut self, count: usize) -> Option<&'a [u8]> {
        let rest = &self.bytes[self.at..];
        if count > rest.len() {
            return None;
        }
        self.at += count;
        Some(&rest[..count])
    }

    pub fn u8(&mut self) -> Option<u8> {
        Some(self.take(1)?[0])
    }

    pub fn u16(&mut self) -> Option<u16> {
        Some(u16::from_le_bytes(self.take(2)?.try_into().unwrap()))
    }

    pub fn u32(&mut self) -> Option<u32> {
        Some(u32::from_le_bytes(self.take(4)?.try_into().unwrap()))
    }

    pub fn u64(&mut self) -> Option<u64> {
        Some(u64::from_le_bytes(self.take(8)?.try_into().unwrap()))
    }

    pub fn i32(&mut self) -> Option<i32> {
        Some(self.u32()? as i32)
    }

    pub fn i64(&mut self) -> Option<i64> {
        Some(self.u64()? as i64)
    }
}

/// Appends numbers to a list of bytes.
#[derive(Default)]
pub struct Writer {
    pub bytes: Vec<u8>,
}

impl Writer {
    pub fn new() -> Self {
        Self::default()
    }

    pub fn raw(&mut self, bytes: &[u8]) {
        self.bytes.extend_from_slice(bytes);
    }

    pub fn u8(&mut self, n: u8) {
        self.bytes.push(n);
    }

    pub fn u16(&mut self, n: u16) {
        self.raw(&n.to_le_bytes());
    }

    pub fn u32(&mut self, n: u32) {
        self.raw(&n.to_le_bytes());
    }

    pub fn u64(&mut self, n: u64) {
        self.raw(&n.to_le_bytes());
    }

    pub fn i32(&mut self, n: i32) {
        self.raw(&n.to_le_bytes());
    }

    pub fn i64(&mut self, n: i64) {
        self.raw(&n.to_le_bytes());
    }
}
