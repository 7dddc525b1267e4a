//! Where a file stands when it is asked about: among other bytes, at any
//! alignment. A program that looks past the end finds a schedule there, and
//! answers otherwise than it should.

#[derive(Default)]
pub struct Stage {
    bytes: Vec<u8>,
}

const BEFORE: &[u8] = b"UMRL\x04\0\x02";
const AFTER: &[u8] = b"SC\0\0SC\0\0\x02\x01\x03\0\x02\x01\x03\0SC\0\0";

impl Stage {
    /// The file, in its place among the other bytes.
    pub fn put(&mut self, file: &[u8], index: usize) -> &[u8] {
        let skip = index % BEFORE.len();
        self.bytes.clear();
        self.bytes.extend(&BEFORE[skip..]);
        let start = self.bytes.len();
        self.bytes.extend(file);
        self.bytes.extend(AFTER);
        &self.bytes[start..start + file.len()]
    }
}
