//! Bits on the wire: fields packed most significant bit first, in records of whole bytes.

/// The widths of a record's fields, at most 128 bits together.
#[derive(Clone, Copy)]
pub struct Layout<const K: usize>(pub [u32; K]);

impl<const K: usize> Layout<K> {
    /// The record's length in bytes.
    pub const fn bytes(&self) -> usize {
        let (mut bits, mut field) = (0, 0);
        while field < K {
            bits += self.0[field] as usize;
            field += 1;
        }
        bits / 8
    }

    /// The fields of a record of just this length.
    pub fn read(&self, record: &[u8]) -> [u32; K] {
        let join = |bits, &byte| bits << 8 | u128::from(byte);
        let mut bits: u128 = record.iter().fold(0, join);
        let mut fields = [0; K];
        for (field, width) in fields.iter_mut().zip(self.0).rev() {
            *field = bits as u32 & mask(width);
            bits >>= width;
        }
        fields
    }

    /// The fields of each record in a list of them.
    pub fn read_all<'a>(&'a self, records: &'a [u8]) -> impl Iterator<Item = [u32; K]> + 'a {
        records.chunks_exact(self.bytes()).map(|record| self.read(record))
    }

    /// Appends a record.
    pub fn write(&self, fields: [u32; K], to: &mut Vec<u8>) {
        let join = |bits, (field, width)| bits << width | u128::from(field & mask(width));
        let bits: u128 = fields.into_iter().zip(self.0).fold(0, join);
        to.extend_from_slice(&bits.to_be_bytes()[16 - self.bytes()..]);
    }
}

/// The largest value of a field.
pub fn mask(width: u32) -> u32 {
    (1 << width) - 1
}
