//! Cases, one behind the other.

use super::told::ROOM;
use crate::house::Numbers;

#[derive(Default)]
pub struct Cases(pub Vec<u8>);

impl Cases {
    pub fn put(&mut self, call: u8, bytes: &[u8]) {
        self.0.push(call);
        self.0.push(
            bytes
                .len()
                .try_into()
                .expect("a case has at most 255 bytes"),
        );
        self.0.extend_from_slice(bytes);
    }

    /// A write into a buffer of so many bytes, no two neighbours alike, so that a byte that is left alone is seen.
    pub fn put_write(&mut self, call: u8, values: &[u8], room: usize) {
        let pattern = (0..room).map(|i| 0xa5 ^ (i * 7) as u8);
        self.put(
            call,
            &values.iter().copied().chain(pattern).collect::<Vec<u8>>(),
        );
    }

    /// A record read, and written into a buffer of its size.
    pub fn put_both(&mut self, read: u8, values: &[u8]) {
        self.put(read, values);
        self.put_write(read + 1, values, values.len());
    }

    /// A record written into buffers that are too small, right and too great.
    pub fn put_rooms(&mut self, write: u8, values: &[u8]) {
        let size = values.len();
        for room in [0, 1, size - 1, size, size + 1, 40, ROOM] {
            self.put_write(write, values, room);
        }
    }

    /// 60 byte strings to a reader: of any size, of the record's size, and one byte away from a good record.
    pub fn put_any(&mut self, read: u8, good: &[u8], numbers: &mut Numbers) {
        for i in 0..60 {
            let bytes = match i % 3 {
                0 => {
                    let n = numbers.below(49);
                    numbers.bytes(n)
                }
                1 => numbers.bytes(good.len()),
                _ => {
                    let mut near = good.to_vec();
                    let place = numbers.below(good.len());
                    near[place] = numbers.byte();
                    near
                }
            };
            self.put(read, &bytes);
        }
    }
}
