//! A controller as it stands in a case.

use crate::desk::Controller;
use crate::stored::Bytes;

/// Its numbers in the order of its bytes, each with how many bytes a case has of it: the others are 0.
pub fn numbers(c: &mut Controller) -> Vec<(&mut u32, usize)> {
    let mut all = vec![(&mut c.edition, 2)];
    all.extend([&mut c.cycle, &mut c.acts, &mut c.datas].map(|n| (n, 4)));
    for bank in &mut c.banks {
        all.push((&mut bank.opened, 1));
        all.extend([&mut bank.act, &mut bank.rd, &mut bank.wr].map(|n| (n, 4)));
    }
    all.extend(c.last.iter_mut().map(|n| (n, 4)));
    for group in &mut c.groups {
        all.extend([&mut group.act, &mut group.rd, &mut group.wr].map(|n| (n, 4)));
    }
    all.extend([&mut c.refresh, &mut c.lent].map(|n| (n, 4)));
    all
}

pub fn read(rest: &mut Bytes) -> Option<Controller> {
    let mut c = Controller::fresh(&[0]);
    for (n, size) in numbers(&mut c) {
        let mut bytes = [0; 4];
        bytes[..size].copy_from_slice(rest.take(size)?);
        *n = u32::from_le_bytes(bytes);
    }
    Some(c)
}

pub fn bytes_of(c: &Controller) -> Vec<u8> {
    let mut bytes = Vec::new();
    for (n, size) in numbers(&mut c.clone()) {
        let four = n.to_le_bytes();
        assert_eq!(
            four[size..],
            [0; 4][size..],
            "a case has not all bytes of it"
        );
        bytes.extend_from_slice(&four[..size]);
    }
    bytes
}
