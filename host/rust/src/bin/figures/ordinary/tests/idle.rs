//! The scheduler that passes over idle cycles builds what the one that tries each does, on the lists that are measured.

use super::*;
use crate::engines::{asked, Asked};
use crate::{due, for_model, EDITION};

#[test]
fn idle_cycles_passed_over() {
    for Asked { name, table, list } in asked() {
        let lent = for_model(&list);
        let by = |by_cycles| {
            let (mut room, mut finishes) = (vec![0; 8 * due(&list)], vec![0; list.len()]);
            let told = schedule(EDITION, &table, &lent, &mut room, &mut finishes, by_cycles);
            (told, room, finishes)
        };
        let (each, passed) = (by(true), by(false));
        assert_eq!(each.0, Some(due(&list)), "{name}");
        assert!(each == passed, "{name}");
        let eights: Vec<u8> = lent.iter().flat_map(|x| x.eight()).collect();
        let (mut room, mut finishes) = (vec![0; 8 * due(&list)], vec![0; list.len()]);
        let bytes = (&eights[..], 8);
        let told = schedule_bytes(EDITION, &table, bytes, &mut room, &mut finishes, false);
        assert!((told, room, finishes) == each, "{name}");
    }
}
