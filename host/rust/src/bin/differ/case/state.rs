//! A controller as plain numbers.

/// A controller's numbers: edition, cycle, acts, datas; opened, act, rd, wr of each bank; the last four ACTs; act, rd, wr of each group; the last
/// REF; how many transactions were lent before.
pub type State = [u32; NUMBERS];
pub const NUMBERS: usize = 98;
pub const EDITION: usize = 0;
pub const CYCLE: usize = 1;
pub const ACTS: usize = 2;
pub const DATAS: usize = 3;
pub const BANKS: usize = 4;
pub const LAST: usize = 68;
pub const GROUPS: usize = 72;
pub const REFRESH: usize = 96;
pub const LENT: usize = 97;

/// Closed, "never" throughout, and nothing lent.
pub fn fresh(edition: u32) -> State {
    let mut s = [u32::MAX; NUMBERS];
    s[EDITION] = edition;
    s[CYCLE..BANKS].fill(0);
    for opened in s[BANKS..LAST].iter_mut().step_by(4) {
        *opened = 0;
    }
    s[LENT] = 0;
    s
}

/// To and from a controller, the archive's or the model's, which have the same fields: with what one is before its numbers are put into it.
macro_rules! controllers {
    ($controller:ty, $empty:expr) => {
        pub fn controller(s: &State) -> $controller {
            let mut c = $empty;
            for (place, n) in places(&mut c).into_iter().zip(s) {
                *place = *n;
            }
            c
        }

        pub fn state(c: &$controller) -> State {
            let mut s = [0; NUMBERS];
            for (n, place) in s.iter_mut().zip(places(&mut c.clone())) {
                *n = *place;
            }
            s
        }

        fn places(c: &mut $controller) -> Vec<&mut u32> {
            let mut all = vec![&mut c.edition, &mut c.cycle, &mut c.acts, &mut c.datas];
            for bank in &mut c.banks {
                all.extend([&mut bank.opened, &mut bank.act, &mut bank.rd, &mut bank.wr]);
            }
            all.extend(&mut c.last);
            for group in &mut c.groups {
                all.extend([&mut group.act, &mut group.rd, &mut group.wr]);
            }
            all.extend([&mut c.refresh, &mut c.lent]);
            all
        }
    };
}

pub(crate) use controllers;
