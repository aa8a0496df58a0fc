//! Chooses what a call is made for.

use crate::random::Random;

/// What a call is made for.
#[derive(Clone, Copy, PartialEq, Eq)]
pub(crate) enum Plan {
    Good,
    Table,
    Record,
    Syntax,
    Name,
    Use,
    Twice,
    Short,
    Bad,
    Misfit,
    Room,
    Bare,
}

pub(crate) fn plan(random: &mut Random, plans: &[(usize, Plan)]) -> Plan {
    let mut place = random.below(100);
    for &(share, plan) in plans {
        if place < share {
            return plan;
        }
        place -= share;
    }
    Plan::Good
}
