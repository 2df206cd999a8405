//! A pass by document 02, No. 4: the whole units and the rest are kept from entry to entry, and the place has no part in
//! it. `follow` goes through a pass in this way and by the place, side by side.

use crate::model::Axis;

/// The whole units, below L, and the rest, below R.
#[derive(Clone, Copy, Debug, PartialEq)]
pub struct Running {
    pub units: i128,
    pub rest: i128,
}

/// How often each kind of move came, so that a comparison can be seen not to be empty.
#[derive(Clone, Copy, Debug, Default)]
pub struct Kinds {
    pub entries: u64,
    /// R was taken off the rest.
    pub carries: u64,
    /// Back, by no whole number of units: rounded down is not cut.
    pub rounded_down: u64,
    /// The same, with no R taken off.
    pub borrows: u64,
    /// By whole units alone, and not by none.
    pub whole_forward: u64,
    pub whole_back: u64,
    /// By two total ranges at least.
    pub spans_forward: u64,
    pub spans_back: u64,
    /// Past either end of the total range.
    pub wraps_forward: u64,
    pub wraps_back: u64,
    /// Entries after which units or rest are not those of the place.
    pub differences: u64,
}

impl Running {
    /// By the place: the unshifted position, and what dividing place × M by R leaves.
    fn by_place(axis: &Axis) -> Running {
        Running { units: axis.position().into(), rest: (axis.place * axis.m).rem_euclid(axis.r) }
    }

    /// After a move d, from the two before it. `axis` tells R, M and L only.
    fn moved(self, d: i128, axis: &Axis, kinds: &mut Kinds) -> Running {
        let (q, s) = ((d * axis.m).div_euclid(axis.r), (d * axis.m).rem_euclid(axis.r));
        let (mut units, mut rest) = (self.units + q, self.rest + s);
        let carry = rest >= axis.r;
        if carry {
            units += 1;
            rest -= axis.r;
        }
        kinds.note(q, s, carry, units, axis.l);
        Running { units: units.rem_euclid(axis.l), rest }
    }
}

impl Kinds {
    /// `units` before they are taken modulo L.
    fn note(&mut self, q: i128, s: i128, carry: bool, units: i128, l: i128) {
        let back_uneven = q < 0 && s != 0;
        self.entries += 1;
        self.carries += u64::from(carry);
        self.rounded_down += u64::from(back_uneven);
        self.borrows += u64::from(back_uneven && !carry);
        self.whole_forward += u64::from(q > 0 && s == 0);
        self.whole_back += u64::from(q < 0 && s == 0);
        self.spans_forward += u64::from(q >= 2 * l);
        self.spans_back += u64::from(q < -2 * l || q == -2 * l && s == 0);
        self.wraps_forward += u64::from(units >= l);
        self.wraps_back += u64::from(units < 0);
    }

    /// Entries came, and among them every kind of move.
    pub fn all_came(&self) -> bool {
        let forward = [self.whole_forward, self.spans_forward, self.wraps_forward];
        let back = [self.whole_back, self.spans_back, self.wraps_back];
        let rests = [self.entries, self.carries, self.rounded_down, self.borrows];
        [&forward[..], &back[..], &rests[..]].concat().iter().all(|count| *count > 0)
    }
}

/// Goes through a pass, from the axis as it stands. The answer has the whole units after each entry.
pub fn follow(mut axis: Axis, raws: &[u32], kinds: &mut Kinds) -> Result<Vec<i128>, u8> {
    let mut running = Running::by_place(&axis);
    let mut units = Vec::with_capacity(raws.len());
    for raw in raws {
        let d = axis.read(*raw)?;
        running = running.moved(d, &axis, kinds);
        kinds.differences += u64::from(running != Running::by_place(&axis));
        units.push(running.units);
    }
    Ok(units)
}
