//! The masks of the message pass: figure 1 of 000, whose figure 3 has the same from U on, and
//! figure 1 of 003. Lines are those of both figures 1 where no document is named.

use crate::block::{double, times_3, times_3_squared, times_7, xor, Block};

#[derive(Clone, Copy)]
pub enum Masks {
    /// 003 has no name for L xor delta but at the end, where it is L*.
    First {
        l: Block,
        delta: Block,
    },
    Third {
        l: Block,
        l_sharp: Block,
    },
}

impl Masks {
    /// 003, line 2: L is 4 delta.
    pub fn first(delta: &Block) -> Masks {
        Masks::First {
            l: double(&double(delta)),
            delta: *delta,
        }
    }

    /// 000, line 2 (in figure 3, line 3).
    pub fn third(u: &Block) -> Masks {
        Masks::Third {
            l: *u,
            l_sharp: times_3(u),
        }
    }

    pub fn l(&self) -> Block {
        match self {
            Masks::First { l, .. } | Masks::Third { l, .. } => *l,
        }
    }

    /// The other mask of two blocks: in EF of 003, line 6, L xor delta.
    pub fn l_sharp(&self) -> Block {
        match self {
            Masks::First { l, delta } => xor(l, delta),
            Masks::Third { l_sharp, .. } => *l_sharp,
        }
    }

    /// Line 8. In 003 delta stays; in 000 the step, not the comment beside it, decides (01).
    pub fn step(&mut self) {
        match self {
            Masks::First { l, .. } => *l = double(l),
            Masks::Third { l, l_sharp } => {
                *l = xor(l, l_sharp);
                *l_sharp = double(l_sharp);
            }
        }
    }

    /// L*: 003, lines 10 and 16; 000, lines 14 and 18.
    fn l_star(&self, m: usize) -> Block {
        if m % 2 == 0 {
            self.l_sharp()
        } else {
            self.l()
        }
    }

    /// Lines 19 and 20.
    pub fn last(&self, m: usize, last_is_short: bool) -> Block {
        let l_star = self.l_star(m);
        match (self, last_is_short) {
            (Masks::First { .. }, true) => times_3(&l_star),
            (Masks::First { delta, .. }, false) => xor(&times_3(&l_star), delta),
            (Masks::Third { .. }, true) => times_3_squared(&l_star),
            (Masks::Third { .. }, false) => times_7(&l_star),
        }
    }
}
