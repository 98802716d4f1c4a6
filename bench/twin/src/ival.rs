//! Intervals with the operations of docs/FORMATS.md. An interval is empty where hi < lo.
use crate::num::Num;

#[derive(Clone, Copy)]
pub struct Iv<N> {
    pub lo: N,
    pub hi: N,
}

impl<N: Num> Iv<N> {
    pub fn all() -> Self {
        Iv { lo: N::ninf(), hi: N::pinf() }
    }
    pub fn point(v: N) -> Self {
        Iv { lo: v, hi: v }
    }
    pub fn nothing() -> Self {
        Iv { lo: N::pinf(), hi: N::ninf() }
    }
    #[inline(always)]
    pub fn empty(self) -> bool {
        self.hi.lt(self.lo)
    }
    #[inline(always)]
    pub fn within(self, o: Self) -> bool {
        o.lo.le(self.lo) && self.hi.le(o.hi)
    }
    #[inline(always)]
    pub fn meet(self, o: Self) -> Self {
        Iv { lo: self.lo.max(o.lo), hi: self.hi.min(o.hi) }
    }
    #[inline(always)]
    pub fn hull(self, o: Self) -> Self {
        if self.empty() {
            return o;
        }
        if o.empty() {
            return self;
        }
        Iv { lo: self.lo.min(o.lo), hi: self.hi.max(o.hi) }
    }
    #[inline(always)]
    pub fn neg(self) -> Self {
        Iv { lo: self.hi.neg(), hi: self.lo.neg() }
    }
    #[inline(always)]
    pub fn add(self, o: Self) -> Self {
        Iv { lo: self.lo.add_dn(o.lo), hi: self.hi.add_up(o.hi) }
    }
    /// self - o, as `self + (-o)` with exact ends rounded once.
    #[inline(always)]
    pub fn sub(self, o: Self) -> Self {
        Iv { lo: self.lo.add_dn(o.hi.neg()), hi: self.hi.add_up(o.lo.neg()) }
    }
    #[inline(always)]
    pub fn mul(self, o: Self) -> Self {
        let (a, b, c, d) = (self.lo, self.hi, o.lo, o.hi);
        if a.sign() >= 0 {
            if c.sign() >= 0 {
                return Iv { lo: a.mul_dn(c), hi: b.mul_up(d) };
            }
            if d.sign() <= 0 {
                return Iv { lo: b.mul_dn(c), hi: a.mul_up(d) };
            }
            return Iv { lo: b.mul_dn(c), hi: b.mul_up(d) };
        }
        if b.sign() <= 0 {
            if c.sign() >= 0 {
                return Iv { lo: a.mul_dn(d), hi: b.mul_up(c) };
            }
            if d.sign() <= 0 {
                return Iv { lo: b.mul_dn(d), hi: a.mul_up(c) };
            }
            return Iv { lo: a.mul_dn(d), hi: a.mul_up(c) };
        }
        if c.sign() >= 0 {
            return Iv { lo: a.mul_dn(d), hi: b.mul_up(d) };
        }
        if d.sign() <= 0 {
            return Iv { lo: b.mul_dn(c), hi: a.mul_up(c) };
        }
        Iv { lo: a.mul_dn(d).min(b.mul_dn(c)), hi: a.mul_up(c).max(b.mul_up(d)) }
    }
    #[inline(always)]
    pub fn sq(self) -> Self {
        let (a, b) = (self.lo, self.hi);
        if a.sign() >= 0 {
            return Iv { lo: a.mul_dn(a), hi: b.mul_up(b) };
        }
        if b.sign() <= 0 {
            return Iv { lo: b.mul_dn(b), hi: a.mul_up(a) };
        }
        Iv { lo: N::zero(), hi: a.mul_up(a).max(b.mul_up(b)) }
    }
    /// What a place under Mul leaves: `n` the parent's narrowed interval, `o` the other child's enclosure.
    #[inline(always)]
    pub fn inv_mul(n: Self, o: Self) -> Self {
        let (sl, sh) = (o.lo.sign(), o.hi.sign());
        if sl > 0 {
            return div_pos(n, o);
        }
        if sh < 0 {
            return div_pos(n.neg(), o.neg());
        }
        if n.lo.sign() <= 0 && n.hi.sign() >= 0 {
            return Iv::all();
        }
        if sl == 0 && sh == 0 {
            return Iv::nothing();
        }
        let above = n.lo.sign() > 0;
        if sl == 0 {
            return if above {
                Iv { lo: n.lo.div_dn(o.hi), hi: N::pinf() }
            } else {
                Iv { lo: N::ninf(), hi: n.hi.div_up(o.hi) }
            };
        }
        if sh == 0 {
            return if above {
                Iv { lo: N::ninf(), hi: n.lo.div_up(o.lo) }
            } else {
                Iv { lo: n.hi.div_dn(o.lo), hi: N::pinf() }
            };
        }
        Iv::all()
    }
    /// What Sq leaves of the child with enclosure `e`.
    #[inline(always)]
    pub fn inv_sq(n: Self, e: Self) -> Self {
        let q = n.lo.sqrt_dn();
        let r = if n.hi.fin() { n.hi.sqrt_up() } else { N::pinf() };
        let left = e.meet(Iv { lo: r.neg(), hi: q.neg() });
        let right = e.meet(Iv { lo: q, hi: r });
        left.hull(right)
    }
}

#[inline(always)]
fn div_pos<N: Num>(n: Iv<N>, o: Iv<N>) -> Iv<N> {
    let lo = if n.lo.sign() >= 0 { n.lo.div_dn(o.hi) } else { n.lo.div_dn(o.lo) };
    let hi = if n.hi.sign() >= 0 { n.hi.div_up(o.lo) } else { n.hi.div_up(o.hi) };
    Iv { lo, hi }
}
