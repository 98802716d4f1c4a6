//! Two number types behind one trait: `Dy` (m * 2^e, |m| <= 2^62, -120 <= e <= 60, every operation
//! rounded outward to the grid of docs/FORMATS.md) and `Fl` (f64 with one `next_down`/`next_up` per operation).

pub trait Num: Copy + Send + Sync + 'static {
    const NAME: &'static str;
    fn ninf() -> Self;
    fn pinf() -> Self;
    fn zero() -> Self;
    fn fin(self) -> bool;
    fn lt(self, o: Self) -> bool;
    fn neg(self) -> Self;
    fn sign(self) -> i32;
    fn add_dn(self, o: Self) -> Self;
    fn add_up(self, o: Self) -> Self;
    fn mul_dn(self, o: Self) -> Self;
    fn mul_up(self, o: Self) -> Self;
    fn div_dn(self, o: Self) -> Self;
    fn div_up(self, o: Self) -> Self;
    fn sqrt_dn(self) -> Self;
    fn sqrt_up(self) -> Self;
    fn mid(self, o: Self) -> Self;
    fn frac_dn(n: i128, d: i128) -> Self;
    fn frac_up(n: i128, d: i128) -> Self;
    fn pow2(k: i32) -> Self;
    fn text(self) -> String;
    fn approx(self) -> f64;
    #[inline(always)]
    fn le(self, o: Self) -> bool {
        !o.lt(self)
    }
    #[inline(always)]
    fn min(self, o: Self) -> Self {
        if o.lt(self) { o } else { self }
    }
    #[inline(always)]
    fn max(self, o: Self) -> Self {
        if self.lt(o) { o } else { self }
    }
}

// ---------------------------------------------------------------- dyadic

#[derive(Clone, Copy, Debug, PartialEq, Eq)]
pub struct Dy {
    m: i64,
    e: i32,
}

const EMIN: i32 = -120;
const EINF: i32 = 1 << 20;
const TOP: Dy = Dy { m: 1 << 61, e: 61 };
const ZERO: Dy = Dy { m: 0, e: EMIN };
const PINF: Dy = Dy { m: 1, e: EINF };
const NINF: Dy = Dy { m: -1, e: EINF };

/// Greatest representable number not above m * 2^e.
#[inline(always)]
fn rnd_dn(m: i128, e: i32) -> Dy {
    if m == 0 {
        return ZERO;
    }
    let bits = 128 - m.unsigned_abs().leading_zeros() as i32;
    let mut sh = bits - 62;
    if e + sh < EMIN {
        sh = EMIN - e;
    }
    let r: i64 = if sh > 0 {
        if sh >= 127 { if m < 0 { -1 } else { 0 } } else { (m >> sh) as i64 }
    } else {
        (m << -sh) as i64
    };
    fix_dn(r, e + sh)
}

#[inline(always)]
fn fix_dn(mut r: i64, mut ee: i32) -> Dy {
    if r == -(1 << 62) {
        r >>= 1;
        ee += 1;
    }
    if r == 0 {
        return ZERO;
    }
    if ee > 60 {
        if ee == 61 && r == 1 << 61 {
            return TOP;
        }
        if ee == 61 && r == -(1 << 61) {
            return Dy { m: -(1 << 61), e: 61 };
        }
        return if r > 0 { TOP } else { NINF };
    }
    Dy { m: r, e: ee }
}

#[inline(always)]
fn rnd_up(m: i128, e: i32) -> Dy {
    let d = rnd_dn(-m, e);
    Dy { m: -d.m, e: d.e }
}

/// Exact sum as (m, e), with a sticky bit where the exponents are far apart.
#[inline(always)]
fn sum(a: Dy, b: Dy) -> (i128, i32) {
    let (h, l) = if a.e >= b.e { (a, b) } else { (b, a) };
    if l.m == 0 {
        return (h.m as i128, h.e);
    }
    if h.m == 0 {
        return (l.m as i128, l.e);
    }
    let d = h.e - l.e;
    if d <= 64 {
        (((h.m as i128) << d) + l.m as i128, l.e)
    } else {
        (((h.m as i128) << 4) + l.m.signum() as i128, h.e - 4)
    }
}

fn norm(a: Dy) -> (u128, i32) {
    let u = a.m.unsigned_abs();
    let k = u.leading_zeros() as i32 - 2;
    ((u as u128) << k, a.e - k)
}

fn quot(a: Dy, b: Dy) -> (i128, i32) {
    let s = (a.m.signum() * b.m.signum()) as i128;
    let (x, xe) = norm(a);
    let (y, ye) = norm(b);
    let n = x << 64;
    let q = n / y;
    let r = n - q * y;
    (s * (((q << 1) | (r != 0) as u128) as i128), xe - 64 - ye - 1)
}

fn root(a: Dy) -> (i128, i32) {
    let (mut x, mut e) = norm(a);
    x <<= 64;
    e -= 64;
    if e & 1 != 0 {
        x >>= 1;
        e += 1;
        // the bit shifted out is 0, since x was shifted up by 64 before
    }
    let q = x.isqrt();
    let r = x - q * q;
    (((q << 1) | (r != 0) as u128) as i128, e / 2 - 1)
}

fn frac(n: i128, d: i128) -> (i128, i32) {
    let s = n.signum();
    let n = n.unsigned_abs();
    let d = d.unsigned_abs();
    if n == 0 {
        return (0, 0);
    }
    let mut q = n / d;
    let mut r = n % d;
    let mut e = 0;
    while r != 0 && q < (1u128 << 66) && e > -124 {
        r <<= 1;
        q <<= 1;
        if r >= d {
            r -= d;
            q |= 1;
        }
        e -= 1;
    }
    if r != 0 {
        (s * (((q << 1) | 1) as i128), e - 1)
    } else {
        (s * q as i128, e)
    }
}

impl Num for Dy {
    const NAME: &'static str = "dyadic";
    fn ninf() -> Dy {
        NINF
    }
    fn pinf() -> Dy {
        PINF
    }
    fn zero() -> Dy {
        ZERO
    }
    #[inline(always)]
    fn fin(self) -> bool {
        self.e != EINF
    }
    #[inline(always)]
    fn lt(self, o: Dy) -> bool {
        if (self.m < 0) != (o.m < 0) || self.m == 0 || o.m == 0 {
            return self.m < o.m;
        }
        if self.m > 0 {
            self.e < o.e || (self.e == o.e && self.m < o.m)
        } else {
            self.e > o.e || (self.e == o.e && self.m < o.m)
        }
    }
    #[inline(always)]
    fn neg(self) -> Dy {
        Dy { m: -self.m, e: self.e }
    }
    #[inline(always)]
    fn sign(self) -> i32 {
        self.m.signum() as i32
    }
    #[inline(always)]
    fn add_dn(self, o: Dy) -> Dy {
        if !self.fin() {
            return self;
        }
        if !o.fin() {
            return o;
        }
        let (m, e) = sum(self, o);
        rnd_dn(m, e)
    }
    #[inline(always)]
    fn add_up(self, o: Dy) -> Dy {
        if !self.fin() {
            return self;
        }
        if !o.fin() {
            return o;
        }
        let (m, e) = sum(self, o);
        rnd_up(m, e)
    }
    #[inline(always)]
    fn mul_dn(self, o: Dy) -> Dy {
        if !self.fin() || !o.fin() {
            return inf_of(self.sign() * o.sign());
        }
        rnd_dn(self.m as i128 * o.m as i128, self.e + o.e)
    }
    #[inline(always)]
    fn mul_up(self, o: Dy) -> Dy {
        if !self.fin() || !o.fin() {
            return inf_of(self.sign() * o.sign());
        }
        rnd_up(self.m as i128 * o.m as i128, self.e + o.e)
    }
    fn div_dn(self, o: Dy) -> Dy {
        if !o.fin() || self.m == 0 {
            return ZERO;
        }
        if !self.fin() {
            return inf_of(self.sign() * o.sign());
        }
        let (m, e) = quot(self, o);
        rnd_dn(m, e)
    }
    fn div_up(self, o: Dy) -> Dy {
        if !o.fin() || self.m == 0 {
            return ZERO;
        }
        if !self.fin() {
            return inf_of(self.sign() * o.sign());
        }
        let (m, e) = quot(self, o);
        rnd_up(m, e)
    }
    fn sqrt_dn(self) -> Dy {
        if self.m <= 0 {
            return ZERO;
        }
        if !self.fin() {
            return TOP;
        }
        let (m, e) = root(self);
        rnd_dn(m, e)
    }
    fn sqrt_up(self) -> Dy {
        if self.m <= 0 {
            return ZERO;
        }
        if !self.fin() {
            return PINF;
        }
        let (m, e) = root(self);
        rnd_up(m, e)
    }
    fn mid(self, o: Dy) -> Dy {
        let (m, e) = sum(self, o);
        rnd_dn(m, e - 1)
    }
    fn frac_dn(n: i128, d: i128) -> Dy {
        let (m, e) = frac(n, d);
        rnd_dn(m, e)
    }
    fn frac_up(n: i128, d: i128) -> Dy {
        let (m, e) = frac(n, d);
        rnd_up(m, e)
    }
    fn pow2(k: i32) -> Dy {
        rnd_dn(1, k)
    }
    fn text(self) -> String {
        if !self.fin() {
            return if self.m > 0 { "inf" } else { "-inf" }.into();
        }
        if self.m == 0 {
            return "0".into();
        }
        let k = self.m.trailing_zeros();
        format!("{}b{}", self.m >> k, self.e + k as i32)
    }
    fn approx(self) -> f64 {
        if !self.fin() {
            return if self.m > 0 { f64::INFINITY } else { f64::NEG_INFINITY };
        }
        self.m as f64 * (2f64).powi(self.e)
    }
}

#[inline(always)]
fn inf_of(s: i32) -> Dy {
    if s > 0 { PINF } else if s < 0 { NINF } else { ZERO }
}

// ---------------------------------------------------------------- f64

#[derive(Clone, Copy, Debug, PartialEq)]
pub struct Fl(f64);

#[inline(always)]
fn fdn(x: f64) -> Fl {
    if x == f64::INFINITY { Fl(f64::MAX) } else { Fl(x.next_down()) }
}
#[inline(always)]
fn fup(x: f64) -> Fl {
    if x == f64::NEG_INFINITY { Fl(f64::MIN) } else { Fl(x.next_up()) }
}

impl Num for Fl {
    const NAME: &'static str = "f64";
    fn ninf() -> Fl {
        Fl(f64::NEG_INFINITY)
    }
    fn pinf() -> Fl {
        Fl(f64::INFINITY)
    }
    fn zero() -> Fl {
        Fl(0.0)
    }
    #[inline(always)]
    fn fin(self) -> bool {
        self.0.is_finite()
    }
    #[inline(always)]
    fn lt(self, o: Fl) -> bool {
        self.0 < o.0
    }
    #[inline(always)]
    fn neg(self) -> Fl {
        Fl(-self.0)
    }
    #[inline(always)]
    fn sign(self) -> i32 {
        if self.0 > 0.0 { 1 } else if self.0 < 0.0 { -1 } else { 0 }
    }
    #[inline(always)]
    fn add_dn(self, o: Fl) -> Fl {
        if self.0 == 0.0 {
            return o;
        }
        if o.0 == 0.0 {
            return self;
        }
        if self.0 == f64::NEG_INFINITY || o.0 == f64::NEG_INFINITY {
            return Fl::ninf();
        }
        fdn(self.0 + o.0)
    }
    #[inline(always)]
    fn add_up(self, o: Fl) -> Fl {
        if self.0 == 0.0 {
            return o;
        }
        if o.0 == 0.0 {
            return self;
        }
        if self.0 == f64::INFINITY || o.0 == f64::INFINITY {
            return Fl::pinf();
        }
        fup(self.0 + o.0)
    }
    #[inline(always)]
    fn mul_dn(self, o: Fl) -> Fl {
        if self.0 == 0.0 || o.0 == 0.0 {
            return Fl(0.0);
        }
        let p = self.0 * o.0;
        if p == f64::NEG_INFINITY || !self.fin() || !o.fin() { Fl(p) } else { fdn(p) }
    }
    #[inline(always)]
    fn mul_up(self, o: Fl) -> Fl {
        if self.0 == 0.0 || o.0 == 0.0 {
            return Fl(0.0);
        }
        let p = self.0 * o.0;
        if p == f64::INFINITY || !self.fin() || !o.fin() { Fl(p) } else { fup(p) }
    }
    #[inline(always)]
    fn div_dn(self, o: Fl) -> Fl {
        if self.0 == 0.0 || !o.fin() {
            return Fl(0.0);
        }
        let p = self.0 / o.0;
        if p == f64::NEG_INFINITY || !self.fin() { Fl(p) } else { fdn(p) }
    }
    #[inline(always)]
    fn div_up(self, o: Fl) -> Fl {
        if self.0 == 0.0 || !o.fin() {
            return Fl(0.0);
        }
        let p = self.0 / o.0;
        if p == f64::INFINITY || !self.fin() { Fl(p) } else { fup(p) }
    }
    fn sqrt_dn(self) -> Fl {
        if self.0 <= 0.0 {
            return Fl(0.0);
        }
        let r = self.0.sqrt();
        if r.is_finite() { Fl(r.next_down().max(0.0)) } else { Fl(f64::MAX) }
    }
    fn sqrt_up(self) -> Fl {
        if self.0 <= 0.0 {
            return Fl(0.0);
        }
        let r = self.0.sqrt();
        if r.is_finite() { Fl(r.next_up()) } else { Fl(r) }
    }
    fn mid(self, o: Fl) -> Fl {
        Fl(self.0 * 0.5 + o.0 * 0.5)
    }
    fn frac_dn(n: i128, d: i128) -> Fl {
        let (m, e) = frac(n, d);
        Dy::exact_or(rnd_dn(m, e), false)
    }
    fn frac_up(n: i128, d: i128) -> Fl {
        let (m, e) = frac(n, d);
        Dy::exact_or(rnd_up(m, e), true)
    }
    fn pow2(k: i32) -> Fl {
        Fl((2f64).powi(k))
    }
    fn text(self) -> String {
        format!("{:e}", self.0)
    }
    fn approx(self) -> f64 {
        self.0
    }
}

impl Dy {
    fn exact_or(d: Dy, up: bool) -> Fl {
        if !d.fin() {
            return Fl(if d.m > 0 { f64::INFINITY } else { f64::NEG_INFINITY });
        }
        let f = d.approx();
        // exact where the 53-bit value gives the mantissa back
        if d.m == 0 || (d.m as f64) as i64 == d.m {
            return Fl(f);
        }
        if up { Fl(f.next_up()) } else { Fl(f.next_down()) }
    }
}

#[cfg(test)]
mod tests {
    use super::*;
    fn q(n: i128, d: i128) -> (String, String) {
        (Dy::frac_dn(n, d).text(), Dy::frac_up(n, d).text())
    }
    #[test]
    fn rows_of_r14() {
        assert_eq!(q(1, 3), ("1537228672809129301b-62".into(), "3074457345618258603b-63".into()));
        let t = Dy::pow2(-40);
        assert_eq!(t.mul_dn(t).text(), "1b-80");
        assert_eq!(t.mul_up(t).text(), "1b-80");
        let b = Dy::pow2(22);
        assert_eq!(b.mul_dn(b).text(), "1b44");
        assert_eq!(Dy::frac_dn(2, 1).sqrt_dn().text(), "3260954456333195553b-61");
        assert_eq!(Dy::pow2(122).text(), "1b122");
        assert_eq!(Dy::pow2(122).add_up(Dy::pow2(-120)).text(), "inf");
        assert_eq!(Dy::pow2(122).add_dn(Dy::pow2(-120)).text(), "1b122");
        assert_eq!(Dy::pow2(100).mul_up(Dy::pow2(23)).text(), "inf");
        assert_eq!(Dy::pow2(-100).mul_up(Dy::pow2(-23)).text(), "1b-120");
        assert_eq!(Dy::pow2(-100).mul_dn(Dy::pow2(-23)).text(), "0");
        assert_eq!(Dy::pow2(0).add_dn(Dy::pow2(-120).neg()).text(), "4611686018427387903b-62");
    }
}
