//! Branch and prune: HC4 over the atoms in `yes`, `may` and `sure`, cuts at the widest axis's middle,
//! case splits on atoms and Bools, K workers over one shared deque.
use crate::ival::Iv;
use crate::num::Num;
use crate::parse::{Form, Frac, Kind, Node, Problem};
use std::collections::VecDeque;
use std::sync::atomic::{AtomicBool, AtomicU64, Ordering};
use std::sync::{Condvar, Mutex};

#[derive(Clone)]
pub struct Opts {
    pub delta: i32,
    pub margin: i32,
    pub least: i32,
    pub budget: u64,
    pub workers: usize,
    pub dfs: bool,
    /// 0: case splits before cuts; 1: cuts alone while an axis is wide; 2: case splits on two-way choices alone
    pub branch: u8,
    /// a pull is repeated while a side fell by more than 1/shrink of itself
    pub shrink: f64,
    pub rounds: u32,
    pub seconds: f64,
}

#[derive(Clone)]
pub struct State<N> {
    space: Vec<Iv<N>>,
    /// 0 false, 1 true, 2 both
    bools: Vec<u8>,
    /// 0 undecided, 1 yes, 2 no
    lits: Vec<u8>,
}

pub enum Answer<N> {
    Unsat,
    Point(Vec<N>, Vec<bool>),
    Budget,
    Width,
    Time,
}

#[derive(Default, Clone, Copy)]
pub struct Count {
    pub boxes: u64,
    pub branches: u64,
    pub pulls: u64,
    pub fwd: u64,
    pub bwd: u64,
    pub open: u64,
    pub stuck: u64,
}

struct Shape {
    /// for each atom the nodes under its term, rising, with the term last
    under: Vec<Vec<u32>>,
    /// for each axis the atoms that reach it
    atoms_of: Vec<Vec<u32>>,
    /// for each atom its axes
    axes_of: Vec<Vec<u32>>,
}

struct Worker<'a, N> {
    p: &'a Problem,
    o: &'a Opts,
    sh: &'a Shape,
    row: Vec<Iv<N>>,
    nar: Vec<Iv<N>>,
    touched: Vec<u32>,
    has: Vec<bool>,
    /// clock of the last change and of the last computation of each row
    chg: Vec<u64>,
    evt: Vec<u64>,
    clock: u64,
    mrow: Vec<Iv<N>>,
    fmay: Vec<bool>,
    fdone: Vec<bool>,
    freq: Vec<bool>,
    count: Count,
}

fn range<N: Num>(k: Kind, s: i32) -> Iv<N> {
    let s = N::pow2(-s);
    match k {
        Kind::Le => Iv { lo: N::ninf(), hi: s },
        Kind::Ge => Iv { lo: s.neg(), hi: N::pinf() },
        Kind::Eq => Iv { lo: s.neg(), hi: s },
    }
}

enum End<N> {
    Closed,
    Point(Vec<N>, Vec<bool>),
    Two(State<N>, State<N>),
    Stuck,
}

impl<'a, N: Num> Worker<'a, N> {
    fn new(p: &'a Problem, o: &'a Opts, sh: &'a Shape, consts: &'a [Iv<N>]) -> Self {
        let n = p.nodes.len();
        let all = Iv::<N>::all();
        let mut w = Worker {
            p,
            o,
            sh,
            row: vec![all; n],
            nar: vec![all; n],
            touched: vec![],
            has: vec![false; n],
            chg: vec![0; n],
            evt: vec![0; n],
            clock: 1,
            mrow: vec![all; n],
            fmay: vec![false; p.forms.len()],
            fdone: vec![false; p.forms.len()],
            freq: vec![false; p.forms.len()],
            count: Count::default(),
        };
        for (i, nd) in p.nodes.iter().enumerate() {
            if let Node::Const(_) = nd {
                w.row[i] = consts[i];
                w.mrow[i] = consts[i];
                w.evt[i] = 1;
            }
        }
        w
    }

    #[inline(always)]
    fn eval(p: &Problem, row: &[Iv<N>], i: usize) -> Iv<N> {
        match p.nodes[i] {
            Node::Const(_) | Node::Var(_) => row[i],
            Node::Neg(a) => row[a as usize].neg(),
            Node::Add(a, b) => row[a as usize].add(row[b as usize]),
            Node::Mul(a, b) => row[a as usize].mul(row[b as usize]),
            Node::Sq(a) => row[a as usize].sq(),
        }
    }

    fn load(&mut self, st: &State<N>) {
        self.clock += 1;
        for i in 0..self.p.nodes.len() {
            match self.p.nodes[i] {
                Node::Const(_) => continue,
                Node::Var(a) => self.row[i] = st.space[a as usize],
                _ => {
                    self.row[i] = Self::eval(self.p, &self.row, i);
                    self.count.fwd += 1;
                }
            }
            self.chg[i] = self.clock;
            self.evt[i] = self.clock;
        }
    }

    fn fresh(&mut self, list: &[u32]) {
        for &i in list {
            let i = i as usize;
            let t = match self.p.nodes[i] {
                Node::Const(_) | Node::Var(_) => continue,
                Node::Neg(a) | Node::Sq(a) => self.chg[a as usize],
                Node::Add(a, b) | Node::Mul(a, b) => self.chg[a as usize].max(self.chg[b as usize]),
            };
            if t > self.evt[i] {
                self.row[i] = Self::eval(self.p, &self.row, i);
                self.chg[i] = self.clock;
                self.evt[i] = self.clock;
                self.count.fwd += 1;
            }
        }
    }

    /// None: empty. Else whether an axis changed; those that fell notably are pushed to `fell`.
    fn pull(&mut self, st: &mut State<N>, j: usize, fell: &mut Vec<u32>) -> Option<bool> {
        let list = &self.sh.under[j];
        self.fresh(list);
        self.count.pulls += 1;
        let (t, k) = self.p.atoms[j];
        let rg = range::<N>(k, self.o.margin);
        let root = self.row[t as usize];
        if root.within(rg) {
            return Some(false);
        }
        let m = root.meet(rg);
        if m.empty() {
            return None;
        }
        for &i in &self.touched {
            self.has[i as usize] = false;
        }
        self.touched.clear();
        self.set(t, m);
        for &i in list.iter().rev() {
            let i = i as usize;
            if !self.has[i] {
                continue;
            }
            let n = self.nar[i];
            match self.p.nodes[i] {
                Node::Const(_) | Node::Var(_) => {}
                Node::Neg(a) => self.meet(a, n.neg())?,
                Node::Add(a, b) => {
                    let (ea, eb) = (self.row[a as usize], self.row[b as usize]);
                    if !self.is_const(a) {
                        self.meet(a, n.sub(eb))?;
                    }
                    if !self.is_const(b) {
                        self.meet(b, n.sub(ea))?;
                    }
                    self.count.bwd += 2;
                }
                Node::Mul(a, b) => {
                    let (ea, eb) = (self.row[a as usize], self.row[b as usize]);
                    if !self.is_const(a) {
                        self.meet(a, Iv::inv_mul(n, eb))?;
                    }
                    if !self.is_const(b) {
                        self.meet(b, Iv::inv_mul(n, ea))?;
                    }
                    self.count.bwd += 2;
                }
                Node::Sq(a) => {
                    let e = self.row[a as usize];
                    self.meet(a, Iv::inv_sq(n, e))?;
                    self.count.bwd += 1;
                }
            }
        }
        self.clock += 1;
        let mut changed = false;
        for x in 0..self.sh.axes_of[j].len() {
            let v = self.sh.axes_of[j][x];
            if !self.has[v as usize] {
                continue;
            }
            let Node::Var(ax) = self.p.nodes[v as usize] else { continue };
            let (old, new) = (st.space[ax as usize], self.nar[v as usize]);
            if old.within(new) {
                continue;
            }
            changed = true;
            st.space[ax as usize] = new;
            self.row[v as usize] = new;
            self.chg[v as usize] = self.clock;
            let (a, b) = (old.hi.approx() - old.lo.approx(), new.hi.approx() - new.lo.approx());
            if a - b > a * self.o.shrink {
                fell.push(ax);
            }
        }
        Some(changed)
    }

    #[inline(always)]
    fn is_const(&self, i: u32) -> bool {
        matches!(self.p.nodes[i as usize], Node::Const(_))
    }
    #[inline(always)]
    fn set(&mut self, i: u32, v: Iv<N>) {
        self.nar[i as usize] = v;
        self.has[i as usize] = true;
        self.touched.push(i);
    }
    #[inline(always)]
    fn meet(&mut self, i: u32, v: Iv<N>) -> Option<()> {
        let u = i as usize;
        let old = if self.has[u] { self.nar[u] } else { self.row[u] };
        let m = old.meet(v);
        if m.empty() {
            return None;
        }
        if self.has[u] {
            self.nar[u] = m;
        } else if !old.within(v) {
            self.set(i, m);
        }
        Some(())
    }

    /// `may` over the whole form; then the forced atoms and Bools. None: `may` is false.
    fn look(&mut self, st: &mut State<N>, new: &mut Vec<u32>) -> Option<()> {
        for j in 0..self.p.atoms.len() {
            self.fresh(&self.sh.under[j]);
        }
        for i in 0..self.p.forms.len() {
            let (m, d) = match &self.p.forms[i] {
                Form::True => (true, true),
                Form::False => (false, false),
                Form::Bool(b, v) => {
                    let x = st.bools[*b as usize];
                    (x == 2 || x == *v as u8, x == *v as u8)
                }
                Form::Atom(j) => {
                    let j = *j as usize;
                    let (t, k) = self.p.atoms[j];
                    let e = self.row[t as usize];
                    if st.lits[j] == 2 || e.meet(range(k, self.o.margin)).empty() {
                        (false, false)
                    } else {
                        (true, st.lits[j] == 1 || e.within(range(k, self.o.delta)))
                    }
                }
                Form::And(v) => (
                    v.iter().all(|f| self.fmay[*f as usize]),
                    v.iter().all(|f| self.fdone[*f as usize]),
                ),
                Form::Or(v) => (
                    v.iter().any(|f| self.fmay[*f as usize]),
                    v.iter().any(|f| self.fdone[*f as usize]),
                ),
            };
            self.fmay[i] = m;
            self.fdone[i] = m && d;
            self.freq[i] = false;
        }
        let r = self.p.root as usize;
        if !self.fmay[r] {
            return None;
        }
        self.freq[r] = true;
        for i in (0..self.p.forms.len()).rev() {
            if !self.freq[i] {
                continue;
            }
            match &self.p.forms[i] {
                Form::And(v) => {
                    for f in v {
                        self.freq[*f as usize] = true;
                    }
                }
                Form::Or(v) => {
                    let mut one = None;
                    let mut n = 0;
                    for f in v {
                        if self.fmay[*f as usize] {
                            n += 1;
                            one = Some(*f);
                        }
                    }
                    if n == 1 {
                        self.freq[one.unwrap() as usize] = true;
                    }
                }
                Form::Atom(j) => {
                    if st.lits[*j as usize] == 0 {
                        st.lits[*j as usize] = 1;
                        new.push(*j);
                    }
                }
                Form::Bool(b, v) => {
                    if st.bools[*b as usize] == 2 {
                        // there is no unit for a Bool: a flip with one child closed at once
                        st.bools[*b as usize] = *v as u8;
                        self.count.branches += 1;
                        self.count.boxes += 1;
                    } else if st.bools[*b as usize] != *v as u8 {
                        return None;
                    }
                }
                _ => {}
            }
        }
        Some(())
    }

    fn middle(&mut self, st: &State<N>) -> Option<(Vec<N>, Vec<bool>)> {
        let mid: Vec<N> = st.space.iter().map(|v| v.lo.mid(v.hi)).collect();
        for i in 0..self.p.nodes.len() {
            match self.p.nodes[i] {
                Node::Const(_) => {}
                Node::Var(a) => self.mrow[i] = Iv::point(mid[a as usize]),
                _ => {
                    self.mrow[i] = Self::eval(self.p, &self.mrow, i);
                    self.count.fwd += 1;
                }
            }
        }
        let mut ok = vec![false; self.p.forms.len()];
        for i in 0..self.p.forms.len() {
            ok[i] = match &self.p.forms[i] {
                Form::True => true,
                Form::False => false,
                Form::Bool(b, v) => (st.bools[*b as usize] == 1) == *v,
                Form::Atom(j) => {
                    let (t, k) = self.p.atoms[*j as usize];
                    self.mrow[t as usize].within(range(k, self.o.delta))
                }
                Form::And(v) => v.iter().all(|f| ok[*f as usize]),
                Form::Or(v) => v.iter().any(|f| ok[*f as usize]),
            };
        }
        if ok[self.p.root as usize] {
            Some((mid, st.bools.iter().map(|b| *b == 1).collect()))
        } else {
            None
        }
    }

    fn pick_in(&self, st: &State<N>, f: u32) -> Option<(bool, u32, bool)> {
        if self.fdone[f as usize] || !self.fmay[f as usize] {
            return None;
        }
        match &self.p.forms[f as usize] {
            Form::Atom(j) => (st.lits[*j as usize] == 0).then_some((false, *j, true)),
            Form::Bool(b, v) => (st.bools[*b as usize] == 2).then_some((true, *b, *v)),
            Form::And(v) | Form::Or(v) => {
                for g in v {
                    if let Some(x) = self.pick_in(st, *g) {
                        return Some(x);
                    }
                }
                None
            }
            _ => None,
        }
    }

    fn work(&mut self, mut st: State<N>) -> End<N> {
        self.count.boxes += 1;
        self.load(&st);
        let mut fell = vec![];
        let mut new = vec![];
        if self.look(&mut st, &mut new).is_none() {
            return End::Closed;
        }
        if let Some((a, b)) = self.middle(&st) {
            return End::Point(a, b);
        }
        let na = self.p.atoms.len();
        let mut queued = vec![false; na];
        let mut queue: VecDeque<u32> = VecDeque::new();
        for j in 0..na {
            if st.lits[j] == 1 {
                queue.push_back(j as u32);
                queued[j] = true;
            }
        }
        let mut left = self.o.rounds as u64 * (queue.len().max(8) as u64);
        let mut changed = false;
        loop {
            while let Some(j) = queue.pop_front() {
                let j = j as usize;
                queued[j] = false;
                if left == 0 {
                    break;
                }
                left -= 1;
                fell.clear();
                match self.pull(&mut st, j, &mut fell) {
                    None => return End::Closed,
                    Some(c) => changed |= c,
                }
                for x in 0..fell.len() {
                    let ax = fell[x] as usize;
                    for &a in &self.sh.atoms_of[ax] {
                        if st.lits[a as usize] == 1 && !queued[a as usize] {
                            queued[a as usize] = true;
                            queue.push_back(a);
                        }
                    }
                }
            }
            new.clear();
            let mut nb = st.bools.iter().filter(|b| **b == 2).count();
            if self.look(&mut st, &mut new).is_none() {
                return End::Closed;
            }
            // Bools fixed just now may force more at the next look
            loop {
                let n2 = st.bools.iter().filter(|b| **b == 2).count();
                if n2 == nb {
                    break;
                }
                nb = n2;
                if self.look(&mut st, &mut new).is_none() {
                    return End::Closed;
                }
            }
            if new.is_empty() {
                break;
            }
            for &j in &new {
                if !queued[j as usize] {
                    queued[j as usize] = true;
                    queue.push_back(j);
                }
            }
            left = left.max(new.len() as u64 * 2);
        }
        if changed {
            if let Some((a, b)) = self.middle(&st) {
                return End::Point(a, b);
            }
        }
        // branch
        let least = N::pow2(-self.o.least);
        let mut wide: Option<(usize, N, N)> = None;
        for (i, v) in st.space.iter().enumerate() {
            let m = v.lo.mid(v.hi);
            if !(v.lo.lt(m) && m.lt(v.hi)) {
                continue;
            }
            let side = v.hi.add_up(v.lo.neg());
            if wide.is_none_or(|w| w.1.lt(side)) {
                wide = Some((i, side, m));
            }
        }
        let can_cut = wide.is_some_and(|w| least.lt(w.1));
        let mut choice: Option<(bool, u32, bool)> = None;
        let mut fewest = usize::MAX;
        if self.o.branch != 1 || !can_cut {
            for i in 0..self.p.forms.len() {
                if !self.freq[i] || self.fdone[i] {
                    continue;
                }
                if let Form::Or(v) = &self.p.forms[i] {
                    let n = v.iter().filter(|f| self.fmay[**f as usize]).count();
                    if self.o.branch == 2 && can_cut && n > 2 {
                        continue;
                    }
                    if n < fewest {
                        for f in v {
                            if let Some(x) = self.pick_in(&st, *f) {
                                choice = Some(x);
                                fewest = n;
                                break;
                            }
                        }
                    }
                }
            }
        }
        if choice.is_none() && !can_cut {
            choice = st.bools.iter().position(|b| *b == 2).map(|b| (true, b as u32, true));
        }
        if let Some((is_bool, i, v)) = choice {
            let mut a = st.clone();
            let mut b = st;
            if is_bool {
                a.bools[i as usize] = v as u8;
                b.bools[i as usize] = !v as u8;
            } else {
                a.lits[i as usize] = 1;
                b.lits[i as usize] = 2;
            }
            return End::Two(a, b);
        }
        if can_cut {
            let (i, _, m) = wide.unwrap();
            let mut a = st.clone();
            let mut b = st;
            a.space[i].hi = m;
            b.space[i].lo = m;
            return End::Two(a, b);
        }
        End::Stuck
    }
}

struct Shared<N> {
    q: VecDeque<State<N>>,
    busy: usize,
    waiting: usize,
}

#[repr(C)]
struct Spec {
    s: i64,
    n: i64,
}
extern "C" {
    fn clock_gettime(id: i32, t: *mut Spec) -> i32;
}

/// CPU seconds of this process (Linux), so that a loaded machine does not spoil the rates.
pub fn cpu() -> f64 {
    let mut t = Spec { s: 0, n: 0 };
    unsafe { clock_gettime(2, &mut t) };
    t.s as f64 + t.n as f64 * 1e-9
}

pub fn solve<N: Num>(p: &Problem, o: &Opts) -> (Answer<N>, Count) {
    let consts: Vec<Iv<N>> = p
        .nodes
        .iter()
        .map(|x| match x {
            Node::Const(f) => Iv { lo: N::frac_dn(f.n, f.d), hi: N::frac_up(f.n, f.d) },
            _ => Iv::all(),
        })
        .collect();
    let mut sh = Shape { under: vec![], atoms_of: vec![vec![]; p.reals.len()], axes_of: vec![] };
    for (j, &(t, _)) in p.atoms.iter().enumerate() {
        let mut seen = vec![false; t as usize + 1];
        seen[t as usize] = true;
        let mut list = vec![];
        let mut axes = vec![];
        for i in (0..=t as usize).rev() {
            if !seen[i] {
                continue;
            }
            list.push(i as u32);
            match p.nodes[i] {
                Node::Var(a) => {
                    axes.push(i as u32);
                    sh.atoms_of[a as usize].push(j as u32);
                }
                Node::Neg(a) | Node::Sq(a) => seen[a as usize] = true,
                Node::Add(a, b) | Node::Mul(a, b) => {
                    seen[a as usize] = true;
                    seen[b as usize] = true;
                }
                Node::Const(_) => {}
            }
        }
        list.reverse();
        sh.under.push(list);
        sh.axes_of.push(axes);
    }
    let mut space = vec![];
    for (_, lo, hi) in &p.reals {
        if below(*hi, *lo) {
            return (Answer::Unsat, Count { boxes: 1, ..Default::default() });
        }
        space.push(Iv { lo: N::frac_dn(lo.n, lo.d), hi: N::frac_up(hi.n, hi.d) });
    }
    let root = State { space, bools: vec![2; p.bools.len()], lits: vec![0; p.atoms.len()] };
    let shared = Mutex::new(Shared { q: VecDeque::from([root]), busy: 0, waiting: 0 });
    let cv = Condvar::new();
    let branches = AtomicU64::new(0);
    let stop = AtomicBool::new(false);
    let late = AtomicBool::new(false);
    let found: Mutex<Option<(Vec<N>, Vec<bool>)>> = Mutex::new(None);
    let total = Mutex::new(Count::default());
    let start = cpu();
    let body = || {
        let mut w = Worker::new(p, o, &sh, &consts);
        let mut boxes = 0u64;
        loop {
            let st = {
                let mut g = shared.lock().unwrap();
                loop {
                    if stop.load(Ordering::Relaxed) {
                        break None;
                    }
                    let x = if o.dfs { g.q.pop_back() } else { g.q.pop_front() };
                    if let Some(s) = x {
                        g.busy += 1;
                        break Some(s);
                    }
                    if g.busy == 0 {
                        cv.notify_all();
                        break None;
                    }
                    g.waiting += 1;
                    g = cv.wait(g).unwrap();
                    g.waiting -= 1;
                }
            };
            let Some(st) = st else { break };
            boxes += 1;
            if boxes & 63 == 0 && (cpu() - start) / o.workers.max(1) as f64 > o.seconds {
                late.store(true, Ordering::Relaxed);
                stop.store(true, Ordering::Relaxed);
            }
            let end = w.work(st);
            let mut g = shared.lock().unwrap();
            g.busy -= 1;
            match end {
                End::Closed => {}
                End::Point(a, b) => {
                    *found.lock().unwrap() = Some((a, b));
                    stop.store(true, Ordering::Relaxed);
                }
                End::Stuck => w.count.stuck += 1,
                End::Two(a, b) => {
                    if branches.fetch_add(1, Ordering::Relaxed) < o.budget {
                        w.count.branches += 1;
                        if o.dfs {
                            g.q.push_back(b);
                            g.q.push_back(a);
                        } else {
                            g.q.push_back(a);
                            g.q.push_back(b);
                        }
                    } else {
                        w.count.open += 1;
                    }
                }
            }
            let wake = g.waiting > 0;
            drop(g);
            if wake {
                cv.notify_all();
            }
        }
        cv.notify_all();
        let mut t = total.lock().unwrap();
        t.boxes += w.count.boxes;
        t.branches += w.count.branches;
        t.pulls += w.count.pulls;
        t.fwd += w.count.fwd;
        t.bwd += w.count.bwd;
        t.open += w.count.open;
        t.stuck += w.count.stuck;
    };
    if o.workers <= 1 {
        body();
    } else {
        std::thread::scope(|s| {
            for _ in 0..o.workers {
                s.spawn(body);
            }
        });
    }
    let c = *total.lock().unwrap();
    if let Some((a, b)) = found.into_inner().unwrap() {
        return (Answer::Point(a, b), c);
    }
    if late.load(Ordering::Relaxed) {
        return (Answer::Time, c);
    }
    if c.open > 0 {
        return (Answer::Budget, c);
    }
    if c.stuck > 0 {
        return (Answer::Width, c);
    }
    (Answer::Unsat, c)
}

fn below(a: Frac, b: Frac) -> bool {
    match (a.n.checked_mul(b.d), b.n.checked_mul(a.d)) {
        (Some(x), Some(y)) => x < y,
        _ => (a.n as f64 / a.d as f64) < (b.n as f64 / b.d as f64),
    }
}
