//! Reader of the scripts: s-expressions, commands, unfolding to the shared graph, atoms and form.
//! It follows docs/FORMATS.md; faults are plain texts without numbers.
use std::collections::HashMap;

#[derive(Clone, Copy, Debug, PartialEq, Eq, Hash)]
pub struct Frac {
    pub n: i128,
    pub d: i128,
}

fn gcd(mut a: u128, mut b: u128) -> u128 {
    while b != 0 {
        let t = a % b;
        a = b;
        b = t;
    }
    a
}

impl Frac {
    fn new(n: i128, d: i128) -> Frac {
        let g = gcd(n.unsigned_abs(), d.unsigned_abs()) as i128;
        let s = if d < 0 { -1 } else { 1 };
        Frac { n: s * n / g, d: s * d / g }
    }
    fn int(n: i128) -> Frac {
        Frac { n, d: 1 }
    }
    fn add(self, o: Frac) -> Option<Frac> {
        let n = self.n.checked_mul(o.d)?.checked_add(o.n.checked_mul(self.d)?)?;
        Some(Frac::new(n, self.d.checked_mul(o.d)?))
    }
    fn mul(self, o: Frac) -> Option<Frac> {
        Some(Frac::new(self.n.checked_mul(o.n)?, self.d.checked_mul(o.d)?))
    }
    fn neg(self) -> Frac {
        Frac { n: -self.n, d: self.d }
    }
    fn less(self, o: Frac) -> bool {
        // bounds are small; a comparison that overflows is by f64
        match (self.n.checked_mul(o.d), o.n.checked_mul(self.d)) {
            (Some(a), Some(b)) => a < b,
            _ => (self.n as f64 / self.d as f64) < (o.n as f64 / o.d as f64),
        }
    }
}

#[derive(Clone, Copy, PartialEq, Eq, Hash, Debug)]
pub enum Node {
    Const(Frac),
    Var(u32),
    Neg(u32),
    Add(u32, u32),
    Mul(u32, u32),
    Sq(u32),
}

#[derive(Clone, Copy, PartialEq, Eq, Hash, Debug)]
pub enum Kind {
    Le,
    Ge,
    Eq,
}

#[derive(Clone, Debug, PartialEq, Eq, Hash)]
pub enum Form {
    True,
    False,
    Atom(u32),
    Bool(u32, bool),
    And(Vec<u32>),
    Or(Vec<u32>),
}

#[derive(Default)]
pub struct Problem {
    pub nodes: Vec<Node>,
    pub atoms: Vec<(u32, Kind)>,
    pub forms: Vec<Form>,
    pub root: u32,
    pub reals: Vec<(String, Frac, Frac)>,
    pub bools: Vec<String>,
    /// printed order: (is_real, index)
    pub order: Vec<(bool, u32)>,
}

enum Sx {
    Sym(String),
    Num(Frac),
    Str,
    Key,
    List(Vec<Sx>),
}

type R<T> = Result<T, String>;

fn lex(b: &[u8]) -> R<Vec<Sx>> {
    let mut stack: Vec<Vec<Sx>> = vec![vec![]];
    let mut i = 0;
    let sym = |c: u8| c.is_ascii_alphanumeric() || b"~!@$%^&*_-+=<>.?/".contains(&c);
    while i < b.len() {
        let c = b[i];
        match c {
            b' ' | b'\t' | b'\n' | b'\r' => i += 1,
            b';' => {
                while i < b.len() && b[i] != b'\n' && b[i] != b'\r' {
                    i += 1;
                }
            }
            b'(' => {
                stack.push(vec![]);
                i += 1;
            }
            b')' => {
                i += 1;
                if stack.len() < 2 {
                    return Err("unbalanced".into());
                }
                let l = stack.pop().unwrap();
                let done = stack.len() == 1 && matches!(l.first(), Some(Sx::Sym(s)) if s == "exit");
                stack.last_mut().unwrap().push(Sx::List(l));
                if done {
                    break;
                }
            }
            b'"' => {
                i += 1;
                loop {
                    if i >= b.len() {
                        return Err("open string".into());
                    }
                    if b[i] == b'"' {
                        if i + 1 < b.len() && b[i + 1] == b'"' {
                            i += 2;
                            continue;
                        }
                        i += 1;
                        break;
                    }
                    i += 1;
                }
                stack.last_mut().unwrap().push(Sx::Str);
            }
            b'|' => {
                let s = i + 1;
                i += 1;
                while i < b.len() && b[i] != b'|' {
                    i += 1;
                }
                if i >= b.len() {
                    return Err("open symbol".into());
                }
                let t = String::from_utf8_lossy(&b[s..i]).into_owned();
                i += 1;
                stack.last_mut().unwrap().push(Sx::Sym(t));
            }
            b':' => {
                i += 1;
                while i < b.len() && sym(b[i]) {
                    i += 1;
                }
                stack.last_mut().unwrap().push(Sx::Key);
            }
            b'0'..=b'9' => {
                let s = i;
                while i < b.len() && (b[i].is_ascii_digit() || b[i] == b'.') {
                    i += 1;
                }
                let t = std::str::from_utf8(&b[s..i]).unwrap();
                let (whole, part) = t.split_once('.').unwrap_or((t, ""));
                let n: i128 = format!("{whole}{part}").parse().map_err(|_| format!("number {t}"))?;
                let d = 10i128.checked_pow(part.len() as u32).ok_or(format!("number {t}"))?;
                stack.last_mut().unwrap().push(Sx::Num(Frac::new(n, d)));
            }
            _ if sym(c) => {
                let s = i;
                while i < b.len() && sym(b[i]) {
                    i += 1;
                }
                let t = String::from_utf8_lossy(&b[s..i]).into_owned();
                stack.last_mut().unwrap().push(Sx::Sym(t));
            }
            _ => return Err(format!("bad byte {c}")),
        }
    }
    if stack.len() != 1 {
        return Err("unbalanced".into());
    }
    Ok(stack.pop().unwrap())
}

#[derive(Clone)]
enum Val {
    Real(u32),
    /// a Bool: forms of its truth and of its negation
    Bool(u32, u32),
}

struct Macro<'a> {
    params: Vec<String>,
    body: &'a Sx,
}

struct Builder<'a> {
    p: Problem,
    node_ids: HashMap<Node, u32>,
    form_ids: HashMap<Form, u32>,
    atom_ids: HashMap<(u32, Kind), u32>,
    top: HashMap<String, Val>,
    macros: HashMap<String, Macro<'a>>,
    lows: Vec<Option<Frac>>,
    highs: Vec<Option<Frac>>,
    size: u64,
}

impl<'a> Builder<'a> {
    fn node(&mut self, n: Node) -> u32 {
        if let Some(&i) = self.node_ids.get(&n) {
            return i;
        }
        let i = self.p.nodes.len() as u32;
        self.p.nodes.push(n);
        self.node_ids.insert(n, i);
        i
    }
    fn form(&mut self, f: Form) -> u32 {
        if let Some(&i) = self.form_ids.get(&f) {
            return i;
        }
        let i = self.p.forms.len() as u32;
        self.p.forms.push(f.clone());
        self.form_ids.insert(f, i);
        i
    }
    fn and(&mut self, v: Vec<u32>) -> u32 {
        self.form(Form::And(v))
    }
    fn or(&mut self, v: Vec<u32>) -> u32 {
        self.form(Form::Or(v))
    }
    fn constant(&self, n: u32) -> Option<Frac> {
        if let Node::Const(f) = self.p.nodes[n as usize] { Some(f) } else { None }
    }
    fn neg(&mut self, a: u32) -> u32 {
        match self.constant(a) {
            Some(f) => self.node(Node::Const(f.neg())),
            None => self.node(Node::Neg(a)),
        }
    }
    fn add(&mut self, a: u32, b: u32) -> R<u32> {
        if let (Some(x), Some(y)) = (self.constant(a), self.constant(b)) {
            let f = x.add(y).ok_or("number too wide")?;
            return Ok(self.node(Node::Const(f)));
        }
        Ok(self.node(Node::Add(a, b)))
    }
    fn mul(&mut self, a: u32, b: u32) -> R<u32> {
        if let (Some(x), Some(y)) = (self.constant(a), self.constant(b)) {
            let f = x.mul(y).ok_or("number too wide")?;
            return Ok(self.node(Node::Const(f)));
        }
        if a == b {
            return Ok(self.node(Node::Sq(a)));
        }
        Ok(self.node(Node::Mul(a, b)))
    }
    fn term_of(&mut self, a: u32, b: u32) -> R<u32> {
        if self.constant(b) == Some(Frac::int(0)) {
            return Ok(a);
        }
        let nb = self.neg(b);
        self.add(a, nb)
    }
    fn atom(&mut self, t: u32, k: Kind) -> u32 {
        let i = match self.atom_ids.get(&(t, k)) {
            Some(&i) => i,
            None => {
                let i = self.p.atoms.len() as u32;
                self.p.atoms.push((t, k));
                self.atom_ids.insert((t, k), i);
                i
            }
        };
        self.form(Form::Atom(i))
    }
    fn xor(&mut self, a: (u32, u32), b: (u32, u32)) -> (u32, u32) {
        let x = self.and(vec![a.0, b.1]);
        let y = self.and(vec![a.1, b.0]);
        let p = self.or(vec![x, y]);
        let x = self.and(vec![a.0, b.0]);
        let y = self.and(vec![a.1, b.1]);
        let n = self.or(vec![x, y]);
        (p, n)
    }
    fn real(&mut self, s: &'a Sx, env: &mut Vec<(String, Val)>) -> R<u32> {
        match self.eval(s, env)? {
            Val::Real(n) => Ok(n),
            _ => Err("sort".into()),
        }
    }
    fn bool(&mut self, s: &'a Sx, env: &mut Vec<(String, Val)>) -> R<(u32, u32)> {
        match self.eval(s, env)? {
            Val::Bool(p, n) => Ok((p, n)),
            _ => Err("sort".into()),
        }
    }
    fn eval(&mut self, s: &'a Sx, env: &mut Vec<(String, Val)>) -> R<Val> {
        self.size += 1;
        if self.size > 1 << 20 {
            return Err("too large".into());
        }
        let l = match s {
            Sx::Num(f) => return Ok(Val::Real(self.node(Node::Const(*f)))),
            Sx::Sym(n) => {
                if let Some((_, v)) = env.iter().rev().find(|(k, _)| k == n) {
                    return Ok(v.clone());
                }
                if n == "true" || n == "false" {
                    let t = self.form(Form::True);
                    let f = self.form(Form::False);
                    return Ok(if n == "true" { Val::Bool(t, f) } else { Val::Bool(f, t) });
                }
                if let Some(v) = self.top.get(n) {
                    return Ok(v.clone());
                }
                if self.macros.contains_key(n) {
                    let body = self.macros[n].body;
                    return self.eval(body, &mut vec![]);
                }
                return Err(format!("unknown {n}"));
            }
            Sx::List(l) => l,
            _ => return Err("term".into()),
        };
        let h = match l.first() {
            Some(Sx::Sym(h)) => h.as_str(),
            _ => return Err("head".into()),
        };
        let a = &l[1..];
        match h {
            "!" => self.eval(&a[0], env),
            "let" => {
                let mut new = vec![];
                if let Sx::List(bs) = &a[0] {
                    for b in bs {
                        if let Sx::List(b) = b {
                            if let Sx::Sym(n) = &b[0] {
                                new.push((n.clone(), self.eval(&b[1], env)?));
                            }
                        }
                    }
                }
                let k = env.len();
                env.extend(new);
                let r = self.eval(&a[1], env);
                env.truncate(k);
                r
            }
            "+" | "*" => {
                let mut r = self.real(&a[0], env)?;
                for x in &a[1..] {
                    let y = self.real(x, env)?;
                    r = if h == "+" { self.add(r, y)? } else { self.mul(r, y)? };
                }
                Ok(Val::Real(r))
            }
            "-" => {
                let r = self.real(&a[0], env)?;
                if a.len() == 1 {
                    return Ok(Val::Real(self.neg(r)));
                }
                let mut r = r;
                for x in &a[1..] {
                    let y = self.real(x, env)?;
                    let y = self.neg(y);
                    r = self.add(r, y)?;
                }
                Ok(Val::Real(r))
            }
            "/" => {
                let mut r = self.real(&a[0], env)?;
                for x in &a[1..] {
                    let y = self.real(x, env)?;
                    let f = self.constant(y).ok_or("divisor not constant")?;
                    if f.n == 0 {
                        return Err("zero divisor".into());
                    }
                    let inv = self.node(Node::Const(Frac::new(f.d, f.n)));
                    r = self.mul(r, inv)?;
                }
                Ok(Val::Real(r))
            }
            "not" => {
                let (p, n) = self.bool(&a[0], env)?;
                Ok(Val::Bool(n, p))
            }
            "and" | "or" => {
                let mut ps = vec![];
                let mut ns = vec![];
                for x in a {
                    let (p, n) = self.bool(x, env)?;
                    ps.push(p);
                    ns.push(n);
                }
                Ok(if h == "and" {
                    Val::Bool(self.and(ps), self.or(ns))
                } else {
                    Val::Bool(self.or(ps), self.and(ns))
                })
            }
            "=>" => {
                let mut v = vec![];
                for x in a {
                    v.push(self.bool(x, env)?);
                }
                let mut r = v.pop().unwrap();
                while let Some(x) = v.pop() {
                    r = (self.or(vec![x.1, r.0]), self.and(vec![x.0, r.1]));
                }
                Ok(Val::Bool(r.0, r.1))
            }
            "xor" => {
                let mut r = self.bool(&a[0], env)?;
                for x in &a[1..] {
                    let y = self.bool(x, env)?;
                    r = self.xor(r, y);
                }
                Ok(Val::Bool(r.0, r.1))
            }
            "ite" => {
                let c = self.bool(&a[0], env)?;
                let x = self.bool(&a[1], env)?;
                let y = self.bool(&a[2], env)?;
                let u = self.and(vec![c.0, x.0]);
                let v = self.and(vec![c.1, y.0]);
                let p = self.or(vec![u, v]);
                let u = self.and(vec![c.0, x.1]);
                let v = self.and(vec![c.1, y.1]);
                let n = self.or(vec![u, v]);
                Ok(Val::Bool(p, n))
            }
            "<=" | "<" | ">=" | ">" | "=" | "distinct" => {
                let mut vals = vec![];
                for x in a {
                    vals.push(self.eval(x, env)?);
                }
                let mut ps = vec![];
                let mut ns = vec![];
                let pairs: Vec<(usize, usize)> = if h == "distinct" {
                    (0..vals.len()).flat_map(|i| (i + 1..vals.len()).map(move |j| (i, j))).collect()
                } else {
                    (1..vals.len()).map(|i| (i - 1, i)).collect()
                };
                for (i, j) in pairs {
                    match (vals[i].clone(), vals[j].clone()) {
                        (Val::Real(x), Val::Real(y)) => {
                            let t = self.term_of(x, y)?;
                            let tt = self.form(Form::True);
                            let (p, n) = match h {
                                "<=" | "<" => (self.atom(t, Kind::Le), self.atom(t, Kind::Ge)),
                                ">=" | ">" => (self.atom(t, Kind::Ge), self.atom(t, Kind::Le)),
                                "=" => (self.atom(t, Kind::Eq), tt),
                                _ => (tt, self.atom(t, Kind::Eq)),
                            };
                            ps.push(p);
                            ns.push(n);
                        }
                        (Val::Bool(a, b), Val::Bool(c, d)) => {
                            let (p, n) = self.xor((a, b), (c, d));
                            if h == "=" {
                                ps.push(n);
                                ns.push(p);
                            } else {
                                ps.push(p);
                                ns.push(n);
                            }
                        }
                        _ => return Err("sort".into()),
                    }
                }
                if ps.len() == 1 {
                    return Ok(Val::Bool(ps[0], ns[0]));
                }
                Ok(Val::Bool(self.and(ps), self.or(ns)))
            }
            _ => {
                if !self.macros.contains_key(h) {
                    return Err(format!("unknown {h}"));
                }
                let mut inner = vec![];
                for (i, x) in a.iter().enumerate() {
                    let v = self.eval(x, env)?;
                    inner.push((self.macros[h].params[i].clone(), v));
                }
                let body = self.macros[h].body;
                self.eval(body, &mut inner)
            }
        }
    }
    fn bounds(&mut self, s: &'a Sx) -> R<()> {
        let Sx::List(l) = s else { return Ok(()) };
        let Some(Sx::Sym(h)) = l.first() else { return Ok(()) };
        match h.as_str() {
            "!" => self.bounds(&l[1]),
            "and" => {
                for x in &l[1..] {
                    self.bounds(x)?;
                }
                Ok(())
            }
            "<=" | "<" | ">=" | ">" | "=" => {
                let mut prev: Option<(Option<u32>, Option<Frac>)> = None;
                for x in &l[1..] {
                    let v = match self.eval(x, &mut vec![]) {
                        Ok(Val::Real(n)) => match self.p.nodes[n as usize] {
                            Node::Var(i) => (Some(i), None),
                            Node::Const(f) => (None, Some(f)),
                            _ => (None, None),
                        },
                        _ => (None, None),
                    };
                    if let Some(u) = prev {
                        let (mut le, mut ge) = (h.starts_with('<'), h.starts_with('>'));
                        if h == "=" {
                            le = true;
                            ge = true;
                        }
                        match (u, v) {
                            ((Some(i), _), (_, Some(f))) => self.bound(i, f, le, ge),
                            ((_, Some(f)), (Some(i), _)) => self.bound(i, f, ge, le),
                            _ => {}
                        }
                    }
                    prev = Some(v);
                }
                Ok(())
            }
            _ => Ok(()),
        }
    }
    fn bound(&mut self, i: u32, f: Frac, upper: bool, lower: bool) {
        let i = i as usize;
        if upper && self.highs[i].is_none_or(|g| f.less(g)) {
            self.highs[i] = Some(f);
        }
        if lower && self.lows[i].is_none_or(|g| g.less(f)) {
            self.lows[i] = Some(f);
        }
    }
}

pub fn problem(text: &[u8], bound: Option<i128>) -> R<Problem> {
    let xs = lex(text)?;
    let mut b = Builder {
        p: Problem::default(),
        node_ids: HashMap::new(),
        form_ids: HashMap::new(),
        atom_ids: HashMap::new(),
        top: HashMap::new(),
        macros: HashMap::new(),
        lows: vec![],
        highs: vec![],
        size: 0,
    };
    let mut conj = vec![];
    for x in &xs {
        let Sx::List(l) = x else { return Err("command".into()) };
        let Some(Sx::Sym(h)) = l.first() else { return Err("command".into()) };
        match h.as_str() {
            "set-logic" | "set-info" | "set-option" | "get-model" | "check-sat" => {}
            "exit" => break,
            "declare-fun" | "declare-const" => {
                let Sx::Sym(n) = &l[1] else { return Err("name".into()) };
                let Some(Sx::Sym(s)) = l.last() else { return Err("sort".into()) };
                let v = if s == "Real" {
                    let i = b.p.reals.len() as u32;
                    b.p.reals.push((n.clone(), Frac::int(0), Frac::int(0)));
                    b.lows.push(None);
                    b.highs.push(None);
                    b.p.order.push((true, i));
                    Val::Real(b.node(Node::Var(i)))
                } else {
                    let i = b.p.bools.len() as u32;
                    b.p.bools.push(n.clone());
                    b.p.order.push((false, i));
                    let p = b.form(Form::Bool(i, true));
                    let q = b.form(Form::Bool(i, false));
                    Val::Bool(p, q)
                };
                b.top.insert(n.clone(), v);
            }
            "define-fun" => {
                let Sx::Sym(n) = &l[1] else { return Err("name".into()) };
                let Sx::List(ps) = &l[2] else { return Err("parameters".into()) };
                let mut params = vec![];
                for p in ps {
                    if let Sx::List(p) = p {
                        if let Sx::Sym(s) = &p[0] {
                            params.push(s.clone());
                        }
                    }
                }
                b.macros.insert(n.clone(), Macro { params, body: &l[4] });
            }
            "assert" => {
                let (p, _) = b.bool(&l[1], &mut vec![])?;
                conj.push(p);
                b.bounds(&l[1])?;
            }
            _ => return Err(format!("command {h}")),
        }
    }
    b.p.root = b.form(Form::And(conj));
    for i in 0..b.p.reals.len() {
        let lo = b.lows[i].or(bound.map(|n| Frac::int(-n))).ok_or(format!("no bound {}", b.p.reals[i].0))?;
        let hi = b.highs[i].or(bound.map(Frac::int)).ok_or(format!("no bound {}", b.p.reals[i].0))?;
        b.p.reals[i].1 = lo;
        b.p.reals[i].2 = hi;
    }
    Ok(b.p)
}

/// Keeps what the root reaches alone: forms, atoms, nodes, in their old order.
pub fn compact(p: Problem) -> Problem {
    let mut fs = vec![false; p.forms.len()];
    let mut at = vec![false; p.atoms.len()];
    let mut ns = vec![false; p.nodes.len()];
    let mut todo = vec![p.root];
    while let Some(f) = todo.pop() {
        if std::mem::replace(&mut fs[f as usize], true) {
            continue;
        }
        match &p.forms[f as usize] {
            Form::And(v) | Form::Or(v) => todo.extend(v),
            Form::Atom(a) => at[*a as usize] = true,
            _ => {}
        }
    }
    for (i, a) in p.atoms.iter().enumerate() {
        if at[i] {
            ns[a.0 as usize] = true;
        }
    }
    for i in (0..p.nodes.len()).rev() {
        if ns[i] {
            match p.nodes[i] {
                Node::Neg(a) | Node::Sq(a) => ns[a as usize] = true,
                Node::Add(a, b) | Node::Mul(a, b) => {
                    ns[a as usize] = true;
                    ns[b as usize] = true;
                }
                _ => {}
            }
        }
    }
    let mut q = Problem { reals: p.reals, bools: p.bools, order: p.order, ..Default::default() };
    let mut nm = vec![0u32; p.nodes.len()];
    for i in 0..p.nodes.len() {
        if ns[i] {
            nm[i] = q.nodes.len() as u32;
            let g = |a: u32| nm[a as usize];
            q.nodes.push(match p.nodes[i] {
                Node::Neg(a) => Node::Neg(g(a)),
                Node::Sq(a) => Node::Sq(g(a)),
                Node::Add(a, b) => Node::Add(g(a), g(b)),
                Node::Mul(a, b) => Node::Mul(g(a), g(b)),
                n => n,
            });
        }
    }
    let mut am = vec![0u32; p.atoms.len()];
    for i in 0..p.atoms.len() {
        if at[i] {
            am[i] = q.atoms.len() as u32;
            q.atoms.push((nm[p.atoms[i].0 as usize], p.atoms[i].1));
        }
    }
    let mut fm = vec![0u32; p.forms.len()];
    for i in 0..p.forms.len() {
        if fs[i] {
            fm[i] = q.forms.len() as u32;
            q.forms.push(match &p.forms[i] {
                Form::And(v) => Form::And(v.iter().map(|f| fm[*f as usize]).collect()),
                Form::Or(v) => Form::Or(v.iter().map(|f| fm[*f as usize]).collect()),
                Form::Atom(a) => Form::Atom(am[*a as usize]),
                f => f.clone(),
            });
        }
    }
    q.root = fm[p.root as usize];
    q
}
