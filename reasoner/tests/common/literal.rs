//! The specification once more, as literally and as slowly as it can be said: Table 1 by rewriting one
//! rule at a time, every combination listed, Algorithm 1 on each. It shares no code with the
//! library.
#![allow(clippy::manual_is_multiple_of, clippy::manual_range_contains, clippy::needless_range_loop)]

use reasoner::{Checked, Comparison, Filling, Possibility, Reading, Verdict};

/// A vocabulary record: kind, a, b.
pub type Axiom = (u32, u32, u32);

/// A vocabulary.
#[derive(Clone, Debug)]
pub struct Kb {
    pub n: u32,
    pub r: u32,
    pub f: u32,
    pub axioms: Vec<Axiom>,
    /// below[a][b]: a is at or below b.
    pub below: Vec<Vec<bool>>,
}

impl Kb {
    pub fn is_functional_role(&self, role: u32) -> bool {
        !self.axioms.contains(&(6, role, 0))
    }

    pub fn is_functional_feature(&self, feature: u32) -> bool {
        !self.axioms.contains(&(7, feature, 0))
    }

    /// The same names and statements, but every role and feature many-valued.
    pub fn many_valued(&self) -> Self {
        let mut kb = self.clone();
        kb.axioms.retain(|&(kind, ..)| kind != 3 && kind != 4);
        kb.axioms.extend((1..=kb.r).map(|role| (6, role, 0)));
        kb.axioms.extend((1..=kb.f).map(|feature| (7, feature, 0)));
        kb
    }
}

/// A conjunct.
#[derive(Clone, Debug, PartialEq)]
pub enum C {
    Name(u32),
    Bot,
    Some(u32, Vec<C>),
    In(u32, u32, u32),
}

pub type Simple = Vec<C>;

fn record(words: &[u32], width: usize, k: u32) -> Vec<u32> {
    words[width * k as usize..][..width].to_vec()
}

fn good_link(own: u32, link: u32, last: u32) -> bool {
    link == 0 || (own < link && link <= last)
}

pub fn read_kb(v: &[u32]) -> Result<Kb, u32> {
    if v.len() % 4 != 0 || v.len() < 4 || v.len() > 4100 {
        return Err(1);
    }
    let last = v.len() as u32 / 4 - 1;
    let (n, r, f, mut at) = (v[0], v[1], v[2], v[3]);
    if n < 1 || n > 256 || r > 64 || f > 64 || at > last {
        return Err(2);
    }
    let mut axioms = vec![];
    while at != 0 {
        let [kind, a, b, next] = record(v, 4, at)[..] else { panic!() };
        let of = |x: u32, count: u32| x >= 1 && x <= count;
        let names = (kind == 1 && of(a, n) && of(b, n))
            || (kind == 2 && of(a, n) && of(b, n))
            || (kind == 3 && of(a, r) && b == 0)
            || (kind == 4 && of(a, f) && b == 0)
            || (kind == 5 && of(a, r) && of(b, n))
            || (kind == 6 && of(a, r) && b == 0)
            || (kind == 7 && of(a, f) && b == 0);
        if !names || !good_link(at, next, last) {
            return Err(3);
        }
        axioms.push((kind, a, b));
        at = next;
    }
    for number in 1..=64 {
        for (one, many) in [(3, 6), (4, 7)] {
            if axioms.contains(&(one, number, 0)) && axioms.contains(&(many, number, 0)) {
                return Err(44);
            }
        }
    }
    let size = n as usize + 1;
    let mut below = vec![vec![false; size]; size];
    for (a, row) in below.iter_mut().enumerate() {
        row[a] = true;
    }
    for &(kind, a, b) in &axioms {
        if kind == 1 {
            below[a as usize][b as usize] = true;
        }
    }
    for k in 1..size {
        for a in 1..size {
            if below[a][k] {
                for b in 1..size {
                    if below[k][b] {
                        below[a][b] = true;
                    }
                }
            }
        }
    }
    Ok(Kb { n, r, f, axioms, below })
}

struct Reader<'a> {
    kb: &'a Kb,
    words: &'a [u32],
    last: u32,
    seen: Vec<u32>,
    base: u32,
}

pub fn read_simple_policies(kb: &Kb, words: &[u32], base: u32) -> Result<Vec<Simple>, u32> {
    if words.len() % 6 != 0 || words.len() < 6 || words.len() > 3078 {
        return Err(base);
    }
    let last = words.len() as u32 / 6 - 1;
    if words[0] > last || words[1..6] != [0; 5] {
        return Err(base + 1);
    }
    let mut reader = Reader { kb, words, last, seen: vec![], base };
    let mut policies = vec![];
    reader.terms(words[0], &mut policies)?;
    Ok(policies)
}

impl Reader<'_> {
    fn fields(&mut self, at: u32) -> Result<Vec<u32>, u32> {
        if self.seen.contains(&at) {
            return Err(self.base + 3);
        }
        self.seen.push(at);
        Ok(record(self.words, 6, at))
    }

    fn terms(&mut self, at: u32, policies: &mut Vec<Simple>) -> Result<(), u32> {
        if at == 0 {
            return Ok(());
        }
        let [kind, a, lo, hi, child, next] = self.fields(at)?[..] else { panic!() };
        let links = good_link(at, child, self.last) && good_link(at, next, self.last);
        if kind != 5 || a != 0 || lo != 0 || hi != 0 || !links {
            return Err(self.base + 2);
        }
        let mut simple = vec![];
        self.conjuncts(child, 1, &mut simple)?;
        policies.push(simple);
        self.terms(next, policies)
    }

    fn conjuncts(&mut self, at: u32, depth: u32, simple: &mut Simple) -> Result<(), u32> {
        if at == 0 {
            return Ok(());
        }
        let [kind, a, lo, hi, child, next] = self.fields(at)?[..] else { panic!() };
        let of = |count: u32| a >= 1 && a <= count;
        let form = match kind {
            1 => of(self.kb.n) && lo == 0 && hi == 0 && child == 0,
            2 => a == 0 && lo == 0 && hi == 0 && child == 0,
            3 => of(self.kb.r) && lo == 0 && hi == 0,
            4 => of(self.kb.f) && child == 0,
            _ => false,
        };
        if !form || !good_link(at, child, self.last) || !good_link(at, next, self.last) {
            return Err(self.base + 2);
        }
        if depth == 17 {
            return Err(self.base + 4);
        }
        let mut inner = vec![];
        self.conjuncts(child, depth + 1, &mut inner)?;
        simple.push(match kind {
            1 => C::Name(a),
            2 => C::Bot,
            3 => C::Some(a, inner),
            _ => C::In(a, lo, hi),
        });
        self.conjuncts(next, depth, simple)
    }
}

/// One step of Table 1, somewhere in the concept; none if no rule applies.
fn step(kb: &Kb, d: &Simple) -> Option<Simple> {
    let bottom = Some(vec![C::Bot]);
    // 1
    if d.contains(&C::Bot) && d.len() > 1 {
        return bottom;
    }
    for (i, conjunct) in d.iter().enumerate() {
        match conjunct {
            // 2 and 3
            C::Some(_, inner) if *inner == [C::Bot] => {
                let mut new = d.clone();
                new[i] = C::Bot;
                return Some(new);
            }
            C::In(_, l, u) if l > u => {
                let mut new = d.clone();
                new[i] = C::Bot;
                return Some(new);
            }
            _ => {}
        }
        for (j, other) in d.iter().enumerate().skip(i + 1) {
            match (conjunct, other) {
                // 4
                (C::Some(r1, d1), C::Some(r2, d2)) if r1 == r2 && kb.is_functional_role(*r1) => {
                    let mut new = d.clone();
                    let mut merged = d1.clone();
                    merged.extend(d2.clone());
                    new[i] = C::Some(*r1, merged);
                    new.remove(j);
                    return Some(new);
                }
                // 5
                (C::In(f1, l1, u1), C::In(f2, l2, u2))
                    if f1 == f2 && kb.is_functional_feature(*f1) =>
                {
                    let mut new = d.clone();
                    new[i] = C::In(*f1, *l1.max(l2), *u1.min(u2));
                    new.remove(j);
                    return Some(new);
                }
                _ => {}
            }
        }
        // 6
        if let C::Some(role, inner) = conjunct {
            for &(kind, a, b) in &kb.axioms {
                if kind == 5 && a == *role && !inner.contains(&C::Name(b)) && *inner != [C::Bot] {
                    let mut new = d.clone();
                    let mut more = inner.clone();
                    more.push(C::Name(b));
                    new[i] = C::Some(*role, more);
                    return Some(new);
                }
            }
        }
        // 7, also with one class twice
        for other in &d[i..] {
            if let (C::Name(a1), C::Name(a2)) = (conjunct, other) {
                for &(kind, b1, b2) in &kb.axioms {
                    let at = |a: &u32, b: u32| kb.below[*a as usize][b as usize];
                    let clash = || (at(a1, b1) && at(a2, b2)) || (at(a1, b2) && at(a2, b1));
                    if kind == 2 && clash() {
                        return bottom;
                    }
                }
            }
        }
        if let C::Some(role, inner) = conjunct {
            if let Some(stepped) = step(kb, inner) {
                let mut new = d.clone();
                new[i] = C::Some(*role, stepped);
                return Some(new);
            }
        }
    }
    None
}

pub fn normal_form(kb: &Kb, d: &Simple) -> Option<Simple> {
    let mut d = d.clone();
    while let Some(next) = step(kb, &d) {
        d = next;
    }
    (d != [C::Bot]).then_some(d)
}

/// Ends of constraints on f anywhere.
fn ends(policy: &[C], feature: u32, found: &mut Vec<u32>) {
    for conjunct in policy {
        match conjunct {
            C::In(f, l, u) if *f == feature => found.extend([*l, *u]),
            C::Some(_, inner) => ends(inner, feature, found),
            _ => {}
        }
    }
}

fn pieces(feature: u32, lo: u32, hi: u32, right: &[Simple]) -> Vec<(u32, u32)> {
    let mut x = vec![lo, hi];
    for simple in right {
        ends(simple, feature, &mut x);
    }
    x.retain(|&end| lo <= end && end <= hi);
    x.sort();
    x.dedup();
    let mut all = vec![];
    for (i, &point) in x.iter().enumerate() {
        all.push((point, point));
        if let Some(&next) = x.get(i + 1) {
            if next - point >= 2 {
                all.push((point + 1, next - 1));
            }
        }
    }
    all
}

/// The constraints of a normal form by individual, then by place.
fn constraints(d: &Simple) -> Vec<(u32, u32, u32)> {
    let mut all = vec![];
    for conjunct in d {
        if let C::In(f, l, u) = conjunct {
            all.push((*f, *l, *u));
        }
    }
    for conjunct in d {
        if let C::Some(_, inner) = conjunct {
            all.extend(constraints(inner));
        }
    }
    all
}

/// The normal form with these pieces in place of its constraints.
fn with_pieces(d: &Simple, chosen: &mut std::slice::Iter<'_, (u32, u32)>) -> Simple {
    let mut new = d.clone();
    for conjunct in new.iter_mut() {
        if let C::In(_, l, u) = conjunct {
            (*l, *u) = *chosen.next().unwrap();
        }
    }
    for conjunct in new.iter_mut() {
        if let C::Some(_, inner) = conjunct {
            *inner = with_pieces(inner, chosen);
        }
    }
    new
}

/// Algorithm 1, with D an intersection.
fn sts(kb: &Kb, c: &Simple, d: &Simple) -> bool {
    d.iter().all(|one| {
        c.iter().any(|conjunct| match (one, conjunct) {
            (C::Name(a), C::Name(a1)) => kb.below[*a1 as usize][*a as usize],
            (C::In(f, l, u), C::In(f1, l1, u1)) => f == f1 && l <= l1 && u1 <= u,
            (C::Some(r, d1), C::Some(r1, c1)) => r == r1 && sts(kb, c1, d1),
            _ => false,
        })
    })
}

/// The facts of the canonical model, and the number of individuals.
fn canonical(kb: &Kb, d: &Simple, own: u32, facts: &mut Vec<[u32; 4]>) -> u32 {
    for class in 1..=kb.n {
        let inside =
            |conjunct: &C| matches!(conjunct, C::Name(a) if kb.below[*a as usize][class as usize]);
        if d.iter().any(inside) {
            facts.push([1, class, own, 0]);
        }
    }
    let mut values = vec![];
    for conjunct in d {
        if let C::In(f, _, u) = conjunct {
            values.push([3, *f, own, *u]);
        }
    }
    values.sort();
    values.dedup();
    facts.extend(values);
    let mut below = vec![];
    let mut next = own + 1;
    for conjunct in d {
        if let C::Some(role, inner) = conjunct {
            facts.push([2, *role, own, next]);
            next = canonical(kb, inner, next, &mut below);
        }
    }
    facts.extend(below);
    next
}

fn model_words(kb: &Kb, d: &Simple) -> Vec<u32> {
    let mut facts = vec![];
    let individuals = canonical(kb, d, 1, &mut facts) - 1;
    let count = facts.len() as u32;
    let mut words = vec![if count == 0 { 0 } else { 1 }, individuals, 0, 0, 0];
    for (i, fact) in facts.iter().enumerate() {
        words.extend(fact);
        words.push((i as u32 + 2) % (count + 1));
    }
    words
}

/// The combinations of a term.
fn combinations(d: &Simple, right: &[Simple]) -> Vec<Vec<(u32, u32)>> {
    let mut all: Vec<Vec<(u32, u32)>> = vec![vec![]];
    for (f, l, u) in constraints(d) {
        let list = pieces(f, l, u, right);
        all = all
            .into_iter()
            .flat_map(|prefix| {
                list.iter().map(move |&piece| {
                    let mut longer = prefix.clone();
                    longer.push(piece);
                    longer
                })
            })
            .collect();
    }
    all
}

/// How many combinations a term has; 2 to the 60th stands for more.
fn count_combinations(d: &Simple, right: &[Simple]) -> u128 {
    constraints(d).iter().fold(1, |product, &(f, l, u)| {
        (product * pieces(f, l, u, right).len() as u128).min(1 << 60)
    })
}

/// What is counted of a possible term of the left.
pub struct Line {
    pub combinations: u128,
    /// The terms of the right against which it passes whole.
    pub takers: Vec<usize>,
}

/// A direction: a line for each term of the left, none for an impossible one.
pub type Lines = Vec<Option<Line>>;

pub fn lines(kb: &Kb, left: &[Simple], right: &[Simple]) -> Lines {
    let line = |simple| {
        let d = normal_form(kb, simple)?;
        let takers = (0..right.len()).filter(|&at| sts(kb, &d, &right[at])).collect();
        Some(Line { combinations: count_combinations(&d, right), takers })
    };
    left.iter().map(line).collect()
}

/// Does the short way succeed?
pub fn is_short(lines: &Lines) -> bool {
    lines.iter().flatten().all(|line| !line.takers.is_empty())
}

/// Has a term over 65,536 combinations?
pub fn has_too_many(lines: &Lines) -> bool {
    most_combinations(lines) > 65_536
}

/// The most combinations of a term.
pub fn most_combinations(lines: &Lines) -> u128 {
    lines.iter().flatten().map(|line| line.combinations).max().unwrap_or(0)
}

/// As the specification says, or by trying the combinations alone.
#[derive(Clone, Copy, Debug, PartialEq)]
pub enum Way {
    Short,
    Split,
}

/// How many combinations of a term there are to try, at most; for choosing cases.
pub fn work_of(way: Way, v: &[u32], p: &[u32], q: &[u32]) -> u128 {
    let Ok((kb, left, right)) = read_three(v, p, q) else { return 0 };
    let of = |left: &[Simple], right: &[Simple]| {
        let lines = lines(&kb, left, right);
        let none = has_too_many(&lines) || (way == Way::Short && is_short(&lines));
        if none {
            0
        } else {
            most_combinations(&lines)
        }
    };
    of(&left, &right).max(of(&right, &left))
}

type Failure = (u32, u32, Vec<u32>);

/// The terms of a direction that are to be tried: each normal form with its combinations.
type Listed = Vec<Option<(Simple, Vec<Vec<(u32, u32)>>)>>;

fn list(way: Way, kb: &Kb, left: &[Simple], right: &[Simple]) -> Result<Listed, u32> {
    let lines = lines(kb, left, right);
    if way == Way::Short && is_short(&lines) {
        return Ok(vec![]);
    }
    if has_too_many(&lines) {
        return Err(22);
    }
    let listed = |d: Simple| {
        let all = combinations(&d, right);
        (d, all)
    };
    Ok(left.iter().map(|simple| normal_form(kb, simple).map(listed)).collect())
}

fn first_failure(kb: &Kb, listed: &Listed, right: &[Simple]) -> Option<Failure> {
    for (s, term) in listed.iter().enumerate() {
        let Some((d, all)) = term else { continue };
        for (q, combination) in all.iter().enumerate() {
            let exact = with_pieces(d, &mut combination.iter());
            if !right.iter().any(|simple| sts(kb, &exact, simple)) {
                return Some((s as u32 + 1, q as u32 + 1, model_words(kb, &exact)));
            }
        }
    }
    None
}

pub fn read_three(v: &[u32], p: &[u32], q: &[u32]) -> Result<(Kb, Vec<Simple>, Vec<Simple>), u32> {
    let kb = read_kb(v)?;
    let left = read_simple_policies(&kb, p, 4)?;
    let right = read_simple_policies(&kb, q, 14)?;
    Ok((kb, left, right))
}

fn lend(work: &mut [u32]) -> Result<(), u32> {
    if work.len() < 16_384 {
        return Err(21);
    }
    work[..16_384].fill(0);
    Ok(())
}

fn write(out: &mut [u32], words: &[u32]) -> Result<u32, u32> {
    if out.len() < words.len() {
        return Err(23);
    }
    out[..words.len()].copy_from_slice(words);
    Ok(words.len() as u32)
}

pub fn read_vocabulary(v: &[u32]) -> Reading {
    read_kb(v).map_or_else(Reading::Refused, |_| Reading::Accepted)
}

pub fn read_policy(v: &[u32], p: &[u32], base: u32) -> Reading {
    read_kb(v)
        .and_then(|kb| read_simple_policies(&kb, p, base))
        .map_or_else(Reading::Refused, |_| Reading::Accepted)
}

pub fn possible(v: &[u32], p: &[u32], work: &mut [u32]) -> Possibility {
    let read = read_kb(v).and_then(|kb| {
        let left = read_simple_policies(&kb, p, 4)?;
        lend(work)?;
        Ok(left.iter().position(|simple| normal_form(&kb, simple).is_some()))
    });
    match read {
        Err(number) => Possibility::Refused(number),
        Ok(None) => Possibility::Impossible,
        Ok(Some(at)) => Possibility::Possible(at as u32 + 1),
    }
}

pub fn compliance(
    way: Way,
    v: &[u32],
    p: &[u32],
    q: &[u32],
    work: &mut [u32],
    out: &mut [u32],
) -> Verdict {
    let decided = read_three(v, p, q).and_then(|(kb, left, right)| {
        lend(work)?;
        let listed = list(way, &kb, &left, &right)?;
        match first_failure(&kb, &listed, &right) {
            None => Ok(Verdict::Compliant),
            Some((s, q, words)) => Ok(Verdict::Outside(s, q, write(out, &words)?)),
        }
    });
    decided.unwrap_or_else(Verdict::Refused)
}

pub fn equality(
    way: Way,
    v: &[u32],
    p: &[u32],
    q: &[u32],
    work: &mut [u32],
    out: &mut [u32],
) -> Comparison {
    let decided = read_three(v, p, q).and_then(|(kb, left, right)| {
        lend(work)?;
        let forth = list(way, &kb, &left, &right)?;
        let back = list(way, &kb, &right, &left)?;
        if let Some((s, q, words)) = first_failure(&kb, &forth, &right) {
            return Ok(Comparison::Differs(1, s, q, write(out, &words)?));
        }
        if let Some((s, q, words)) = first_failure(&kb, &back, &left) {
            return Ok(Comparison::Differs(2, s, q, write(out, &words)?));
        }
        Ok(Comparison::Equal)
    });
    decided.unwrap_or_else(Comparison::Refused)
}

pub fn model_check(v: &[u32], p: &[u32], q: &[u32], m: &[u32], work: &mut [u32]) -> Checked {
    let decided = read_three(v, p, q).and_then(|(kb, left, right)| {
        let model = super::meaning::Interpretation::read(&kb, m)?;
        lend(work)?;
        Ok(model.satisfies(&kb) && model.is_in(1, &left) && !model.is_in(1, &right))
    });
    match decided {
        Err(number) => Checked::Refused(number),
        Ok(true) => Checked::Yes,
        Ok(false) => Checked::No,
    }
}

/// A record of a policy with its depth in place of its links.
type Row = [u32; 5];

/// The records of a chain at this depth, in the order of the walk.
pub fn rows(chain: &Simple, depth: u32) -> Vec<Row> {
    let mut all = vec![];
    for conjunct in chain {
        match conjunct {
            C::Name(a) => all.push([1, *a, 0, 0, depth]),
            C::Bot => all.push([2, 0, 0, 0, depth]),
            C::In(f, lo, hi) => all.push([4, *f, *lo, *hi, depth]),
            C::Some(role, inner) => {
                all.push([3, *role, 0, 0, depth]);
                all.extend(rows(inner, depth + 1));
            }
        }
    }
    all
}

/// Does the first list come before the second?
fn is_before(first: &[Row], second: &[Row]) -> bool {
    for at in 0..first.len() {
        if at == second.len() {
            return false;
        }
        for field in 0..5 {
            if first[at][field] != second[at][field] {
                return first[at][field] < second[at][field];
            }
        }
    }
    first.len() < second.len()
}

/// Takes the first of the chains again and again, and all that are equal to it.
fn in_order(mut chains: Vec<Simple>) -> Vec<Simple> {
    let mut all = vec![];
    while !chains.is_empty() {
        let mut first = 0;
        for at in 0..chains.len() {
            if is_before(&rows(&chains[at], 1), &rows(&chains[first], 1)) {
                first = at;
            }
        }
        let first = chains[first].clone();
        chains.retain(|chain| *chain != first);
        all.push(first);
    }
    all
}

/// A chain of a normal form with its inner repeats dropped, then its own, and in order.
fn spelled(chain: &Simple) -> Simple {
    let (mut classes, mut spans, mut roles) = (vec![], vec![], vec![]);
    for conjunct in chain {
        match conjunct {
            C::Name(_) => classes.push(vec![conjunct.clone()]),
            C::Bot => panic!("a normal form has none"),
            C::In(..) => spans.push(vec![conjunct.clone()]),
            C::Some(role, inner) => roles.push(vec![C::Some(*role, spelled(inner))]),
        }
    }
    [in_order(classes), in_order(spans), in_order(roles)].concat().concat()
}

/// Writes a chain from this record on, and what stands behind it; gives the number of the first
/// record that is free.
fn put_chain(words: &mut Vec<u32>, chain: &Simple, first: u32) -> u32 {
    let mut own = first;
    for (at, conjunct) in chain.iter().enumerate() {
        let [kind, a, lo, hi, _] = rows(&vec![conjunct.clone()], 1)[0];
        let start = words.len();
        words.extend([kind, a, lo, hi, 0, 0]);
        let mut free = own + 1;
        if let C::Some(_, inner) = conjunct {
            if !inner.is_empty() {
                words[start + 4] = free;
            }
            free = put_chain(words, inner, free);
        }
        if at + 1 < chain.len() {
            words[start + 5] = free;
        }
        own = free;
    }
    own
}

/// The terms of the one spelling of a policy.
pub fn spelling(kb: &Kb, policy: &[Simple]) -> Vec<Simple> {
    let possible = policy.iter().filter_map(|simple| normal_form(kb, simple));
    in_order(possible.map(|d| spelled(&d)).collect())
}

pub fn spell(v: &[u32], p: &[u32], work: &mut [u32], out: &mut [u32]) -> Filling {
    let decided = read_kb(v).and_then(|kb| {
        let policy = read_simple_policies(&kb, p, 4)?;
        lend(work)?;
        let terms = spelling(&kb, &policy);
        let records = terms.len() + terms.iter().map(|term| rows(term, 1).len()).sum::<usize>();
        let deep = terms.iter().any(|term| rows(term, 1).iter().any(|row| row[4] == 17));
        if records > 512 || deep {
            return Err(43);
        }
        let mut words = vec![0; 6];
        for (at, term) in terms.iter().enumerate() {
            let own = words.len() as u32 / 6;
            if at == 0 {
                words[0] = own;
            }
            let start = words.len();
            words.extend([5, 0, 0, 0, if term.is_empty() { 0 } else { own + 1 }, 0]);
            let free = put_chain(&mut words, term, own + 1);
            if at + 1 < terms.len() {
                words[start + 5] = free;
            }
        }
        write(out, &words)
    });
    decided.map_or_else(Filling::Refused, Filling::Written)
}

/// The program, with the bytes turned to words first.
pub fn program(bytes: &[u8]) -> String {
    let words: Vec<u32> = bytes
        .chunks_exact(4)
        .map(|four| four.iter().rev().fold(0, |word, &byte| word * 256 + u32::from(byte)))
        .collect();
    let mut parts = vec![];
    let mut at = 0;
    while parts.len() < 3 && at < words.len() {
        let end = at as u64 + 1 + u64::from(words[at]);
        if end > words.len() as u64 {
            break;
        }
        parts.push(words[at + 1..end as usize].to_vec());
        at = end as usize;
    }
    if bytes.len() > 65_536 || bytes.len() % 4 != 0 || parts.len() < 3 || at != words.len() {
        return "refused 40\n".to_owned();
    }
    let mut out = vec![0; 16_384];
    let mut work = vec![0; 16_384];
    match compliance(Way::Short, &parts[0], &parts[1], &parts[2], &mut work, &mut out) {
        Verdict::Compliant => "compliant\n".to_owned(),
        Verdict::Refused(number) => format!("refused {number}\n"),
        Verdict::Outside(s, q, length) => {
            let mut text = format!("outside {s} {q}\n");
            for fact in out[5..length as usize].chunks(5) {
                text += &match fact[0] {
                    1 => format!("member {} {}\n", fact[1], fact[2]),
                    2 => format!("edge {} {} {}\n", fact[1], fact[2], fact[3]),
                    _ => format!("value {} {} {}\n", fact[1], fact[2], fact[3]),
                };
            }
            text
        }
    }
}
