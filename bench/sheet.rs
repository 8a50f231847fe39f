//! A sheet and its calls in plain Rust, written from docs/rules.md. Sums and products that the rules bound are not tested.

use crate::engine::{LIMIT, Rows, Table, Value, eliminate, gcd};

#[derive(Clone, Copy, PartialEq)]
pub enum Role {
    Held,
    Pulled,
    Loose(i64),
}

pub struct Sheet<V> {
    pub d: i64,
    pub values: Vec<V>,
    pub relations: Vec<[i64; 48]>,
    pub constants: Vec<V>,
}

pub struct Workings {
    table: Table,
    roles: Vec<Role>,
    shares: [i64; 48],
    pub spares: Vec<usize>,
}

fn counts(row: &[i64; 48], roles: &[Role]) -> bool {
    row.iter().zip(roles).any(|(c, role)| *c != 0 && *role != Role::Held)
}

impl<V: Value> Sheet<V> {
    pub fn open(count: usize) -> Result<Self, u8> {
        if count < 1 || count > 48 {
            return Err(2);
        }
        Ok(Sheet { d: 1, values: vec![V::zero(); count], relations: Vec::new(), constants: Vec::new() })
    }

    /// Whether a number of the sheet breaks a limit.
    fn unfit(&self) -> bool {
        let n = self.values.len();
        self.d < 1
            || self.d > 45_000
            || self.values.iter().any(|v| v.above(47_560 * self.d))
            || self.relations.iter().any(|row| row[..n].iter().any(|c| c.abs() > 1_000))
            || self.constants.iter().any(|q| q.above(47_560_000))
    }

    pub fn bind(&mut self, coefficients: &[i64], q: V) -> Result<(), u8> {
        let n = self.values.len();
        if coefficients.len() < n || self.unfit() {
            return Err(1);
        }
        let coefficients = &coefficients[..n];
        if self.relations.len() >= 24 {
            return Err(3);
        }
        if coefficients.iter().all(|c| *c == 0) || coefficients.iter().any(|c| c.unsigned_abs() > 1_000) {
            return Err(4);
        }
        if q.above(47_560_000) {
            return Err(5);
        }
        let mut gap = V::zero().plus_scaled_fitting(-self.d, q);
        for (c, v) in coefficients.iter().zip(&self.values) {
            gap = gap.plus_scaled_fitting(*c, *v);
        }
        if gap.above(0) {
            return Err(6);
        }
        let mut row = [0; 48];
        row[..n].copy_from_slice(coefficients);
        self.relations.push(row);
        self.constants.push(q);
        Ok(())
    }

    pub fn unbind(&mut self, number: i64) -> Result<(), u8> {
        if self.unfit() {
            return Err(1);
        }
        if number < 0 || number >= self.relations.len() as i64 {
            return Err(7);
        }
        self.relations.remove(number as usize);
        self.constants.remove(number as usize);
        Ok(())
    }

    pub fn grip(&self, roles: &[Role]) -> Result<Workings, u8> {
        let n = self.values.len();
        if roles.len() < n || self.unfit() {
            return Err(1);
        }
        let roles = roles[..n].to_vec();
        let loose = roles.iter().filter(|role| matches!(role, Role::Loose(_))).count();
        let bad = |role: &Role| matches!(role, Role::Loose(w) if ![1, 2, 3, 4, 6, 12].contains(w));
        if !roles.contains(&Role::Pulled) || roles.iter().any(bad) || loose > 24 {
            return Err(8);
        }
        let mut rows: Rows = [[0; 48]; 12];
        let mut numbers = Vec::new();
        for (i, row) in self.relations.iter().enumerate() {
            if counts(row, &roles) {
                if numbers.len() == 12 {
                    return Err(9);
                }
                rows[numbers.len()] = *row;
                numbers.push(i);
            }
        }
        let mut shares = [0; 48];
        for (share, role) in shares.iter_mut().zip(&roles) {
            if let Role::Loose(w) = role {
                *share = 12 / w;
            }
        }
        let table = eliminate(n, numbers.len(), &shares, &rows)?;
        let spares = (0..numbers.len()).filter(|i| table.rows[*i][*i] == 0).map(|i| numbers[i]).collect();
        Ok(Workings { table, roles, shares, spares })
    }

    /// The denominator of the proposal, whose numerators are then in its list.
    pub fn pull(&self, workings: &Workings, wishes: &[V], proposal: &mut [V]) -> Result<i64, u8> {
        let n = self.values.len();
        if wishes.len() < n || proposal.len() < n || self.unfit() || workings.roles.len() != n {
            return Err(1);
        }
        let answer = self.placed(workings, &wishes[..n], &mut proposal[..n]);
        if answer.is_err() {
            proposal[..n].fill(V::zero());
        }
        answer
    }

    fn placed(&self, workings: &Workings, wishes: &[V], proposal: &mut [V]) -> Result<i64, u8> {
        let d = self.d;
        let roles = &workings.roles[..];
        if roles.iter().zip(wishes).any(|(role, wish)| *role != Role::Held && wish.above(47_560)) {
            return Err(11);
        }
        let mut rows: [&[i64; 48]; 12] = [&[0; 48]; 12];
        let mut residuals = [V::zero(); 12];
        let mut m = 0;
        for (row, q) in self.relations.iter().zip(&self.constants) {
            if !counts(row, roles) {
                continue;
            }
            let mut c = V::zero().plus_scaled_fitting(d, *q);
            for (s, role) in roles.iter().enumerate() {
                c = match role {
                    Role::Held => c.plus_scaled_fitting(-row[s], self.values[s]),
                    _ => c.plus_scaled_fitting(-d * row[s], wishes[s]),
                };
            }
            if c.above(300_000_000) {
                return Err(12);
            }
            rows[m] = row;
            residuals[m] = c;
            m += 1;
        }
        let mut carried = [V::zero(); 12];
        let mut diagonal = [0; 12];
        for i in 0..m {
            let row = &workings.table.rows[i];
            let mut g = V::zero();
            for (t, c) in row[m..2 * m].iter().zip(&residuals) {
                g = g.plus_scaled_fitting(*t, *c);
            }
            if row[i] == 0 && g.above(0) {
                return Err(13);
            }
            carried[i] = g;
            diagonal[i] = row[i];
        }
        let mut l = 1;
        for (p, g) in diagonal[..m].iter_mut().zip(&mut carried) {
            if *p == 0 {
                continue;
            }
            let divisor = g.gcd_with(*p as u64) as i64;
            if divisor > 1 {
                *p /= divisor;
                *g = g.divided(divisor);
            }
            l = l / gcd(l as u64, *p as u64) as i64 * *p;
            if l > LIMIT {
                return Err(14);
            }
        }
        for (p, g) in diagonal[..m].iter().zip(&mut carried) {
            if *p == 0 {
                continue;
            }
            if g.above(LIMIT) {
                return Err(14);
            }
            *g = V::zero().plus_scaled_fitting(l / p, *g);
            if g.above(1_000_000_000_000) {
                return Err(14);
            }
        }
        let e = l * d;
        for (s, role) in roles.iter().enumerate() {
            proposal[s] = match role {
                Role::Held => V::zero().plus_scaled_fitting(l, self.values[s]),
                Role::Pulled => V::zero().plus_scaled_fitting(e, wishes[s]),
                Role::Loose(_) => {
                    let mut shift = V::zero();
                    for i in 0..m {
                        if diagonal[i] != 0 {
                            shift = shift.plus_scaled_fitting(rows[i][s], carried[i]);
                        }
                    }
                    V::zero().plus_scaled_fitting(e, wishes[s]).plus_scaled_fitting(workings.shares[s], shift)
                }
            };
        }
        let g = proposal.iter().fold(e as u64, |g, v| v.gcd_with(g)) as i64;
        let lowest = e / g;
        if lowest > 45_000 {
            return Err(14);
        }
        for v in proposal.iter_mut() {
            *v = v.divided(g);
        }
        if proposal.iter().any(|v| v.above(47_560 * lowest)) {
            return Err(15);
        }
        Ok(lowest)
    }

    pub fn keep(&mut self, proposal: &[V], d: i64) -> Result<(), u8> {
        if self.unfit() || proposal.iter().any(|v| v.above(47_560 * d)) {
            return Err(1);
        }
        let n = self.values.len();
        self.values.copy_from_slice(&proposal[..n]);
        self.d = d;
        Ok(())
    }
}

/// Opens, binds and grips a sheet once, and then pulls to one list of wishes after the other.
pub fn pull_all<V: Value>(
    count: usize,
    coefficients: &[i64],
    codes: &[i64],
    wishes: &[i64],
    answers: &mut [i64],
    out: &mut [i64],
) -> Result<(), u8> {
    let mut sheet = Sheet::<V>::open(count)?;
    for row in coefficients.chunks_exact(48) {
        sheet.bind(row, V::zero())?;
    }
    let roles: Vec<Role> = codes
        .iter()
        .map(|code| match code {
            0 => Role::Pulled,
            w if *w > 0 => Role::Loose(*w),
            _ => Role::Held,
        })
        .collect();
    let workings = sheet.grip(&roles)?;
    let step = 48 * V::SIZE;
    let mut wanted = [V::zero(); 48];
    let mut proposal = [V::zero(); 48];
    for ((from, answer), to) in wishes.chunks_exact(step).zip(answers).zip(out.chunks_exact_mut(step)) {
        for (v, xs) in wanted.iter_mut().zip(from.chunks_exact(V::SIZE)) {
            for (k, x) in xs.iter().enumerate() {
                v.set(k, *x);
            }
        }
        *answer = match sheet.pull(&workings, &wanted, &mut proposal) {
            Ok(d) => d,
            Err(number) => -(number as i64),
        };
        for (v, xs) in proposal.iter().zip(to.chunks_exact_mut(V::SIZE)) {
            for (k, x) in xs.iter_mut().enumerate() {
                *x = v.get(k);
            }
        }
    }
    Ok(())
}
