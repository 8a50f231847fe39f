//! The same calls in plain Rust, written from docs/rules.md.

pub const LIMIT: i64 = 2_147_483_647;

#[derive(Clone, Copy, PartialEq, Debug)]
#[repr(C)]
pub struct Pair {
    pub x: i64,
    pub y: i64,
}

/// A kind of value.
pub trait Value: Copy {
    const SIZE: usize;
    fn zero() -> Self;
    fn get(&self, k: usize) -> i64;
    fn set(&mut self, k: usize, x: i64);

    fn plus_scaled(self, k: i64, v: Self) -> Option<Self>;

    /// The same where it is known to fit.
    fn plus_scaled_fitting(self, k: i64, v: Self) -> Self;

    fn above(&self, most: i64) -> bool {
        (0..Self::SIZE).any(|k| self.get(k).abs() > most)
    }

    fn divided(self, g: i64) -> Self {
        let mut quotient = self;
        for k in 0..Self::SIZE {
            quotient.set(k, self.get(k) / g);
        }
        quotient
    }

    fn gcd_with(&self, g: u64) -> u64 {
        (0..Self::SIZE).fold(g, |g, k| gcd(g, self.get(k).unsigned_abs()))
    }
}

#[derive(Clone, Copy, PartialEq, Debug)]
pub struct Length {
    pub x: i64,
}

#[derive(Clone, Copy, PartialEq, Debug)]
pub struct Point {
    pub x: i64,
    pub y: i64,
}

fn fused(u: i64, k: i64, v: i64) -> Option<i64> {
    u.checked_add(k.checked_mul(v)?)
}

impl Value for Length {
    const SIZE: usize = 1;

    fn zero() -> Self {
        Length { x: 0 }
    }

    fn get(&self, _: usize) -> i64 {
        self.x
    }

    fn set(&mut self, _: usize, x: i64) {
        self.x = x;
    }

    fn plus_scaled(self, k: i64, v: Self) -> Option<Self> {
        Some(Length { x: fused(self.x, k, v.x)? })
    }

    fn plus_scaled_fitting(self, k: i64, v: Self) -> Self {
        Length { x: self.x + k * v.x }
    }
}

impl Value for Point {
    const SIZE: usize = 2;

    fn zero() -> Self {
        Point { x: 0, y: 0 }
    }

    fn get(&self, k: usize) -> i64 {
        if k == 0 { self.x } else { self.y }
    }

    fn set(&mut self, k: usize, x: i64) {
        if k == 0 { self.x = x } else { self.y = x }
    }

    fn plus_scaled(self, k: i64, v: Self) -> Option<Self> {
        Some(Point { x: fused(self.x, k, v.x)?, y: fused(self.y, k, v.y)? })
    }

    fn plus_scaled_fitting(self, k: i64, v: Self) -> Self {
        Point { x: self.x + k * v.x, y: self.y + k * v.y }
    }
}

fn point(p: Pair) -> Point {
    Point { x: p.x, y: p.y }
}

/// Writes each u + k × v that fits to its place, and tells whether all fit.
#[inline(never)]
pub fn plus_scaled(us: &[Pair], ks: &[i64], vs: &[Pair], out: &mut [Pair]) -> bool {
    let mut fit = true;
    for (((u, k), v), o) in us.iter().zip(ks).zip(vs).zip(out) {
        match point(*u).plus_scaled(*k, point(*v)) {
            Some(w) => *o = Pair { x: w.x, y: w.y },
            None => fit = false,
        }
    }
    fit
}

/// The running sum of k × v from zero, which stays as it was where a step does not fit.
#[inline(never)]
pub fn sum_scaled(ks: &[i64], vs: &[Pair]) -> Pair {
    let mut sum = Point::zero();
    for (k, v) in ks.iter().zip(vs) {
        if let Some(next) = sum.plus_scaled(*k, point(*v)) {
            sum = next;
        }
    }
    Pair { x: sum.x, y: sum.y }
}

pub fn gcd(mut a: u64, mut b: u64) -> u64 {
    while b != 0 {
        (a, b) = (b, a % b);
    }
    a
}

pub type Rows = [[i64; 48]; 12];

#[derive(Clone, Copy, PartialEq, Debug)]
pub struct Table {
    pub rows: [[i64; 24]; 12],
}

fn start(n: usize, m: usize, shares: &[i64; 48], rows: &Rows) -> Table {
    let mut table = Table { rows: [[0; 24]; 12] };
    for i in 0..m {
        for j in 0..m {
            table.rows[i][j] = shares[..n]
                .iter()
                .zip(&rows[i])
                .zip(&rows[j])
                .map(|((v, x), y)| v * (x * y))
                .sum();
        }
        table.rows[i][m + i] = 1;
    }
    table
}

/// The finished table of m relations with n parameters, or the number of the refusal.
#[inline(never)]
pub fn eliminate(n: usize, m: usize, shares: &[i64; 48], rows: &Rows) -> Result<Table, u8> {
    if n > 48
        || m > 12
        || shares[..n].iter().any(|v| v.unsigned_abs() > 12)
        || rows[..m].iter().any(|row| row[..n].iter().any(|x| x.unsigned_abs() > 1000))
    {
        return Err(1);
    }
    let mut table = start(n, m, shares, rows);
    for k in 0..m {
        let pivot = table.rows[k];
        let p = pivot[k];
        if p == 0 {
            continue;
        }
        for (i, row) in table.rows[..m].iter_mut().enumerate() {
            let q = row[k];
            if i == k || q == 0 {
                continue;
            }
            let row = &mut row[..2 * m];
            for (x, y) in row.iter_mut().zip(&pivot) {
                *x = p * *x - q * y;
            }
            let g = row.iter().fold(0, |g, x| gcd(g, x.unsigned_abs()));
            if g > 1 {
                for x in row.iter_mut() {
                    *x /= g as i64;
                }
            }
            if row.iter().any(|x| x.unsigned_abs() > LIMIT as u64) {
                return Err(10);
            }
        }
    }
    Ok(table)
}

/// The last number of the finished table, or 0 less the number of the refusal.
pub fn last_number(n: usize, m: usize, shares: &[i64; 48], rows: &Rows) -> i64 {
    match eliminate(n, m, shares, rows) {
        Ok(table) => table.rows[m - 1][2 * m - 1],
        Err(number) => -(number as i64),
    }
}
