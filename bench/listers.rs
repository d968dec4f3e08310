// Plain listers: recursion by the rules for candidates (01). They do not pause, count no moves and check no value; nothing in them is slowed or
// tuned. There are three, for honesty: with arrays on the stack, to which R-14's ratio is; with vectors, as a first draft has them; and with the
// unpicked gauges as a bit set, as somebody who counts instructions has them. Each gives its ladders to `out`, in the order of the run.

// ---- arrays on the stack
pub struct Arrays<F: FnMut(&[u64; 64])> {
    pub rows: [u64; 64],
    pub n: usize,
    pub picked: [bool; 64],
    pub chain: [u64; 64],
    pub out: F,
}

impl<F: FnMut(&[u64; 64])> Arrays<F> {
    // Gauge g is a candidate: something is left of its row, no unpicked gauge has strictly more left, no lower one has the same.
    fn is_candidate(&self, g: usize, left: u64) -> bool {
        let own = self.rows[g] & left;
        if self.picked[g] || own == 0 {
            return false;
        }
        for h in 0..self.n {
            if h == g || self.picked[h] {
                continue;
            }
            let other = self.rows[h] & left;
            if own & !other == 0 && (own != other || h < g) {
                return false;
            }
        }
        true
    }

    pub fn list(&mut self, left: u64) {
        let mut any = false;
        for g in 0..self.n {
            if self.is_candidate(g, left) {
                any = true;
                let own = self.rows[g] & left;
                self.picked[g] = true;
                self.chain[g] = own;
                self.list(own);
                self.picked[g] = false;
                self.chain[g] = 0;
            }
        }
        if !any {
            (self.out)(&self.chain);
        }
    }
}

// ---- vectors: what is unpicked, what is a candidate and the chain are made anew at each step
pub fn list_vectors(rows: &[u64], unpicked: Vec<usize>, left: u64, chain: Vec<u64>, out: &mut impl FnMut(&[u64; 64])) {
    let blocks = |g: usize, h: usize| {
        let (own, other) = (rows[g] & left, rows[h] & left);
        h != g && own & !other == 0 && (own != other || h < g)
    };
    let candidates: Vec<usize> =
        unpicked.iter().copied().filter(|&g| rows[g] & left != 0 && !unpicked.iter().any(|&h| blocks(g, h))).collect();
    if candidates.is_empty() {
        out(chain.as_slice().try_into().expect("64 rows"));
        return;
    }
    for g in candidates {
        let rest = unpicked.iter().copied().filter(|&h| h != g).collect();
        let mut longer = chain.clone();
        longer[g] = rows[g] & left;
        list_vectors(rows, rest, rows[g] & left, longer, out);
    }
}

// ---- a bit set of the unpicked gauges
pub struct Bits<F: FnMut(&[u64; 64])> {
    pub rows: [u64; 64],
    pub chain: [u64; 64],
    pub out: F,
}

impl<F: FnMut(&[u64; 64])> Bits<F> {
    fn is_candidate(&self, g: usize, unpicked: u64, left: u64) -> bool {
        let own = self.rows[g] & left;
        if own == 0 {
            return false;
        }
        let mut rest = unpicked & !(1 << g);
        while rest != 0 {
            let h = rest.trailing_zeros() as usize;
            rest &= rest - 1;
            let other = self.rows[h] & left;
            if own & !other == 0 && (own != other || h < g) {
                return false;
            }
        }
        true
    }

    pub fn list(&mut self, unpicked: u64, left: u64) {
        let mut any = false;
        let mut rest = unpicked;
        while rest != 0 {
            let g = rest.trailing_zeros() as usize;
            rest &= rest - 1;
            if self.is_candidate(g, unpicked, left) {
                any = true;
                let own = self.rows[g] & left;
                self.chain[g] = own;
                self.list(unpicked & !(1 << g), own);
                self.chain[g] = 0;
            }
        }
        if !any {
            (self.out)(&self.chain);
        }
    }
}

// Rows by cases from rows by gauges, or the other way.
pub fn exchanged(rows: &[u64; 64], from: usize, to: usize) -> [u64; 64] {
    let mut turned = [0u64; 64];
    for i in 0..from {
        for k in 0..to {
            if rows[i] >> k & 1 == 1 {
                turned[k] |= 1 << i;
            }
        }
    }
    turned
}
