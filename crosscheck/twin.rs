// A second implementation of script, trees and panel, written from the rules and not from the proved code.
use std::io::Read;
type Slip = (u64, u8);
type Slot = Option<Slip>;
struct Rec {
    round: u16,
    sender: u8,
    lost: u8,
    forged: u8,
    start: usize,
}
struct Script {
    n: usize,
    t: usize,
    bad: u8,
    phases: u8,
    props: Vec<u64>,
    recs: Vec<Rec>,
    slips: Vec<Slip>,
    kind: u8,
}
struct Fault(u8, usize, &'static str);
fn label(b: &[u8], p: usize, kind: u8) -> Result<(u64, usize), Fault> {
    let w = if kind == 1 { 4 } else { 8 };
    if b.len() < p + w {
        return Err(Fault(13, p, "label"));
    }
    let mut v = 0u64;
    for i in 0..w {
        v = v * 256 + b[p + i] as u64;
    }
    if kind == 2 && (v & 0xffff_ffff) >= 100_000_000 {
        return Err(Fault(16, p, "label"));
    }
    Ok((v, p + w))
}
fn byte(b: &[u8], p: usize, r: &'static str) -> Result<u8, Fault> {
    if p < b.len() {
        Ok(b[p])
    } else {
        Err(Fault(13, p, r))
    }
}
fn read(b: &[u8], kind: u8) -> Result<Script, Fault> {
    if b.len() > 60000 {
        return Err(Fault(12, 60000, "script"));
    }
    if byte(b, 0, "script")? != 1 {
        return Err(Fault(14, 0, "script"));
    }
    let n = byte(b, 1, "script")? as usize;
    if n == 0 || n > 7 {
        return Err(Fault(14, 1, "script"));
    }
    if byte(b, 2, "script")? != kind {
        return Err(Fault(14, 2, "script"));
    }
    let m = byte(b, 3, "script")?;
    if m > 7 {
        return Err(Fault(14, 3, "script"));
    }
    let (mut p, mut t, mut bad, mut phases) = (4, (n - 1) / 3, 0u8, 8u8);
    if m & 1 != 0 {
        let v = byte(b, p, "script")? as usize;
        if 3 * v >= n {
            return Err(Fault(14, p, "script"));
        }
        if v == t {
            return Err(Fault(15, p, "script"));
        }
        t = v;
        p += 1;
    }
    if m & 2 != 0 {
        let v = byte(b, p, "script")?;
        if (v as u32) >> n != 0 {
            return Err(Fault(14, p, "script"));
        }
        if v == 0 {
            return Err(Fault(15, p, "script"));
        }
        bad = v;
        p += 1;
    }
    if m & 4 != 0 {
        let v = byte(b, p, "script")?;
        if v == 0 || v > 8 {
            return Err(Fault(14, p, "script"));
        }
        if v == 8 {
            return Err(Fault(15, p, "script"));
        }
        phases = v;
        p += 1;
    }
    let mut props = vec![];
    for _ in 0..n {
        let (l, q) = label(b, p, kind)?;
        props.push(l);
        p = q;
    }
    let (mut recs, mut slips, mut last) = (vec![], vec![], (0u16, 0u8));
    while p < b.len() {
        if b.len() < p + 2 {
            return Err(Fault(13, p, "record"));
        }
        let round = b[p] as u16 * 256 + b[p + 1] as u16;
        let sender = byte(b, p + 2, "record")?;
        if round == 0 || !(round > last.0 || (round == last.0 && sender > last.1)) {
            return Err(Fault(17, p, "record"));
        }
        if sender as usize >= n {
            return Err(Fault(18, p + 2, "record"));
        }
        let lost = byte(b, p + 3, "record")?;
        if (lost as u32) >> n != 0 {
            return Err(Fault(18, p + 3, "record"));
        }
        let forged = byte(b, p + 4, "record")?;
        if (forged as u32) >> n != 0 {
            return Err(Fault(18, p + 4, "record"));
        }
        if lost == 0 && forged == 0 {
            return Err(Fault(19, p + 4, "record"));
        }
        if lost & forged != 0 {
            return Err(Fault(20, p + 4, "record"));
        }
        if forged != 0 && bad >> sender & 1 == 0 {
            return Err(Fault(21, p + 4, "record"));
        }
        recs.push(Rec {
            round,
            sender,
            lost,
            forged,
            start: slips.len(),
        });
        p += 5;
        last = (round, sender);
        for _ in 0..forged.count_ones() {
            let f = byte(b, p, "record")?;
            let (l, q) = label(b, p + 1, kind)?;
            slips.push((l, f));
            p = q;
        }
    }
    Ok(Script {
        n,
        t,
        bad,
        phases,
        props,
        recs,
        slips,
        kind,
    })
}
struct Plane<'a> {
    s: &'a Script,
    round: u16,
    now: [Option<usize>; 8],
    at: usize,
}
impl<'a> Plane<'a> {
    fn turn(&mut self) {
        self.round += 1;
        self.now = [None; 8];
        while self.at < self.s.recs.len() && self.s.recs[self.at].round < self.round {
            self.at += 1;
        }
        let mut i = self.at;
        while i < self.s.recs.len() && self.s.recs[i].round == self.round {
            let q = self.s.recs[i].sender as usize;
            if self.now[q].is_none() {
                self.now[q] = Some(i);
            }
            i += 1;
        }
    }
    fn carry(&self, f: usize, d: usize, x: Slot) -> Slot {
        let Some(i) = self.now[f] else { return x };
        let r = &self.s.recs[i];
        if r.lost >> d & 1 != 0 {
            return None;
        }
        if r.forged >> d & 1 != 0 && self.s.bad >> f & 1 != 0 {
            return self
                .s
                .slips
                .get(r.start + (r.forged & ((1 << d) - 1)).count_ones() as usize)
                .copied();
        }
        x
    }
    fn plain(&mut self, sent: &[Slot], n: usize) -> Vec<Vec<Slot>> {
        self.turn();
        let mut h = vec![vec![None; n]; n];
        for q in 0..n {
            for p in 0..n {
                h[p][q] = self.carry(q, p, sent[q]);
            }
        }
        h
    }
    fn firm(&mut self, sent: &[Slot], n: usize, t: usize) -> Vec<Vec<Slot>> {
        // levels[k]: paths of k+1 boards in order; tree[p][k][i]
        let mut levels: Vec<Vec<Vec<usize>>> = vec![];
        let mut tree: Vec<Vec<Vec<Slot>>> = vec![vec![]; n];
        for r in 0..=t {
            self.turn();
            let prev: Vec<Vec<usize>> = if r == 0 {
                vec![vec![]]
            } else {
                levels[r - 1].clone()
            };
            let mut cur = vec![];
            for p in 0..n {
                tree[p].push(vec![]);
            }
            for (i, a) in prev.iter().enumerate() {
                for q in 0..n {
                    if a.contains(&q) {
                        continue;
                    }
                    let mut na = a.clone();
                    na.push(q);
                    cur.push(na);
                    for p in 0..n {
                        let x = if r == 0 { sent[q] } else { tree[q][r - 1][i] };
                        let y = self.carry(q, p, x);
                        tree[p][r].push(y);
                    }
                }
            }
            levels.push(cur);
        }
        for k in (1..=t).rev() {
            for p in 0..n {
                for i in 0..levels[k - 1].len() {
                    let c = n - k;
                    let kids: Vec<Slot> = tree[p][k][i * c..(i + 1) * c].to_vec();
                    let mut got = None;
                    for x in &kids {
                        if let Some(v) = x {
                            if kids.iter().filter(|y| **y == Some(*v)).count() >= n - k - t {
                                got = Some(*v);
                            }
                        }
                    }
                    tree[p][k - 1][i] = got;
                }
            }
        }
        (0..n).map(|p| tree[p][0].clone()).collect()
    }
}
fn run(s: &Script) -> Vec<Option<u64>> {
    let (n, t) = (s.n, s.t);
    let mut est: Vec<Slot> = s.props.iter().map(|l| Some((*l, 0))).collect();
    let mut picks = vec![vec![None; n]; 9];
    let mut ver: Vec<Slot> = vec![None; n];
    let mut b = Plane {
        s,
        round: 0,
        now: [None; 8],
        at: 0,
    };
    for f in 1..=s.phases {
        let claims = b.firm(&est, n, t);
        let mut heard = vec![vec![]];
        for g in 1..f as usize {
            heard.push(b.firm(&picks[g], n, t));
        }
        let mut mine = vec![None; n];
        for p in 0..n {
            let cl: Vec<Slip> = claims[p]
                .iter()
                .filter_map(|x| *x)
                .filter(|x| x.1 < f)
                .collect();
            let mut best: Option<Slip> = None;
            for &(v, c) in &cl {
                if c == 0 {
                    continue;
                }
                let back = cl.iter().filter(|r| r.0 == v || r.1 < c).count();
                let pk = heard[c as usize][p]
                    .iter()
                    .filter(|x| **x == Some((v, c)))
                    .count();
                if back >= n - t && pk >= t + 1 {
                    best = match best {
                        None => Some((v, c)),
                        Some((w, d)) => {
                            if c > d || (c == d && v < w) {
                                Some((v, c))
                            } else {
                                Some((w, d))
                            }
                        }
                    };
                }
            }
            let mut ch = best.map(|x| x.0);
            if ch.is_none() && cl.iter().filter(|r| r.1 == 0).count() >= n - t {
                let mut top: Option<(usize, u64)> = None;
                for &(v, _) in &cl {
                    let m = cl.iter().filter(|r| r.0 == v).count();
                    top = match top {
                        None => Some((m, v)),
                        Some((k, w)) => {
                            if m > k || (m == k && v < w) {
                                Some((m, v))
                            } else {
                                Some((k, w))
                            }
                        }
                    };
                }
                ch = top.map(|x| x.1);
            }
            mine[p] = ch.map(|v| (v, f));
        }
        picks[f as usize] = mine;
        let h = b.plain(&picks[f as usize].clone(), n);
        let enough = |row: &Vec<Slot>, k: usize| -> Slot {
            let mut best = None;
            for x in row {
                if let Some((v, c)) = x {
                    if *c == f && row.iter().filter(|y| **y == *x).count() >= k {
                        best = match best {
                            None => Some((*v, f)),
                            Some((w, _)) => Some((if *v < w { *v } else { w }, f)),
                        };
                    }
                }
            }
            best
        };
        for p in 0..n {
            if let Some(e) = enough(&h[p], n - t) {
                est[p] = Some(e);
            }
        }
        let h = b.plain(&est.clone(), n);
        for p in 0..n {
            if ver[p].is_none() {
                ver[p] = enough(&h[p], 2 * t + 1);
            }
        }
    }
    ver.iter().map(|x| x.map(|y| y.0)).collect()
}
fn main() {
    let mut b = vec![];
    std::io::stdin().read_to_end(&mut b).unwrap();
    let loops: usize = std::env::args()
        .nth(1)
        .and_then(|x| x.parse().ok())
        .unwrap_or(1);
    let kind = if b.len() > 2 && b[2] == 2 { 2 } else { 1 };
    let mut out = String::new();
    for _ in 0..loops {
        out.clear();
        match read(&b, kind) {
            Err(Fault(r, p, w)) => out += &format!("fault {r} at {p} in {w}\n"),
            Ok(s) => {
                let v = run(&s);
                out += &format!("phases {}\n", s.phases);
                for q in 0..s.n {
                    let st = if s.bad >> q & 1 != 0 { "bad" } else { "sound" };
                    let x = match v[q] {
                        None => "none".into(),
                        Some(l) => {
                            if s.kind == 1 {
                                format!("{l}")
                            } else {
                                format!("{}.{:08}", l >> 32, l & 0xffff_ffff)
                            }
                        }
                    };
                    out += &format!("board {q} {st} {x}\n");
                }
            }
        }
    }
    print!("{out}");
}
