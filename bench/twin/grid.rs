//! Makes pits on a grid, each with a solution, and scripts for planners.
//!
//!   grid grid PREFIX NX NY NZ PATTERN PERIODS SEED
//!       PREFIX.cpit, .prec, .blocks, .sol and .params. PATTERN says how many predecessors a block has: 5 or 9, one bench up; or 34, with 25 two benches up
//!   grid scripts PREFIX PLANNERS JOBS MIX SEED OUT [HOT]
//!       OUT.1.script and so on. MIX is shift1, area8, read32, skew or race; blocks are drawn from HOT candidates, where given
use std::fs::File;
use std::io::{BufWriter, Write};

struct Rng(u64);
impl Rng {
    fn next(&mut self) -> u64 {
        self.0 = self.0.wrapping_add(0x9E3779B97F4A7C15);
        let mut z = self.0;
        z = (z ^ (z >> 30)).wrapping_mul(0xBF58476D1CE4E5B9);
        z = (z ^ (z >> 27)).wrapping_mul(0x94D049BB133111EB);
        z ^ (z >> 31)
    }
    fn below(&mut self, n: u64) -> u64 {
        ((self.next() as u128 * n as u128) >> 64) as u64
    }
}
fn hash(seed: u64, b: u64, k: u64) -> u64 {
    Rng(seed ^ b.wrapping_mul(0x632BE59BD9B4E019) ^ (k << 56)).next()
}

struct Grid {
    nx: i64,
    ny: i64,
    nz: i64,
    pattern: u32,
    periods: u32,
    seed: u64,
}
impl Grid {
    fn blocks(&self) -> u64 {
        (self.nx * self.ny * self.nz) as u64
    }
    // id: bottom bench first, as in MineLib block files (z rising)
    fn id(&self, x: i64, y: i64, z: i64) -> u32 {
        ((z * self.ny + y) * self.nx + x) as u32
    }
    fn xyz(&self, b: u32) -> (i64, i64, i64) {
        let b = b as i64;
        (b % self.nx, b / self.nx % self.ny, b / (self.nx * self.ny))
    }
    fn up(&self, b: u32, sign: i64, out: &mut Vec<u32>) {
        out.clear();
        let (x, y, z) = self.xyz(b);
        let mut add = |dx: i64, dy: i64, dz: i64| {
            let (x, y, z) = (x + dx, y + dy, z + sign * dz);
            if x >= 0 && x < self.nx && y >= 0 && y < self.ny && z >= 0 && z < self.nz {
                out.push(self.id(x, y, z))
            }
        };
        match self.pattern {
            5 => {
                for (dx, dy) in [(0, -1), (-1, 0), (0, 0), (1, 0), (0, 1)] {
                    add(dx, dy, 1)
                }
            }
            9 => {
                for dy in -1..=1 {
                    for dx in -1..=1 {
                        add(dx, dy, 1)
                    }
                }
            }
            34 => {
                for dy in -1..=1 {
                    for dx in -1..=1 {
                        add(dx, dy, 1)
                    }
                }
                for dy in -2..=2 {
                    for dx in -2..=2 {
                        add(dx, dy, 2)
                    }
                }
            }
            _ => panic!("pattern"),
        }
    }
    // A feasible period: depth plus a ramp of slope 1/2 along x, in about periods/0.9 bands; the deepest stay unscheduled.
    fn period(&self, b: u32) -> Option<u32> {
        let (x, _, z) = self.xyz(b);
        let depth = 2 * (self.nz - 1 - z) + x.min(2 * self.nz); // slope 1/2
        let top = 2 * (self.nz - 1) + (self.nx - 1).min(2 * self.nz) + 1;
        let t = depth * (self.periods as i64 * 10) / (top * 9);
        if t < self.periods as i64 {
            Some(t as u32)
        } else {
            None
        }
    }
    fn profit(&self, b: u32) -> i64 {
        // millionths
        let h = hash(self.seed, b as u64, 1);
        if self.ore(b) {
            5_000_000_000 + (h % 90_000_000_000) as i64 / 100 * 100
        } else {
            -(1_000_000_000 + (h % 9_000_000_000) as i64 / 100 * 100)
        }
    }
    fn ore(&self, b: u32) -> bool {
        hash(self.seed, b as u64, 2) % 10 < 4
    }
    fn coef(&self, b: u32, r: u32) -> i64 {
        // tonnage in millionths; r 0: all rock, r 1: ore only
        if r == 1 && !self.ore(b) {
            return 0;
        }
        5_000_000_000 + (hash(self.seed, b as u64, 3) % 20_000_000_000) as i64 / 1000 * 1000
    }
}
struct W(BufWriter<File>);
impl W {
    fn new(name: &str) -> W {
        W(BufWriter::with_capacity(
            1 << 20,
            File::create(name).unwrap(),
        ))
    }
    fn u(&mut self, v: u64) {
        write!(self.0, "{v}").unwrap();
    }
    fn micro(&mut self, v: i64) {
        if v < 0 {
            self.s("-")
        }
        let m = v.unsigned_abs();
        self.u(m / 1_000_000);
        let mut f = m % 1_000_000;
        if f != 0 {
            let mut t = [0u8; 6];
            for i in (0..6).rev() {
                t[i] = b'0' + (f % 10) as u8;
                f /= 10
            }
            let mut n = 6;
            while t[n - 1] == b'0' {
                n -= 1
            }
            self.s(".");
            self.0.write_all(&t[..n]).unwrap();
        }
    }
    fn s(&mut self, s: &str) {
        self.0.write_all(s.as_bytes()).unwrap()
    }
}
fn grid_of(params: &str) -> Grid {
    let t = std::fs::read_to_string(params).unwrap();
    let v: Vec<i64> = t.split_whitespace().map(|x| x.parse().unwrap()).collect();
    Grid {
        nx: v[0],
        ny: v[1],
        nz: v[2],
        pattern: v[3] as u32,
        periods: v[4] as u32,
        seed: v[5] as u64,
    }
}
fn main() {
    let a: Vec<String> = std::env::args().collect();
    if a.len() < 8 {
        eprintln!("usage: grid grid|scripts .., as the source says");
        std::process::exit(2)
    }
    match a[1].as_str() {
        "grid" => {
            let p = &a[2];
            std::fs::write(format!("{p}.params"), a[3..9].join(" ")).unwrap();
            let g = grid_of(&format!("{p}.params"));
            let n = g.blocks();
            let t = g.periods;
            let mut load = vec![0i128; 2 * t as usize];
            for b in 0..n as u32 {
                if let Some(k) = g.period(b) {
                    for r in 0..2 {
                        load[2 * k as usize + r] += g.coef(b, r as u32) as i128
                    }
                }
            }
            let mut w = W::new(&format!("{p}.cpit"));
            w.s(&format!("NAME: {p}\nTYPE: CPIT\nNBLOCKS: {n}\nNPERIODS: {t}\nNRESOURCE_SIDE_CONSTRAINTS: 2\nDISCOUNT_RATE: 0.1\nOBJECTIVE_FUNCTION:\n"));
            for b in 0..n as u32 {
                w.u(b as u64);
                w.s(" ");
                w.micro(g.profit(b));
                w.s("\n")
            }
            w.s("RESOURCE_CONSTRAINT_COEFFICIENTS:\n");
            for b in 0..n as u32 {
                for r in 0..2 {
                    let c = g.coef(b, r);
                    if c != 0 {
                        w.u(b as u64);
                        w.s(" ");
                        w.u(r as u64);
                        w.s(" ");
                        w.micro(c);
                        w.s("\n")
                    }
                }
            }
            w.s("RESOURCE_CONSTRAINT_LIMITS:\n");
            for r in 0..2u64 {
                for k in 0..t as u64 {
                    let l = load[2 * k as usize + r as usize];
                    let hi = (l + l / 20 + 100_000_000_000) as i64 / 1_000_000 * 1_000_000; // 5 % and a few blocks of slack
                    w.u(r);
                    w.s(" ");
                    w.u(k);
                    w.s(" L ");
                    w.micro(hi);
                    w.s("\n");
                }
            }
            w.s("EOF\n");
            let mut w = W::new(&format!("{p}.prec"));
            let mut v = Vec::new();
            let mut pairs = 0u64;
            for b in 0..n as u32 {
                g.up(b, 1, &mut v);
                pairs += v.len() as u64;
                w.u(b as u64);
                w.s(" ");
                w.u(v.len() as u64);
                for &q in &v {
                    w.s(" ");
                    w.u(q as u64)
                }
                w.s("\n");
            }
            let mut w = W::new(&format!("{p}.blocks"));
            for b in 0..n as u32 {
                let (x, y, z) = g.xyz(b);
                w.u(b as u64);
                w.s(" ");
                w.u(x as u64);
                w.s(" ");
                w.u(y as u64);
                w.s(" ");
                w.u(z as u64);
                w.s(" ");
                w.micro(g.coef(b, 0));
                w.s("\n");
            }
            let mut w = W::new(&format!("{p}.sol"));
            let mut m = 0u64;
            for b in 0..n as u32 {
                if let Some(k) = g.period(b) {
                    m += 1;
                    w.u(b as u64);
                    w.s(" ");
                    w.u(k as u64);
                    w.s("\n")
                }
            }
            eprintln!("blocks {n} pairs {pairs} periods {t} scheduled {m}");
        }
        "scripts" => {
            let g = grid_of(&format!("{}.params", a[2]));
            let (k, jobs, mix, seed, out) = (
                a[3].parse::<u64>().unwrap(),
                a[4].parse::<u64>().unwrap(),
                a[5].as_str(),
                a[6].parse::<u64>().unwrap(),
                &a[7],
            );
            let n = g.blocks();
            let mut rng = Rng(seed);
            let hot = a.get(8).map(|h| h.parse::<u64>().unwrap());
            let mut v = Vec::new();
            // A block with a legal shift by +1 from the start schedule (all successors later or none).
            let mut legal = |rng: &mut Rng| -> u32 {
                for _ in 0..10_000 {
                    let b = rng.below(n) as u32;
                    let Some(t) = g.period(b) else { continue };
                    if t + 1 >= g.periods {
                        continue;
                    }
                    g.up(b, -1, &mut v);
                    if v.iter().all(|&s| g.period(s).map_or(true, |u| u > t)) {
                        return b;
                    }
                }
                panic!("no legal block")
            };
            let pool: Option<Vec<u32>> = hot.map(|h| (0..h).map(|_| legal(&mut rng)).collect());
            let mut files: Vec<W> = (1..=k)
                .map(|i| W::new(&format!("{out}.{i}.script")))
                .collect();
            let mut ups = Vec::new();
            // skew: pairs (a, s) with s a successor of a, one period later; planners with odd numbers move a later and back,
            // even ones move s earlier and back. Each move alone is lawful, both together are not (write skew).
            // race: the same pairs, each once and in the same order by all planners: what is broken at the end stays broken.
            if mix == "skew" || mix == "race" {
                let pairs: Vec<(u32, u32)> = (0..hot.unwrap_or(8))
                    .map(|_| loop {
                        let a = rng.below(n) as u32;
                        let Some(t) = g.period(a) else { continue };
                        if t + 1 >= g.periods {
                            continue;
                        }
                        g.up(a, -1, &mut ups);
                        if !ups.iter().all(|&s| g.period(s).map_or(true, |u| u > t)) {
                            continue;
                        }
                        let below = ups.clone();
                        let found = below.iter().copied().find(|&s| {
                            g.period(s) == Some(t + 1) && {
                                g.up(s, 1, &mut ups);
                                ups.iter().all(|&p| g.period(p).unwrap() <= t)
                            }
                        });
                        if let Some(s) = found {
                            break (a, s);
                        }
                    })
                    .collect();
                for (k, f) in files.iter_mut().enumerate() {
                    if mix == "race" {
                        for &(a, s) in &pairs {
                            let (b, d) = if k % 2 == 0 { (a, 1) } else { (s, -1) };
                            f.s(&format!("begin\nshift {b} {d}\ncommit\n"))
                        }
                        continue;
                    }
                    for j in 0..jobs / 2 {
                        let (a, s) = pairs[((j + rng.below(2)) % pairs.len() as u64) as usize];
                        let (b, d) = if k % 2 == 0 { (a, 1i64) } else { (s, -1) };
                        for d in [d, -d] {
                            f.s(&format!("begin\nshift {b} {d}\ncommit\n"))
                        }
                    }
                }
                return;
            }
            for f in files.iter_mut() {
                let mut j = 0;
                while j < jobs {
                    // Pairs of jobs, +1 and then -1, so the schedule stays near its start and most jobs are lawful.
                    let many = if mix == "area8" { 8 } else { 1 };
                    let bs: Vec<u32> = (0..many)
                        .map(|_| match &pool {
                            Some(p) => p[rng.below(p.len() as u64) as usize],
                            None => legal(&mut rng),
                        })
                        .collect();
                    for d in [1i64, -1] {
                        if j >= jobs {
                            break;
                        }
                        f.s("begin\n");
                        for &b in &bs {
                            if mix == "read32" {
                                for sign in [1, -1] {
                                    g.up(b, sign, &mut ups);
                                    for &q in &ups {
                                        f.s("read ");
                                        f.u(q as u64);
                                        f.s("\n")
                                    }
                                }
                                for _ in 0..22 {
                                    f.s("read ");
                                    f.u(rng.below(n));
                                    f.s("\n")
                                }
                            }
                            f.s("shift ");
                            f.u(b as u64);
                            f.s(if d > 0 { " 1\n" } else { " -1\n" });
                        }
                        f.s("commit\n");
                        j += 1;
                    }
                }
            }
        }
        _ => panic!("grid or scripts"),
    }
}
