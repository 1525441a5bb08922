//! The analyses: functions over values, named by codes. Code 0 is AllTop and code 1 the identity. A value is
//! the code of the constant function that gives it: 0 is top, and the value at the root is the least one.
use crate::graph::{Effect, NONE};
use std::collections::HashMap;
use std::hash::{BuildHasherDefault, Hash, Hasher};

pub const TOP: u32 = 0;
pub const ID: u32 = 1;

pub trait Analysis {
    /// The least function, and as a value bottom.
    const LEAST: u32;
    /// What `@result` and the locals receive from `@zero` at a start.
    const AT_ENTRY: u32;

    /// From which facts (one, two or none) the assigned one receives, and by which function.
    fn received(&mut self, effect: Effect) -> (u16, u16, u32);
    /// First `f`, then `g`.
    fn compose(&mut self, f: u32, g: u32) -> u32;
    fn meet(&mut self, f: u32, g: u32) -> u32;
    fn show(&self, value: u32, out: &mut Vec<u8>);
    /// Codes are to be at most this.
    fn limit(&mut self, _most: u32) {}
    /// Whether there were more codes than that: then what was computed is of no use.
    fn is_full(&self) -> bool {
        false
    }

    fn apply(&mut self, f: u32, value: u32) -> u32 {
        self.compose(value, f)
    }
}

/// `uninit`: the only function but AllTop is the identity, which as a value is bottom.
pub struct Reaching;

impl Analysis for Reaching {
    const LEAST: u32 = ID;
    const AT_ENTRY: u32 = ID;

    fn received(&mut self, effect: Effect) -> (u16, u16, u32) {
        match effect {
            Effect::Number(_) | Effect::Unknown => (NONE, NONE, TOP),
            Effect::Copy(y) | Effect::Sum(y, _) => (y, NONE, ID),
            Effect::Mix(y, z) => (y, z, ID),
        }
    }

    #[inline(always)]
    fn compose(&mut self, f: u32, g: u32) -> u32 {
        f & g
    }

    #[inline(always)]
    fn meet(&mut self, f: u32, g: u32) -> u32 {
        f | g
    }

    fn show(&self, value: u32, out: &mut Vec<u8>) {
        out.extend_from_slice(if value == TOP { b"top" } else { b"bottom" });
    }
}

#[derive(Clone, Copy, PartialEq, Eq, Hash)]
enum F {
    AllTop,
    Shift(u64),
    Const(u64),
    ShiftMeet(u64, u64),
    Bottom,
}

const BOTTOM: u32 = 2;

#[derive(Default)]
pub struct Mixer(u64);

impl Hasher for Mixer {
    fn finish(&self) -> u64 {
        self.0 ^ (self.0 >> 29)
    }
    fn write(&mut self, bytes: &[u8]) {
        for b in bytes {
            self.write_u64(u64::from(*b));
        }
    }
    fn write_u64(&mut self, n: u64) {
        self.0 = (self.0.rotate_left(23) ^ n).wrapping_mul(0x9E37_79B9_7F4A_7C15);
    }
    fn write_isize(&mut self, n: isize) {
        self.write_u64(n as u64);
    }
}

/// `copy` and `shift`: the flat lattice of constants.
pub struct Constants {
    sums: bool,
    functions: Vec<F>,
    codes: HashMap<F, u32, BuildHasherDefault<Mixer>>,
    composed: Kept,
    met: Kept,
    most: u32,
    full: bool,
}

const KEPT: usize = 1024;

impl Constants {
    pub fn new(sums: bool) -> Constants {
        let functions = vec![F::AllTop, F::Shift(0), F::Bottom];
        let codes = functions
            .iter()
            .enumerate()
            .map(|(i, f)| (*f, i as u32))
            .collect();
        Constants {
            sums,
            functions,
            codes,
            composed: Kept::new(),
            met: Kept::new(),
            most: u32::MAX,
            full: false,
        }
    }

    fn code(&mut self, f: F) -> u32 {
        if let Some(code) = self.codes.get(&f) {
            return *code;
        }
        let code = self.functions.len() as u32;
        if code > self.most {
            self.full = true;
            return BOTTOM;
        }
        self.functions.push(f);
        self.codes.insert(f, code);
        code
    }

    #[cold]
    fn compose_anew(&mut self, f: u32, g: u32) -> u32 {
        use F::*;
        let (first, next) = (self.functions[f as usize], self.functions[g as usize]);
        let result = match (first, next) {
            (AllTop, _) | (_, AllTop) => AllTop,
            (_, Const(m)) => Const(m),
            (_, Bottom) => Bottom,
            (Shift(c), Shift(e)) => Shift(c.wrapping_add(e)),
            (Shift(c), ShiftMeet(e, m)) => ShiftMeet(c.wrapping_add(e), m),
            (Const(k), Shift(e)) => Const(k.wrapping_add(e)),
            (Const(k), ShiftMeet(e, m)) if k.wrapping_add(e) == m => Const(m),
            (ShiftMeet(c, k), Shift(e)) => ShiftMeet(c.wrapping_add(e), k.wrapping_add(e)),
            (ShiftMeet(c, k), ShiftMeet(e, m)) if k.wrapping_add(e) == m => {
                ShiftMeet(c.wrapping_add(e), m)
            }
            _ => Bottom,
        };
        self.code(result)
    }

    #[cold]
    fn meet_anew(&mut self, f: u32, g: u32) -> u32 {
        use F::*;
        let (one, two) = (self.functions[f as usize], self.functions[g as usize]);
        let result = match (one, two) {
            (AllTop, h) | (h, AllTop) => h,
            (Shift(c), Shift(d)) if c == d => one,
            (Shift(c), Const(k)) | (Const(k), Shift(c)) => ShiftMeet(c, k),
            (Shift(c), ShiftMeet(d, k)) | (ShiftMeet(d, k), Shift(c)) if c == d => ShiftMeet(c, k),
            (Const(k), Const(l)) if k == l => one,
            (Const(k), ShiftMeet(d, l)) | (ShiftMeet(d, l), Const(k)) if k == l => ShiftMeet(d, l),
            (ShiftMeet(c, k), ShiftMeet(d, l)) if c == d && k == l => one,
            _ => Bottom,
        };
        self.code(result)
    }
}

/// The last results that were not found by two codes alone, by a few bits of these.
struct Kept {
    results: Vec<(u32, u32, u32)>,
}

impl Kept {
    fn new() -> Kept {
        Kept {
            results: vec![(0, 0, 0); KEPT],
        }
    }

    #[inline(always)]
    fn place(f: u32, g: u32) -> usize {
        (f.wrapping_mul(0x9E37_79B1) ^ g.wrapping_mul(0x85EB_CA6B)) as usize >> 12 & (KEPT - 1)
    }

    #[inline(always)]
    fn get(&self, f: u32, g: u32) -> Option<u32> {
        let (one, two, result) = self.results[Kept::place(f, g)];
        (one == f && two == g).then_some(result)
    }

    /// Keeps the result, and answers it.
    fn keep(&mut self, f: u32, g: u32, result: u32) -> u32 {
        self.results[Kept::place(f, g)] = (f, g, result);
        result
    }
}

impl Analysis for Constants {
    const LEAST: u32 = BOTTOM;
    const AT_ENTRY: u32 = BOTTOM;

    fn received(&mut self, effect: Effect) -> (u16, u16, u32) {
        match effect {
            Effect::Number(k) => (0, NONE, self.code(F::Const(k))),
            Effect::Copy(y) => (y, NONE, ID),
            Effect::Sum(y, k) if self.sums => (y, NONE, self.code(F::Shift(k))),
            Effect::Sum(..) | Effect::Unknown | Effect::Mix(..) => (0, NONE, BOTTOM),
        }
    }

    #[inline(always)]
    fn compose(&mut self, f: u32, g: u32) -> u32 {
        if g == ID || f == TOP {
            return f;
        }
        if f == ID || g == BOTTOM || g == TOP {
            return g;
        }
        if let Some(result) = self.composed.get(f, g) {
            return result;
        }
        let result = self.compose_anew(f, g);
        self.composed.keep(f, g, result)
    }

    #[inline(always)]
    fn meet(&mut self, f: u32, g: u32) -> u32 {
        if f == g || g == TOP || f == BOTTOM {
            return f;
        }
        if f == TOP || g == BOTTOM {
            return g;
        }
        if let Some(result) = self.met.get(f, g) {
            return result;
        }
        let result = self.meet_anew(f, g);
        self.met.keep(f, g, result)
    }

    fn show(&self, value: u32, out: &mut Vec<u8>) {
        match self.functions[value as usize] {
            F::AllTop => out.extend_from_slice(b"top"),
            F::Const(n) => {
                out.extend_from_slice(b"const ");
                let mut digits = [0; 20];
                let (mut at, mut n) = (digits.len(), n);
                loop {
                    at -= 1;
                    digits[at] = b'0' + (n % 10) as u8;
                    n /= 10;
                    if n == 0 {
                        break;
                    }
                }
                out.extend_from_slice(&digits[at..]);
            }
            _ => out.extend_from_slice(b"bottom"),
        }
    }

    fn limit(&mut self, most: u32) {
        self.most = most;
    }

    fn is_full(&self) -> bool {
        self.full
    }
}
