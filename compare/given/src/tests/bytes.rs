//! Document 01's bytes, put together.

pub(super) const TRUTH: u8 = 0x01;
pub(super) const FALSITY: u8 = 0x02;
pub(super) const EQ: u8 = 0x10;
pub(super) const LT: u8 = 0x11;
pub(super) const LE: u8 = 0x12;
pub(super) const GT: u8 = 0x13;
pub(super) const GE: u8 = 0x14;

pub(super) const INTEGER: u8 = 0;
pub(super) const BOOLEAN: u8 = 1;
pub(super) const SET: u8 = 2;

pub(super) fn truth() -> Vec<u8> {
    vec![TRUTH]
}

pub(super) fn falsity() -> Vec<u8> {
    vec![FALSITY]
}

pub(super) fn id(k: u8) -> Vec<u8> {
    vec![0x20, k]
}

pub(super) fn bound(i: u8) -> Vec<u8> {
    vec![0x21, i]
}

pub(super) fn lit(value: i64) -> Vec<u8> {
    [vec![0x22], value.to_le_bytes().to_vec()].concat()
}

pub(super) fn minus(e: Vec<u8>) -> Vec<u8> {
    [vec![0x29], e].concat()
}

pub(super) fn plus(parts: &[Vec<u8>]) -> Vec<u8> {
    counted(0x26, parts)
}

pub(super) fn maplet(l: Vec<u8>, r: Vec<u8>) -> Vec<u8> {
    rel(0x2f, l, r)
}

pub(super) fn rel(code: u8, l: Vec<u8>, r: Vec<u8>) -> Vec<u8> {
    [vec![code], l, r].concat()
}

pub(super) fn eq(l: Vec<u8>, r: Vec<u8>) -> Vec<u8> {
    rel(EQ, l, r)
}

pub(super) fn lt(l: Vec<u8>, r: Vec<u8>) -> Vec<u8> {
    rel(LT, l, r)
}

pub(super) fn in_naturals(x: Vec<u8>) -> Vec<u8> {
    rel(0x15, x, vec![0x24])
}

pub(super) fn in_naturals1(x: Vec<u8>) -> Vec<u8> {
    rel(0x15, x, vec![0x25])
}

pub(super) fn not(p: Vec<u8>) -> Vec<u8> {
    [vec![0x03], p].concat()
}

pub(super) fn imp(p: Vec<u8>, q: Vec<u8>) -> Vec<u8> {
    rel(0x06, p, q)
}

fn counted(code: u8, parts: &[Vec<u8>]) -> Vec<u8> {
    [vec![code, parts.len() as u8], parts.concat()].concat()
}

pub(super) fn and(parts: &[Vec<u8>]) -> Vec<u8> {
    counted(0x04, parts)
}

pub(super) fn or(parts: &[Vec<u8>]) -> Vec<u8> {
    counted(0x05, parts)
}

pub(super) fn forall(n: u8, p: Vec<u8>) -> Vec<u8> {
    [vec![0x08, n], p].concat()
}

pub(super) fn exists(n: u8, p: Vec<u8>) -> Vec<u8> {
    [vec![0x09, n], p].concat()
}

/// A lent list.
pub(super) fn list(formulas: &[Vec<u8>]) -> Vec<u8> {
    [vec![formulas.len() as u8], formulas.concat()].concat()
}

/// Flags: 0 plain, 1 hidden, 2 selected.
pub(super) fn sequent(types: &[u8], hyps: &[(u8, Vec<u8>)], goal: Vec<u8>) -> Vec<u8> {
    let mut out = b"SQT\x01\x00".to_vec();
    out.extend([types.len() as u8, hyps.len() as u8, 0]);
    out.extend(types);
    for (flag, hyp) in hyps {
        out.push(*flag);
        out.extend(hyp);
    }
    out.extend(goal);
    out
}
