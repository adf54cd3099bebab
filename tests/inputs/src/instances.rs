//! The instances that the paper names for the check of a knowledge, with what it says of each.

use crate::knowledge::Knowledge;

/// Bytes with the answer that they must get: r, v, e, g or the number of the refusal.
#[derive(Clone, Debug)]
pub struct Instance {
    pub name: &'static str,
    pub bytes: Vec<u8>,
    pub answer: Result<[u64; 4], u32>,
}

pub fn instances() -> Vec<Instance> {
    let k1 = Knowledge::smallest().bytes();
    let k2 = k1[..k1.len() - 1].to_vec();
    let k3 = [&k1[..], &[0]].concat();
    let mut tick = Knowledge::filled(1, 2, 1);
    tick.vectors[1][0].1 = 1 << 63;
    let mut largest_tick = tick.clone();
    largest_tick.vectors[1][0].1 -= 1;

    let instance = |name, bytes, answer| Instance { name, bytes, answer };
    vec![
        instance("K1, the smallest knowledge", k1, Ok([0, 1, 0, 1])),
        instance("K2, the smallest without its last byte", k2, Err(1)),
        instance("K3, the smallest and one byte more", k3, Err(10)),
        instance("the largest knowledge", Knowledge::largest().bytes(), Ok([16, 65, 1024, 64])),
        instance("17 replicas", Knowledge::filled(17, 1, 1).bytes(), Err(3)),
        instance("tick 2^63", tick.bytes(), Err(7)),
        instance("tick 2^63 - 1", largest_tick.bytes(), Ok([1, 2, 1, 1])),
        instance("64 unlike ranges starting at 1", Knowledge::late_start().bytes(), Ok([2, 65, 128, 64])),
    ]
}
