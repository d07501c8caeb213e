//! The replay: each firing is one look into the row of the node that it starts from.

use crate::check::{check, Refusal, Tables, PLACES};

const FIRINGS: u32 = 4096;

fn refused<T>(number: u32, kind: usize, index: usize) -> Result<T, Refusal> {
    Err(Refusal { number, kind, index })
}

/// What is taken and put over all places, and 1 plus the entry of the last arc, 0 where nothing was fired.
pub fn replay(
    net: &[u32],
    sheet: &[u32],
    log: &[u32],
    taken: &mut [u64],
    put: &mut [u64],
    tables: &mut Tables,
) -> Result<[u64; 3], Refusal> {
    check(net, sheet, tables)?;
    let &[firings, ref words @ ..] = log else {
        return refused(23, 0, 0);
    };
    if firings > FIRINGS || words.len() != 2 * firings as usize {
        return refused(23, 0, 0);
    }
    let (fired, reached) = words.split_at(firings as usize);
    let mut often = [0u64; 32];
    let (mut node, mut last) = (0, 0);
    for (i, (&t, &logged)) in fired.iter().zip(reached).enumerate() {
        let Some((entry, target)) = tables.arc(node, t) else {
            return refused(20, 4, i);
        };
        if target as u32 != logged {
            return refused(24, 4, i);
        }
        often[t as usize] += 1;
        node = target;
        last = entry as u64 + 1;
    }
    let p = tables.places;
    if taken.len() < p || put.len() < p {
        return refused(22, 0, 0);
    }
    let (mut moved, mut brought) = ([0u64; PLACES], [0u64; PLACES]);
    for t in 0..tables.transitions {
        for p in 0..PLACES {
            moved[p] += often[t] * u64::from(tables.taken(t)[p]);
            brought[p] += often[t] * u64::from(tables.put(t)[p]);
        }
    }
    taken[..p].copy_from_slice(&moved[..p]);
    put[..p].copy_from_slice(&brought[..p]);
    Ok([moved.iter().sum(), brought.iter().sum(), last])
}
