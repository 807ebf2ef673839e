//! Makes an input smaller as long as the two sides still differ on it.

/// Cuts the end off, then sets blocks and single bytes to zero.
pub fn bytes(of: &mut Vec<u8>, still: &mut dyn FnMut(&[u8]) -> bool) {
    let mut cut = of.len();
    while cut > 0 {
        while cut <= of.len() && still(&of[..of.len() - cut]) {
            of.truncate(of.len() - cut);
        }
        cut /= 2;
    }
    let mut block = of.len();
    while block > 0 {
        for at in (0..of.len()).step_by(block) {
            let end = (at + block).min(of.len());
            let kept = of[at..end].to_vec();
            if kept.iter().all(|b| *b == 0) {
                continue;
            }
            of[at..end].fill(0);
            if !still(of) {
                of[at..end].copy_from_slice(&kept);
            }
        }
        block /= 2;
    }
}

