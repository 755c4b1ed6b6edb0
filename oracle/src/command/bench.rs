use std::{hint::black_box, time::Instant};

use crate::{generate::mixed::mixed_map, values::Original};

const SIZES: [usize; 4] = [10, 100, 1_000, 8_192];
const SAMPLES: usize = 101;

/// The time of all values of one play, on objects already read, by one text of the original: beside
/// the other it would be that of two.
pub fn bench() -> Result<(), String> {
    let mut text = String::new();
    for size in SIZES {
        let map = mixed_map(size);
        let original = Original::new(&map);
        let calls = 200_000 / size + 1;
        let mut samples: Vec<f64> = (0..SAMPLES)
            .map(|_| {
                let start = Instant::now();
                for _ in 0..calls {
                    black_box(original.widened_estimates(black_box(&map.plays[0])));
                }
                start.elapsed().as_nanos() as f64 / calls as f64
            })
            .collect();
        samples.sort_by(f64::total_cmp);
        let (median, least) = (samples[SAMPLES / 2], samples[0]);
        text += &format!("{size} objects: median {median:.0} ns, least {least:.0} ns\n");
    }
    super::write_out(text.as_bytes())
}
