//! Two equal pictures of the largest size compared: how many bytes of both together go by in a second, beside memcmp.

use std::time::{Duration, Instant};

const SIDE: u32 = 1_024;

/// The lines of the table: equal pictures, then pictures that differ in one pixel, and in every pixel.
pub fn print(budget: Duration) {
    let a: Vec<u8> = (0..4 * SIDE as usize * SIDE as usize).map(|i| (i / 3 ^ i >> 9) as u8).collect();
    let mut one = a.clone();
    one[2 * SIDE as usize * SIDE as usize] ^= 4;
    let every: Vec<u8> = a.iter().map(|byte| !byte).collect();
    println!("{:<22} {:>10} {:>10} {:>10}", "compare 1,024 by 1,024", "GB/s", "us", "memcmp");
    for (name, b, count) in
        [("equal", a.clone(), 0), ("one pixel differs", one, 1), ("every pixel differs", every, SIDE * SIDE)]
    {
        let (mut compare, mut memcmp) = (Duration::MAX, Duration::MAX);
        let begin = Instant::now();
        while begin.elapsed() < budget / 4 {
            compare = compare.min(timed(|| {
                let answer = library::compare(SIDE, SIDE, &a, &b);
                assert_eq!((answer.code, answer.count), (0, count), "{name}");
            }));
            // A slice's comparison is memcmp; it stops at the first byte that differs. The library has had both pictures,
            // so the compiler cannot know what they hold, and compares them every time.
            memcmp = memcmp.min(timed(|| assert_eq!(a[..] == b[..], count == 0)));
        }
        let rate = |time: Duration| 2.0 * a.len() as f64 / time.as_secs_f64() / 1e9;
        let beside = if count == 0 { format!("{:>10.1}", rate(memcmp)) } else { String::new() };
        println!("  {:<20} {:>10.1} {:>10.1} {}", name, rate(compare), 1e6 * compare.as_secs_f64(), beside);
    }
    println!("Bytes of both pictures in a second, the best time; memcmp likewise, of equal pictures only.");
}

fn timed(run: impl FnOnce()) -> Duration {
    let begin = Instant::now();
    run();
    begin.elapsed()
}
