// Times the overlap test of the crate `mapcheck`, at 256 and at 2,048 entries.
// docs/MAPS.md says how it is built and what it gave. No test depends on it.
use std::time::Instant;

#[link(name = "mapcheck", kind = "static")]
extern "C" {
    fn lie_apart(s: *const u8, len: usize, n: usize) -> bool;
}

// A map of n objects of 16 to 31 bytes, packed in a shuffled order; with `meet`, the last of them begins one byte early.
fn map(n: usize, meet: bool) -> Vec<u8> {
    let mut order: Vec<usize> = (0..n).collect();
    let mut x: u64 = 88172645463325252;
    for i in (1..n).rev() {
        x ^= x << 13;
        x ^= x >> 7;
        x ^= x << 17;
        order.swap(i, (x % (i as u64 + 1)) as usize);
    }
    let (mut at, mut len, mut end) = (vec![0u16; n], vec![0u16; n], 0u16);
    for &i in &order {
        at[i] = end;
        len[i] = 16 + (i % 16) as u16;
        end += len[i];
    }
    if meet {
        at[order[n - 1]] -= 1;
    }
    let mut s = vec![82, 76, 77, 0, 1, (n / 256) as u8, (n % 256) as u8];
    for i in 0..n {
        for w in [i as u16 + 1, at[i], len[i]] {
            s.extend([(w / 256) as u8, (w % 256) as u8]);
        }
    }
    s
}

// The best of twenty times, in microseconds.
fn time(name: &str, n: usize, s: &[u8], want: bool) {
    let rounds = if n > 1000 { 20 } else { 1000 };
    let mut best = f64::MAX;
    for _ in 0..20 {
        let begun = Instant::now();
        for _ in 0..rounds {
            assert_eq!(unsafe { lie_apart(std::hint::black_box(s.as_ptr()), s.len(), n) }, want);
        }
        best = best.min(begun.elapsed().as_secs_f64() / rounds as f64 * 1e6);
    }
    println!("{n} entries, {name}: {best:.1} us");
}

fn main() {
    for n in [256, 2048] {
        let (apart, meet) = (map(n, false), map(n, true));
        time("all apart", n, &apart, true);
        time("two meet", n, &meet, false);
    }
}
