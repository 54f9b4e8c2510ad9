// Plain Rust of crates/store_bench's kernels of places, in the same steps: peer COUNT KERNEL prints the same line.

use std::env;

const PRIMARY_MAX: usize = 128;
const PAIRS_MAX: usize = 128;

#[derive(Clone, Copy, Default)]
struct Pair {
    old: u32,
    new: u32,
}

#[derive(Clone)]
struct Placer {
    gaps: [u32; PRIMARY_MAX],
    gap_count: usize,
    remap: [Pair; PAIRS_MAX],
    route_count: usize,
    blocks: u32,
}

impl Placer {
    fn of(primary: &[u32], pairs: &[Pair], blocks: u32) -> Self {
        let mut placer = Placer {
            gaps: [0; PRIMARY_MAX],
            gap_count: primary.len(),
            remap: [Pair::default(); PAIRS_MAX],
            route_count: 0,
            blocks,
        };
        for (i, defect) in primary.iter().enumerate() {
            placer.gaps[i] = defect - 16 - i as u32;
        }
        placer.follow_all(pairs);
        placer
    }

    fn with_pairs(&self, pairs: &[Pair]) -> Self {
        let mut placer = self.clone();
        placer.follow_all(pairs);
        placer
    }

    fn follow_all(&mut self, pairs: &[Pair]) {
        for pair in pairs {
            self.follow(pair);
        }
    }

    fn follow(&mut self, pair: &Pair) {
        let routes = &mut self.remap[..self.route_count];
        if let Some(route) = routes.iter_mut().find(|route| route.new == pair.old) {
            route.new = pair.new;
        } else if self.starts_a_block(pair.old) {
            if let Err(i) = routes_of(self).binary_search_by_key(&pair.old, |route| route.old) {
                self.remap.copy_within(i..self.route_count, i + 1);
                self.remap[i] = *pair;
                self.route_count += 1;
            }
        }
    }

    fn starts_a_block(&self, sector: u32) -> bool {
        let mut block = sector - 16;
        for gap in &self.gaps[..self.gap_count] {
            if *gap >= block {
                return *gap > block && block < self.blocks;
            }
            block -= 1;
        }
        block < self.blocks
    }

    fn place(&self, block: u32) -> u32 {
        let gaps = &self.gaps[..self.gap_count];
        let start = 16 + block + gaps.partition_point(|gap| *gap <= block) as u32;
        match routes_of(self).binary_search_by_key(&start, |route| route.old) {
            Ok(i) => self.remap[i].new,
            Err(_) => start,
        }
    }
}

fn routes_of(placer: &Placer) -> &[Pair] {
    &placer.remap[..placer.route_count]
}

fn main() {
    let args: Vec<String> = env::args().collect();
    let count: u32 = args[1].parse().unwrap();
    let primary: Vec<u32> = (0..128).map(|k| 17 + 2 * k).collect();
    let pairs: Vec<Pair> = (0..128).map(|k| Pair { old: 3000 - k, new: 3968 + k }).collect();
    let mut sum: u64 = 0;
    match args[2].as_str() {
        "placer" => {
            for _ in 0..count {
                sum = sum.wrapping_add(Placer::of(&primary, &pairs, 3824).route_count as u64);
            }
        }
        "move" => {
            let placer = Placer::of(&primary, &pairs[..127], 3824);
            for _ in 0..count {
                sum = sum.wrapping_add(placer.with_pairs(&pairs[127..]).route_count as u64);
            }
        }
        "place" => {
            let placer = Placer::of(&primary, &pairs, 3824);
            let mut seed: u32 = 1;
            for _ in 0..count {
                seed = seed.wrapping_mul(1_664_525).wrapping_add(1_013_904_223);
                sum = sum.wrapping_add(u64::from(placer.place((seed >> 16) % 3824)));
            }
        }
        other => panic!("no kernel {other}"),
    }
    println!("{} {count} {sum}", args[2]);
}
