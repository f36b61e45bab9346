//! The works of `program` over a `BTreeMap` in plain Rust.
use std::collections::BTreeMap;
use std::io::Write;

static PIECE: [u8; 256] = [7; 256];

struct Random(u64);

impl Random {
    fn next(&mut self) -> u64 {
        self.0 = self.0.wrapping_mul(6_364_136_223_846_793_005).wrapping_add(1_442_695_040_888_963_407);
        self.0 >> 33
    }
}

struct Count<'a>(&'a mut u64, &'a mut u64);

impl Write for Count<'_> {
    fn write(&mut self, piece: &[u8]) -> std::io::Result<usize> {
        *self.0 += piece.len() as u64;
        *self.1 += 1;
        Ok(piece.len())
    }

    fn flush(&mut self) -> std::io::Result<()> {
        Ok(())
    }
}

type Map = BTreeMap<u64, (u64, Vec<u8>)>;

fn deliver(map: &mut Map, random: &mut Random, count: u64) {
    for i in 0..count {
        let key = random.next().wrapping_mul(65_536).wrapping_add(i % 65_536);
        map.insert(key, (key, PIECE[..77].to_vec()));
    }
}

fn main() {
    for name in std::env::args().skip(1) {
        let mut map = Map::new();
        let mut random = Random(2026);
        match name.as_str() {
            "passes" => {
                deliver(&mut map, &mut random, 50_000);
                let (mut written, mut pieces) = (0, 0);
                for _ in 0..1_000 {
                    let mut out = std::io::BufWriter::with_capacity(65_536, Count(&mut written, &mut pieces));
                    for one in map.values() {
                        out.write_all(&one.1).unwrap();
                    }
                    out.flush().unwrap();
                }
                println!("{written} bytes written in {pieces} pieces");
            }
            "one" => deliver(&mut map, &mut random, 50_000),
            "twelve" => {
                deliver(&mut map, &mut random, 38_000);
                for _ in 0..1_000 {
                    deliver(&mut map, &mut random, 12);
                }
            }
            "churn" => {
                for _ in 0..10_000_000 {
                    let key = random.next() % 50_000;
                    let len = (random.next() % 128) as usize;
                    map.insert(key, (key, PIECE[..len].to_vec()));
                }
            }
            _ => {}
        }
        let bytes: usize = map.values().map(|one| one.1.len()).sum();
        println!("{} entries, {bytes} bytes", map.len());
    }
}
