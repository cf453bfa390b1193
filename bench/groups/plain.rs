// The same works over the same two maps in plain Rust: rows by id, and the ids of each consumer.
use std::collections::{BTreeMap, BTreeSet};
use std::ops::Bound::{Excluded, Unbounded};
use std::sync::Arc;

type Id = (u64, u64);

struct Row {
    consumer: Arc<Vec<u8>>,
    time: u64,
    count: u64,
}

#[derive(Default)]
struct Group {
    cursor: Id,
    rows: BTreeMap<Id, Row>,
    owners: BTreeMap<Vec<u8>, (Arc<Vec<u8>>, BTreeSet<Id>)>,
}

impl Group {
    fn join(&mut self, consumer: &[u8]) -> Arc<Vec<u8>> {
        if let Some((name, _)) = self.owners.get(consumer) {
            return name.clone();
        }
        let name = Arc::new(consumer.to_vec());
        self.owners.insert(consumer.to_vec(), (name.clone(), BTreeSet::new()));
        name
    }

    fn deliver(&mut self, stream: &BTreeMap<Id, Vec<u8>>, consumer: &[u8], now: u64, limit: usize) -> usize {
        let ids: Vec<Id> = stream.range((Excluded(self.cursor), Unbounded)).take(limit).map(|(id, _)| *id).collect();
        let name = self.join(consumer);
        let owned = &mut self.owners.get_mut(consumer).unwrap().1;
        for id in &ids {
            owned.insert(*id);
            self.rows.insert(*id, Row { consumer: name.clone(), time: now, count: 1 });
            self.cursor = *id;
        }
        ids.len()
    }

    fn ack(&mut self, ids: &[Id]) -> usize {
        let mut gone = 0;
        for id in ids {
            if let Some(row) = self.rows.remove(id) {
                self.owners.get_mut(&row.consumer[..]).unwrap().1.remove(id);
                gone += 1;
            }
        }
        gone
    }

    fn settle(&mut self, stream: &BTreeMap<Id, Vec<u8>>, consumer: &[u8], now: u64, ids: &[Id]) -> usize {
        let name = self.join(consumer);
        let mut taken = 0;
        for id in ids {
            if !stream.contains_key(id) {
                self.ack(&[*id]);
                continue;
            }
            if let Some(row) = self.rows.get_mut(id) {
                let old = std::mem::replace(&mut row.consumer, name.clone());
                row.time = now;
                row.count += 1;
                self.owners.get_mut(&old[..]).unwrap().1.remove(id);
                self.owners.get_mut(consumer).unwrap().1.insert(*id);
                taken += 1;
            }
        }
        taken
    }

    fn scan(&self, start: Id, now: u64, least: u64, limit: usize) -> (Vec<Id>, Option<Id>) {
        let mut found = Vec::new();
        let mut seen = 0;
        for (id, row) in self.rows.range(start..) {
            if found.len() >= limit || seen >= 10 * limit {
                return (found, Some(*id));
            }
            seen += 1;
            if now.saturating_sub(row.time) >= least {
                found.push(*id);
            }
        }
        (found, None)
    }
}

const ROWS: u64 = 1_000_000;

fn name(k: u64) -> Vec<u8> {
    vec![b'c', b'0' + (k / 10 % 10) as u8, b'0' + (k % 10) as u8]
}

fn once(stream: &BTreeMap<Id, Vec<u8>>, n: u64, work: &str) -> u64 {
    let mut group = Group::default();
    if work == "stream" {
        return 0;
    }
    for k in 0..n / 100 {
        group.deliver(stream, &name(k % 100), 1, 100);
    }
    let mut total = 0;
    match work {
        "fill" => total = n,
        "kept" => {
            std::mem::forget(group);
            return n;
        }
        "ack" => {
            for k in 0..n {
                total += group.ack(&[(k.wrapping_mul(7919) % n + 1, 0)]) as u64;
            }
        }
        "claim" => {
            for k in 0..n / 10 {
                let ids: Vec<Id> = (1..=10).map(|j| (k * 10 + j, 0)).collect();
                let found: Vec<Id> = ids.iter().filter(|id| group.rows.get(id).map_or(false, |row| 1000 - row.time >= 10)).copied().collect();
                total += group.settle(stream, &name(0), 1000, &found) as u64;
            }
        }
        "scan" => {
            let mut from = (0, 0);
            loop {
                let (found, next) = group.scan(from, 1000, 10, 100);
                total += group.settle(stream, &name(0), 1000, &found) as u64;
                match next {
                    Some(id) => from = id,
                    None => break,
                }
            }
        }
        "summary" => {
            for _ in 0..n / 10 {
                let told: Vec<(Vec<u8>, usize)> =
                    group.owners.iter().filter(|(_, o)| !o.1.is_empty()).map(|(n, o)| (n.clone(), o.1.len())).collect();
                total += told.len() as u64;
            }
        }
        "rows" => {
            for k in 0..n {
                let told: Vec<(Id, Vec<u8>, u64, u64)> = group.rows.range((k + 1, 0)..).take(10)
                    .map(|(id, row)| (*id, row.consumer.to_vec(), 1000 - row.time, row.count)).collect();
                total += told.len() as u64;
            }
        }
        "owner" => {
            for k in 0..n * 10 {
                let told: Vec<(Id, Vec<u8>, u64, u64)> = group.owners[&name(7)].1.range((k % n + 1, 0)..).take(10)
                    .map(|id| (id, &group.rows[id])).map(|(id, row)| (*id, row.consumer.to_vec(), 1000 - row.time, row.count)).collect();
                total += told.len() as u64;
            }
        }
        "remove" => {
            for k in 0..100 {
                if let Some((_, ids)) = group.owners.remove(&name(k)) {
                    for id in &ids {
                        group.rows.remove(id);
                    }
                    total += ids.len() as u64;
                }
            }
        }
        _ => {}
    }
    total
}

fn main() {
    let words: Vec<String> = std::env::args().collect();
    let n: u64 = words[1].parse().unwrap();
    let stream: BTreeMap<Id, Vec<u8>> = (1..=n).map(|k| ((k, 0), Vec::new())).collect();
    let mut total = 0;
    for _ in 0..ROWS / n {
        total += once(&stream, n, &words[2]);
    }
    println!("{total}");
}
