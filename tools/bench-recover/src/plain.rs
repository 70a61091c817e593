// Reads the same logs and puts their pairs into a plain sorted map: what recovery is measured against.
use std::collections::BTreeMap;
use std::time::Instant;

fn number(bytes: &[u8]) -> u64 {
    bytes.iter().fold(0, |n, byte| n << 8 | u64::from(*byte))
}

fn main() {
    let mut words = std::env::args().skip(1);
    let (folder, count) = (words.next().unwrap(), words.next().unwrap().parse::<u32>().unwrap());
    let start = Instant::now();
    let mut map: BTreeMap<(u32, Vec<u8>), Vec<Vec<u8>>> = BTreeMap::new();
    for log in 0..count {
        let bytes = std::fs::read(format!("{folder}/wal-{log:02}")).unwrap();
        let mut at = 8;
        while bytes[at] == 1 {
            let end = at + 5 + number(&bytes[at + 1..at + 5]) as usize;
            let records = number(&bytes[at + 22..at + 26]);
            let mut place = at + 26;
            for _ in 0..records {
                let tenant = number(&bytes[place + 8..place + 12]) as u32;
                let len = number(&bytes[place + 12..place + 14]) as usize;
                let key = bytes[place + 14..place + 14 + len].to_vec();
                place += 14 + len;
                if bytes[place] == 0 {
                    map.remove(&(tenant, key));
                    place += 1;
                    continue;
                }
                let columns = bytes[place + 1];
                place += 2;
                let mut row = Vec::with_capacity(usize::from(columns));
                for _ in 0..columns {
                    let len = number(&bytes[place..place + 2]) as usize;
                    row.push(bytes[place + 2..place + 2 + len].to_vec());
                    place += 2 + len;
                }
                map.insert((tenant, key), row);
            }
            at = end;
        }
    }
    println!("pairs {} in {} ms", map.len(), start.elapsed().as_millis());
}
