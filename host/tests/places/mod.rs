//! Deliveries of nodes whose numbers fall together: the number into which 54 mixes X, Y and Z (`spot` of crates/topology, nodes.rt).

use canopyrail::{Value, FILES};

/// The modulus of the mix of X and Y: of numbers that fall together by it only one is left.
pub const WHOLE: u64 = 68_719_476_731;
const FACTOR: u64 = 4_093_082_899;
const PRIME: u64 = 8_589_934_583;

const CODE: &[u8] = b"POZO";

/// X and Y of nodes without Z whose numbers are all equal by the period.
pub fn falling_together(many: usize, period: u64) -> Vec<(i64, i64)> {
    let mut places = Vec::new();
    for x in 1i64.. {
        // a coordinate that isn't negative is told as twice it and one
        let past = (2 * x as u64 + 1) % 2_147_483_648 * FACTOR % WHOLE;
        for turn in 0..WHOLE / period {
            let y = (turn * period + WHOLE - past) % WHOLE;
            let told = if y % 2 == 1 { y } else { y + PRIME };
            if y < PRIME {
                places.push((x, (told / 2) as i64));
            }
            if places.len() == many {
                return places;
            }
        }
    }
    unreachable!()
}

fn record(file: usize, values: &[Value]) -> Vec<u8> {
    let mut room = vec![0; canopyrail::LONGEST];
    let length = canopyrail::write(file, values, &mut room).unwrap();
    room.truncate(length);
    room
}

/// The values of a point object at a place, and the catalogue that has its code.
fn point(id: u64, x: i64, y: i64) -> Vec<Value> {
    let mut point = vec![Value::Missing; 13];
    point[0] = Value::Number(id);
    point[3] = Value::Text(CODE.to_vec());
    point[8] = Value::Coordinate(x);
    point[10] = Value::Coordinate(y);
    point
}

fn catalogue() -> Vec<u8> {
    let (none, code) = (Value::Missing, Value::Text(CODE.to_vec()));
    record(1, &[code, Value::Text(b"P".to_vec()), none.clone(), none])
}

/// Point objects with these ids, without nodes.
#[allow(dead_code)] // the benchmarks don't use it
pub fn points(ids: &[u64]) -> [Vec<u8>; FILES] {
    let mut files: [Vec<u8>; FILES] = Default::default();
    files[0] = catalogue();
    for id in ids {
        files[1].extend(record(2, &point(*id, 1, 1)));
    }
    files
}

/// Two point objects on each node, as one that stands alone takes, and nothing else.
pub fn delivery(places: &[(i64, i64)]) -> [Vec<u8>; FILES] {
    let mut files: [Vec<u8>; FILES] = Default::default();
    files[0] = catalogue();
    for (place, (x, y)) in places.iter().enumerate() {
        let id = place as u64 + 1;
        for own in [2 * id - 1, 2 * id] {
            let mut named = point(own, *x, *y);
            named[2] = Value::Number(id);
            files[1].extend(record(2, &named));
        }
        let mut node = vec![Value::Missing; 8];
        node[0] = Value::Number(id);
        // every second one says what it is
        if id % 2 == 0 {
            node[1] = Value::Text(b"A".to_vec());
        }
        node[3] = Value::Coordinate(*x);
        node[5] = Value::Coordinate(*y);
        files[6].extend(record(7, &node));
    }
    files
}
