//! Damaged files: for every refusal from 1 to 9, at low and high places. What a
//! file is refused for in the end, if it is, the judge says.
use crate::file::{File, Node, Value, NONE};
use crate::random::Random;
use crate::tree::Tree;

/// None is valid; in some one byte is that of a version which is.
const VERSIONS: [u16; 9] = [0, 3, 4, 256, 257, 258, 512, 513, 65535];

pub fn damaged(tree: &Tree, r: &mut Random) -> Vec<u8> {
    let mut file = tree.file();
    let mut bytes = None;
    // Two faults show which number and which place comes first.
    for _ in 0..if r.percent(35) { 2 } else { 1 } {
        match r.weighted(&[2, 2, 4, 8, 22, 26, 28, 12]) {
            0 => file.mark[r.below(3)] ^= 1 << r.below(8),
            1 => file.version = *r.pick(&VERSIONS),
            2 => counts(&mut file, r),
            3 => bytes = Some(sections(&mut file, r)),
            4 => values(&mut file, r),
            5 => fields(&mut file, r),
            6 => children(&mut file, r),
            _ => globals(&mut file, r),
        }
    }
    let mut bytes = bytes.unwrap_or_else(|| file.bytes());
    if r.percent(6) {
        let at = r.place(bytes.len());
        bytes[at] = r.below(256) as u8;
    }
    if r.percent(2) {
        bytes.truncate(r.below(14));
    }
    bytes
}

/// A chain one level too deep, or some.
pub fn too_deep(version: u16, r: &mut Random) -> Vec<u8> {
    let depth = if r.percent(60) { 49 } else { r.range(48, 90) };
    Tree { version, ..crate::make::deep_tree(r, depth) }.bytes()
}

fn counts(file: &mut File, r: &mut Random) {
    let (at, value) = *r.pick(&[(0, 0), (0, 1025), (0, 65535), (1, 513), (1, 65535), (2, 513), (2, 65534)]);
    file.counts[at] = value;
}

/// Lengths and counts that the bytes don't keep to.
fn sections(file: &mut File, r: &mut Random) -> Vec<u8> {
    match r.below(4) {
        0 if !file.values.is_empty() => {
            let at = r.place(file.values.len());
            let v = &mut file.values[at];
            v.length = if r.percent(50) { v.length + 1 } else { v.length.wrapping_sub(1) };
        }
        1 => {
            let at = r.below(3);
            let by = if r.percent(50) { 1 } else { 65535 };
            file.counts[at] = file.counts[at].wrapping_add(by);
        }
        _ => {
            let mut bytes = file.bytes();
            if r.percent(50) {
                bytes.truncate(bytes.len() - r.range(1, 4));
            } else {
                bytes.extend(vec![r.below(3) as u8; r.range(1, 20)]);
            }
            return bytes;
        }
    }
    file.bytes()
}

fn value(kind: u8, bytes: Vec<u8>) -> Value {
    Value { kind, length: bytes.len() as u16, bytes }
}

/// A value of wrong form, or one at its limit, which is none.
fn strange_value(r: &mut Random) -> Value {
    let nan = f64::NAN.to_bits() & !(1 << 63);
    let minus = (-1.5f64).to_bits();
    match r.below(12) {
        0 => value(5, vec![1]),
        1 => value(255, vec![]),
        2 => value(0, vec![]),
        3 => value(r.below(4) as u8, vec![b'q'; 256]),
        4 => value(3, vec![9; *r.pick(&[64, 65, 66])]),
        5 => value(3, vec![0]),
        6 => value(3, vec![0, 7]),
        7 => value(4, nan.to_le_bytes().to_vec()),
        8 => value(4, minus.to_le_bytes().to_vec()),
        9 => value(4, vec![0; *r.pick(&[0, 7, 9, 16])]),
        10 => value(4, (1u64 << 63).to_le_bytes().to_vec()),
        _ => value(r.below(3) as u8, vec![b'q'; *r.pick(&[254, 255])]),
    }
}

fn values(file: &mut File, r: &mut Random) {
    let n = file.values.len();
    match r.below(6) {
        0 if n > 1 => {
            let at = r.place(n - 1);
            file.values.swap(at, at + 1);
        }
        1 if n > 0 && n < 512 => {
            let at = r.place(n);
            file.values.insert(at, file.values[at].clone());
            file.recount();
        }
        2 if n > 0 => {
            let at = r.place(n);
            file.values[at] = strange_value(r);
        }
        3 if n > 0 => {
            let at = r.place(n);
            file.values[at].kind = *r.pick(&[0, 1, 2, 3, 4, 5, 6, 255]);
        }
        _ if n < 512 => {
            // In its place where it has one, else anywhere.
            let strange = strange_value(r);
            let before =
                |v: &Value| (v.kind, v.length, &v.bytes) < (strange.kind, strange.length, &strange.bytes);
            let ordered = file.values.iter().filter(|v| before(v)).count();
            let at = if r.percent(70) { ordered } else { r.below(n + 1) };
            file.values.insert(at, strange);
            for x in &mut file.nodes {
                if x.value != NONE && usize::from(x.value) >= at {
                    x.value += 1;
                }
            }
            file.globals.iter_mut().filter(|g| usize::from(**g) >= at).for_each(|g| *g = g.saturating_add(1));
            file.recount();
        }
        _ => file.values.reverse(),
    }
}

/// One field of one node.
fn fields(file: &mut File, r: &mut Random) {
    let (n, values) = (file.nodes.len(), file.values.len() as u16);
    let at = r.place(n);
    let other = file.values.len().max(1);
    let x = &mut file.nodes[at];
    match r.below(12) {
        0 => x.kind = *r.pick(&[0, 14, 15, 19, 34, 39, 48, 64, 128, 255]),
        1 => x.begin = x.end.wrapping_add(1),
        2 => (x.begin, x.end) = (1, 0),
        3 => x.zero = *r.pick(&[1, 256, 65535]),
        4 => x.size = 0,
        5 => x.size = x.size.wrapping_add(r.range(1, 3) as u16),
        6 => x.size = *r.pick(&[n as u16 + 1, (n - at) as u16, (n - at) as u16 + 1, 65535]),
        7 => x.value = values,
        8 => x.value = *r.pick(&[65534, values.wrapping_add(1)]),
        9 => x.value = NONE,
        10 => x.value = 0,
        _ => x.value = r.below(other) as u16,
    }
}

/// Roles, kinds, sizes and members: what the lists of children don't allow.
fn children(file: &mut File, r: &mut Random) {
    let n = file.nodes.len();
    let at = r.place(n);
    match r.below(9) {
        0 | 1 => file.nodes[at].role = r.below(10) as u8,
        2 => file.nodes[at].kind = r.range(1, 47) as u8,
        3 => file.nodes[at].kind = similar(file.nodes[at].kind, r),
        4 if n > 1 => {
            let size = file.nodes[at].size;
            file.nodes[at].size = r.range(1, usize::from(size).max(1)) as u16;
        }
        5 => removed(file, r.range(1, n.max(2) - 1).min(n - 1)),
        6 if n < 1024 => doubled(file, at),
        7 if n < 1000 => {
            // Nodes past the end of node 0's part.
            for i in 0..r.range(1, 5) {
                let size = if r.percent(30) { r.range(1, 3) as u16 } else { 1 };
                let kind = *r.pick(&[3, 3, 8, 8, 1]);
                file.nodes.push(Node { kind, role: 0, size, begin: i as u32, end: 9, value: NONE, zero: 0 });
            }
            file.recount();
        }
        _ => {
            let to = r.place(n);
            file.nodes.swap(at, to);
        }
    }
}

/// Another kind with the same value and, mostly, some of the same children.
fn similar(kind: u8, r: &mut Random) -> u8 {
    const ALIKE: [&[u8]; 7] = [
        &[1, 2, 3, 4, 8, 13],
        &[6, 7, 45],
        &[9, 10, 11, 12],
        &[20, 40, 43, 47],
        &[25, 26],
        &[27, 28, 29, 33, 42, 44, 22, 30],
        &[23, 24, 31, 32, 5, 46, 41],
    ];
    ALIKE.iter().find(|a| a.contains(&kind)).map_or(kind, |a| *r.pick(a))
}

/// Everyone who reaches over a node.
fn above(file: &File, at: usize) -> Vec<usize> {
    (0..at).filter(|p| p + usize::from(file.nodes[*p].size) > at).collect()
}

fn removed(file: &mut File, at: usize) {
    if at == 0 || at >= file.nodes.len() {
        return;
    }
    let size = usize::from(file.nodes[at].size).clamp(1, file.nodes.len() - at);
    for p in above(file, at) {
        file.nodes[p].size -= size.min(file.nodes[p].size.into()) as u16;
    }
    file.nodes.drain(at..at + size);
    file.recount();
}

fn doubled(file: &mut File, at: usize) {
    let size = usize::from(file.nodes[at].size).clamp(1, file.nodes.len() - at);
    if at == 0 || file.nodes.len() + size > 1024 {
        return;
    }
    for p in above(file, at) {
        file.nodes[p].size = file.nodes[p].size.saturating_add(size as u16);
    }
    let part: Vec<Node> = file.nodes[at..at + size].to_vec();
    file.nodes.splice(at..at, part);
    file.recount();
}

fn globals(file: &mut File, r: &mut Random) {
    if file.counts[2] == NONE || file.globals.is_empty() {
        file.counts[2] = 0;
        let names = file.values.iter().take_while(|v| v.kind == 0).count() as u16;
        file.globals = (0..names).collect();
        file.recount();
    }
    let n = file.globals.len();
    if n == 0 {
        return;
    }
    let at = r.place(n);
    match r.below(5) {
        0 if n > 1 => {
            let at = at.min(n - 2);
            file.globals.swap(at, at + 1);
        }
        1 if n < 512 => {
            file.globals.insert(at, file.globals[at]);
            file.recount();
        }
        2 => file.globals[at] = *r.pick(&[65535, 65534, file.counts[1]]),
        3 if n < 512 => {
            file.globals.push(file.counts[1].wrapping_sub(r.below(2) as u16));
            file.recount();
        }
        _ => file.globals[at] = r.below(usize::from(file.counts[1]).max(1)) as u16,
    }
}
