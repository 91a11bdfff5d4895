//! A tree file taken apart, section by section, with nothing checked: what the
//! damages work on. `bytes` puts it together as it stands.

pub const NONE: u16 = 65535;

/// The version as written; nothing else is looked at.
pub fn version(bytes: &[u8]) -> Option<u16> {
    bytes.get(3..)?.first_chunk().copied().map(u16::from_le_bytes)
}

#[derive(Clone, Debug, PartialEq, Eq)]
pub struct Node {
    pub kind: u8,
    pub role: u8,
    pub size: u16,
    pub begin: u32,
    pub end: u32,
    pub value: u16,
    pub zero: u16,
}

#[derive(Clone, Debug, PartialEq, Eq)]
pub struct Value {
    pub kind: u8,
    pub length: u16,
    pub bytes: Vec<u8>,
}

#[derive(Clone, Debug, PartialEq, Eq)]
pub struct File {
    pub mark: [u8; 3],
    pub version: u16,
    /// Counts as written: nodes, values, globals.
    pub counts: [u16; 3],
    pub nodes: Vec<Node>,
    pub values: Vec<Value>,
    pub globals: Vec<u16>,
}

struct Reader<'a>(&'a [u8]);

impl<'a> Reader<'a> {
    fn take<const N: usize>(&mut self) -> Option<[u8; N]> {
        let (head, rest) = self.0.split_first_chunk()?;
        self.0 = rest;
        Some(*head)
    }
    fn u16(&mut self) -> Option<u16> {
        self.take().map(u16::from_le_bytes)
    }
    fn u32(&mut self) -> Option<u32> {
        self.take().map(u32::from_le_bytes)
    }
    fn bytes(&mut self, n: u16) -> Option<Vec<u8>> {
        let part = self.0.get(..n.into())?;
        self.0 = &self.0[n.into()..];
        Some(part.to_vec())
    }
    fn node(&mut self) -> Option<Node> {
        let [kind, role] = self.take()?;
        let (size, begin, end) = (self.u16()?, self.u32()?, self.u32()?);
        Some(Node { kind, role, size, begin, end, value: self.u16()?, zero: self.u16()? })
    }
    fn value(&mut self) -> Option<Value> {
        let ([kind], length) = (self.take()?, self.u16()?);
        Some(Value { kind, length, bytes: self.bytes(length)? })
    }
}

impl File {
    /// `None` where the sections don't fill the bytes.
    pub fn read(bytes: &[u8]) -> Option<File> {
        let mut r = Reader(bytes);
        let (mark, version) = (r.take()?, r.u16()?);
        let counts = [r.u16()?, r.u16()?, r.u16()?];
        let nodes = (0..counts[0]).map(|_| r.node()).collect::<Option<_>>()?;
        let values = (0..counts[1]).map(|_| r.value()).collect::<Option<_>>()?;
        let globals = if counts[2] == NONE { 0 } else { counts[2] };
        let globals = (0..globals).map(|_| r.u16()).collect::<Option<_>>()?;
        r.0.is_empty().then_some(File { mark, version, counts, nodes, values, globals })
    }

    pub fn bytes(&self) -> Vec<u8> {
        let mut out = self.mark.to_vec();
        out.extend(self.version.to_le_bytes());
        self.counts.iter().for_each(|c| out.extend(c.to_le_bytes()));
        for x in &self.nodes {
            out.extend([x.kind, x.role]);
            out.extend(x.size.to_le_bytes());
            out.extend(x.begin.to_le_bytes());
            out.extend(x.end.to_le_bytes());
            out.extend(x.value.to_le_bytes());
            out.extend(x.zero.to_le_bytes());
        }
        for v in &self.values {
            out.push(v.kind);
            out.extend(v.length.to_le_bytes());
            out.extend(&v.bytes);
        }
        self.globals.iter().for_each(|g| out.extend(g.to_le_bytes()));
        out
    }

    /// Writes the counts of what is there, globals given staying so.
    pub fn recount(&mut self) {
        let globals = if self.counts[2] == NONE { NONE } else { self.globals.len() as u16 };
        self.counts = [self.nodes.len() as u16, self.values.len() as u16, globals];
    }
}
