//! The board in bytes, rows 1 to 9, and where its words lead.

/// By which rule carriers move: with the home gate of request d, or the older one, by which a route may run through the home point and go on.
#[derive(Clone, Copy, Debug, PartialEq, Eq)]
pub enum Rule {
    HomeGate,
    Older,
}

#[derive(Clone, Debug, PartialEq, Eq)]
pub struct Zone {
    pub a: usize,
    pub b: usize,
    pub carrier: u32,
    pub heading: u32,
}

impl Zone {
    /// Whether it is a turning loop: its two ends meet at one point.
    pub fn is_loop(&self) -> bool {
        self.a == self.b
    }
}

#[derive(Clone, Debug, PartialEq, Eq)]
pub struct Board {
    pub points: usize,
    pub home: usize,
    pub zones: Vec<Zone>,
}

impl Board {
    /// The point where a word, 2 × zone + heading, starts.
    pub fn start(&self, word: usize) -> usize {
        let zone = &self.zones[word / 2];
        if word % 2 == 0 { zone.a } else { zone.b }
    }

    /// The point where a word leaves.
    pub fn leave(&self, word: usize) -> usize {
        self.start(word ^ 1)
    }

    pub fn words(&self) -> usize {
        2 * self.zones.len()
    }

    /// The carriers out, ascending.
    pub fn carriers(&self) -> Vec<u32> {
        let mut out: Vec<u32> = self.zones.iter().map(|z| z.carrier).filter(|&c| c != 0).collect();
        out.sort_unstable();
        out
    }

    /// The word where a carrier stands.
    pub fn standing(&self, carrier: u32) -> Option<usize> {
        if carrier == 0 {
            return None;
        }
        let zone = self.zones.iter().position(|z| z.carrier == carrier)?;
        Some(2 * zone + self.zones[zone].heading as usize)
    }

    /// The board once a carrier has gone home.
    pub fn without(&self, carrier: u32) -> Board {
        let mut next = self.clone();
        for zone in next.zones.iter_mut().filter(|z| z.carrier == carrier) {
            zone.carrier = 0;
            zone.heading = 0;
        }
        next
    }

    /// Its position: for each zone 0, or 2 × carrier + heading.
    pub fn sheet(&self) -> Vec<u32> {
        self.zones.iter().map(|z| 2 * z.carrier + z.heading).collect()
    }

    /// The same track with the position of a sheet that has a word for each zone.
    pub fn holding(&self, sheet: &[u32]) -> Board {
        let mut next = self.clone();
        for (zone, word) in next.zones.iter_mut().zip(sheet) {
            (zone.carrier, zone.heading) = (word / 2, word % 2);
        }
        next
    }

    /// Whether a word leaves at the home point.
    pub fn leaves_home(&self, word: usize) -> bool {
        self.leave(word) == self.home
    }

    /// Whether a carrier on word w may go on by word v, where no gate takes it in first.
    pub fn may_follow(&self, carrier: u32, w: usize, v: usize) -> bool {
        let held = self.zones[v / 2].carrier;
        self.start(v) == self.leave(w) && v / 2 != w / 2 && (held == 0 || held == carrier)
    }

    /// The versions that have room for its carriers' numbers: 1 has one byte for each, 2 has two.
    fn versions(&self) -> &'static [u8] {
        if self.zones.iter().all(|z| z.carrier <= 255) { &[1, 2] } else { &[2] }
    }

    /// Its bytes in a version that has room for its carriers' numbers.
    pub fn bytes_in(&self, version: u8) -> Vec<u8> {
        assert!(self.versions().contains(&version), "a carrier's number has no room in version {version}");
        let mut zones = Vec::new();
        for z in &self.zones {
            zones.extend([z.a as u8, z.b as u8]);
            if version == 2 {
                zones.push((z.carrier / 256) as u8);
            }
            zones.extend([z.carrier as u8, z.heading as u8]);
        }
        let said = (4 + zones.len()) as u16;
        let head = [version, self.points as u8, self.home as u8, self.zones.len() as u8];
        [&said.to_be_bytes()[..], &head, &zones].concat()
    }

    /// Its bytes in each version that has room for its carriers' numbers.
    pub fn in_each_version(&self) -> Vec<Vec<u8>> {
        self.versions().iter().map(|&version| self.bytes_in(version)).collect()
    }

    /// Its bytes in the first of them.
    pub fn bytes(&self) -> Vec<u8> {
        self.bytes_in(self.versions()[0])
    }
}

/// The board, or the number of the first row that holds.
pub fn read(bytes: &[u8]) -> Result<Board, u32> {
    if bytes.len() < 6 {
        return Err(1);
    }
    let said = bytes[0] as usize * 256 + bytes[1] as usize;
    if said != bytes.len() - 2 {
        return Err(2);
    }
    let version = bytes[2];
    if ![1, 2].contains(&version) {
        return Err(3);
    }
    let (points, home, count) = (bytes[3] as usize, bytes[4] as usize, bytes[5] as usize);
    if !(2..=64).contains(&points) || home >= points || !(2..=96).contains(&count) {
        return Err(4);
    }
    let Some(zones) = take_zones(version, count, &bytes[6..]) else {
        return Err(5);
    };
    let bad = |z: &Zone| z.a >= points || z.b >= points || z.heading > 1 || (z.carrier == 0 && z.heading == 1);
    if zones.iter().any(bad) {
        return Err(6);
    }
    let mut held: Vec<u32> = zones.iter().map(|z| z.carrier).filter(|&c| c != 0).collect();
    held.sort_unstable();
    if held.windows(2).any(|pair| pair[0] == pair[1]) {
        return Err(7);
    }
    // A turning loop counts twice toward the two zones of its point.
    let degree = |p: usize| zones.iter().filter(|z| z.a == p || z.b == p).map(|z| if z.is_loop() { 2 } else { 1 }).sum::<usize>();
    if (0..points).any(|p| p != home && degree(p) < 2) {
        return Err(8);
    }
    if !hang_together(points, &zones) {
        return Err(9);
    }
    Ok(Board { points, home, zones })
}

/// The zones taken from the bytes one after another; none where the bytes end too soon or go on after the last.
fn take_zones(version: u8, count: usize, bytes: &[u8]) -> Option<Vec<Zone>> {
    let mut rest = bytes.iter().map(|&byte| u32::from(byte));
    let mut zones = Vec::new();
    while zones.len() < count {
        let (a, b) = (rest.next()? as usize, rest.next()? as usize);
        let high = if version == 1 { 0 } else { rest.next()? };
        zones.push(Zone { a, b, carrier: 256 * high + rest.next()?, heading: rest.next()? });
    }
    rest.next().is_none().then_some(zones)
}

/// Whether the transitive closure of "joined by a zone" has every pair.
fn hang_together(points: usize, zones: &[Zone]) -> bool {
    let mut linked = vec![vec![false; points]; points];
    for z in zones {
        linked[z.a][z.b] = true;
        linked[z.b][z.a] = true;
    }
    for via in 0..points {
        for p in 0..points {
            if linked[p][via] {
                for q in 0..points {
                    if linked[via][q] {
                        linked[p][q] = true;
                    }
                }
            }
        }
    }
    (0..points).all(|p| (0..points).all(|q| p == q || linked[p][q]))
}
