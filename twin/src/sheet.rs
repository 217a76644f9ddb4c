//! The farm sheet: its rules (refusal 1), and who stands in it.

/// "A row number and a farm number are different kinds and can't be mixed up."
#[derive(Clone, Copy, Debug, PartialEq, Eq)]
pub struct RowNo(pub u8);

#[derive(Clone, Copy, Debug, PartialEq, Eq)]
pub struct FarmNo(pub u8);

/// A row's place among its farm's rows: 0 to q.
pub type Seat = usize;

/// "Farm, 33 bytes: entity address u16, quota q (1 to 8), power mode (0 to 2), VIN 17, EID 6, GID 6."
#[derive(Clone, Debug)]
pub struct FarmRecord {
    pub entity: u16,
    pub quota: usize,
    pub mode: u8,
    pub vin: [u8; 17],
    pub eid: [u8; 6],
    pub gid: [u8; 6],
    /// "Farm 0 owns rows 0 to q, farm 1 the next q+1, and so on (ours)."
    pub first_row: u8,
}

impl FarmRecord {
    pub fn row_at(&self, seat: Seat) -> u8 {
        self.first_row + seat as u8
    }
}

/// "Tester, 4 bytes: address u16, farm u8, zero."
#[derive(Clone, Copy, Debug)]
pub struct Tester {
    pub address: u16,
    pub farm: FarmNo,
}

/// "Target, 4 bytes: address u16, farm u8, reachable 0 or 1."
#[derive(Clone, Copy, Debug)]
pub struct Target {
    pub address: u16,
    pub farm: FarmNo,
    pub reachable: bool,
}

#[derive(Clone, Debug)]
pub struct Sheet {
    pub farms: Vec<FarmRecord>,
    pub testers: Vec<Tester>,
    pub targets: Vec<Target>,
}

/// "The sheet is walked by a reader that holds the lent bytes and a position."
struct Reader<'a> {
    bytes: &'a [u8],
    position: usize,
}

impl Reader<'_> {
    fn some<const N: usize>(&mut self) -> Option<[u8; N]> {
        let end = self.position + N;
        let read = self.bytes.get(self.position..end)?.try_into().ok()?;
        self.position = end;
        Some(read)
    }

    fn u8(&mut self) -> Option<u8> {
        Some(self.some::<1>()?[0])
    }

    /// "Numbers are big-endian."
    fn u16(&mut self) -> Option<u16> {
        Some(u16::from_be_bytes(self.some()?))
    }

    /// "no address is 0"
    fn address(&mut self) -> Option<u16> {
        self.u16().filter(|&address| address != 0)
    }

    /// "farm numbers exist"
    fn farm_below(&mut self, farms: usize) -> Option<FarmNo> {
        self.u8().filter(|&farm| usize::from(farm) < farms).map(FarmNo)
    }
}

impl Sheet {
    /// The sheet that these bytes are; nothing where they break a rule.
    pub fn read(bytes: &[u8]) -> Option<Sheet> {
        let mut reader = Reader { bytes, position: 0 };
        // "Header, 12 bytes: three u16 counts (farms 1 to 4, testers 0 to 32, targets 0 to 64)"
        let farms = usize::from(reader.u16()?);
        let testers = usize::from(reader.u16()?);
        let targets = usize::from(reader.u16()?);
        if !(1..=4).contains(&farms) || testers > 32 || targets > 64 {
            return None;
        }
        // "then three u16 offsets. The three sections follow in that order without gaps, and the
        // sheet ends where the last one ends."
        let testers_at = 12 + 33 * farms;
        let targets_at = testers_at + 4 * testers;
        for place in [12, testers_at, targets_at] {
            if usize::from(reader.u16()?) != place {
                return None;
            }
        }
        if bytes.len() != targets_at + 4 * targets {
            return None;
        }
        let farm_list = read_farms(&mut reader, farms)?;
        let mut tester_list = Vec::new();
        for _ in 0..testers {
            tester_list.push(read_tester(&mut reader, farms)?);
        }
        let mut target_list = Vec::new();
        for _ in 0..targets {
            target_list.push(read_target(&mut reader, farms)?);
        }
        // "Testers ascend strictly by address, targets likewise"
        let ascend = tester_list.windows(2).all(|pair| pair[0].address < pair[1].address)
            && target_list.windows(2).all(|pair| pair[0].address < pair[1].address);
        ascend.then_some(Sheet { farms: farm_list, testers: tester_list, targets: target_list })
    }

    /// What the sheet says of one farm; nothing where it has no such farm.
    pub fn site(&self, number: FarmNo) -> Option<Site<'_>> {
        let record = self.farms.get(usize::from(number.0))?;
        Some(Site { sheet: self, number, record })
    }

    /// The farm that owns a row, and the row's seat in it.
    pub fn owner(&self, row: RowNo) -> Option<(FarmNo, Seat)> {
        for (number, farm) in self.farms.iter().enumerate() {
            if row.0 >= farm.first_row && usize::from(row.0 - farm.first_row) <= farm.quota {
                return Some((FarmNo(number as u8), usize::from(row.0 - farm.first_row)));
            }
        }
        None
    }
}

/// One farm of a sheet.
#[derive(Clone, Copy)]
pub struct Site<'a> {
    pub sheet: &'a Sheet,
    pub number: FarmNo,
    pub record: &'a FarmRecord,
}

impl<'a> Site<'a> {
    /// "A lookup that finds nobody is an ordinary answer."
    pub fn tester(&self, address: u16) -> Option<&'a Tester> {
        let list = &self.sheet.testers;
        let place = list.binary_search_by_key(&address, |tester| tester.address).ok()?;
        Some(&list[place]).filter(|tester| tester.farm == self.number)
    }

    pub fn target(&self, address: u16) -> Option<&'a Target> {
        let list = &self.sheet.targets;
        let place = list.binary_search_by_key(&address, |target| target.address).ok()?;
        Some(&list[place]).filter(|target| target.farm == self.number)
    }
}

fn read_farms(reader: &mut Reader, count: usize) -> Option<Vec<FarmRecord>> {
    let mut list = Vec::new();
    let mut rows = 0;
    for _ in 0..count {
        let farm = FarmRecord {
            entity: reader.address()?,
            quota: usize::from(reader.u8()?),
            mode: reader.u8()?,
            vin: reader.some()?,
            eid: reader.some()?,
            gid: reader.some()?,
            first_row: rows,
        };
        if !(1..=8).contains(&farm.quota) || farm.mode > 2 {
            return None;
        }
        rows += farm.quota as u8 + 1;
        list.push(farm);
    }
    // "the sum of q+1 over the farms is at most 16"
    (rows <= 16).then_some(list)
}

fn read_tester(reader: &mut Reader, farms: usize) -> Option<Tester> {
    let tester = Tester { address: reader.address()?, farm: reader.farm_below(farms)? };
    (reader.u8()? == 0).then_some(tester)
}

fn read_target(reader: &mut Reader, farms: usize) -> Option<Target> {
    let (address, farm) = (reader.address()?, reader.farm_below(farms)?);
    match reader.u8()? {
        0 => Some(Target { address, farm, reachable: false }),
        1 => Some(Target { address, farm, reachable: true }),
        _ => None,
    }
}
