// What sites can reply: docs/HOSTS.md.

pub const NO_END: u32 = u32::MAX;
// The first site of the sheet in a controller.
pub const SPLIT: u8 = 4;

#[derive(Clone, Copy, PartialEq, Eq, Debug)]
pub struct Window {
    pub earliest: u32,
    pub latest: u32,
    pub lowest: u16,
    pub highest: u16,
}

impl Window {
    // Does the window of a call at `called` reach the tick?
    pub fn reaches(&self, called: u32, tick: u64) -> bool {
        self.latest == NO_END || tick <= u64::from(called) + u64::from(self.latest)
    }

    pub fn admits(&self, called: u32, tick: u64, value: u16) -> bool {
        tick >= u64::from(called) + u64::from(self.earliest)
            && self.reaches(called, tick)
            && (self.lowest..=self.highest).contains(&value)
    }
}

// What a call can come to.
#[derive(Clone, Copy, PartialEq, Eq, Debug)]
pub struct Handle {
    windows: [Window; 4],
    count: usize,
    pub silent: bool,
}

impl Handle {
    pub fn new(windows: &[Window], silent: bool) -> Handle {
        let mut all = [Window { earliest: 0, latest: 0, lowest: 0, highest: 0 }; 4];
        all[..windows.len()].copy_from_slice(windows);
        Handle { windows: all, count: windows.len(), silent }
    }

    pub fn windows(&self) -> &[Window] {
        &self.windows[..self.count]
    }

    // Does some window reach the tick?
    pub fn reaches(&self, called: u32, tick: u64) -> bool {
        self.windows().iter().any(|window| window.reaches(called, tick))
    }

    pub fn can_stand(&self, called: u32, tick: u64) -> bool {
        self.silent || self.reaches(called, tick)
    }

    pub fn admits(&self, called: u32, tick: u64, value: u16) -> bool {
        self.windows().iter().any(|window| window.admits(called, tick, value))
    }
}

// One tick, one value.
fn only(tick: u32, value: u16) -> Handle {
    Handle::new(&[Window { earliest: tick, latest: tick, lowest: value, highest: value }], false)
}

// The local sites of every controller.
fn local(site: u8, value: u16) -> Option<Handle> {
    match (site, value) {
        (0, _) => Some(only(0, value)),
        (1, 0) => Some(Handle::new(&[], true)),
        (1, _) | (2, _) => Some(only(0, 0)),
        (3, _) => Some(only(u32::from(value), 0)),
        _ => None,
    }
}

#[derive(Clone, PartialEq, Eq, Debug)]
pub struct Row {
    pub site: u8,
    pub first: u16,
    pub last: u16,
    pub silent: bool,
    pub windows: Vec<Window>,
}

// A sheet's rows. A refused sheet has none.
#[derive(Clone, PartialEq, Eq, Debug, Default)]
pub struct Sheet {
    pub rows: Vec<Row>,
}

impl Sheet {
    pub fn knows(&self, site: u8) -> bool {
        self.rows.iter().any(|row| row.site == site)
    }

    fn handle(&self, site: u8, value: u16) -> Option<Handle> {
        if !self.knows(site) {
            return None;
        }
        let holds = |row: &&Row| row.site == site && (row.first..=row.last).contains(&value);
        Some(match self.rows.iter().find(holds) {
            Some(row) => Handle::new(&row.windows, row.silent),
            None => Handle::new(&[], true),
        })
    }
}

// The host of a door's controller: the local sites, and behind them the sheet's.
#[derive(Clone, PartialEq, Eq, Debug, Default)]
pub struct Controller {
    pub sheet: Sheet,
}

impl Controller {
    pub fn knows(&self, site: u8) -> bool {
        match site.checked_sub(SPLIT) {
            None => local(site, 0).is_some(),
            Some(site) => self.sheet.knows(site),
        }
    }

    // None if the site is unknown.
    pub fn handle(&self, site: u8, value: u16) -> Option<Handle> {
        match site.checked_sub(SPLIT) {
            None => local(site, value),
            Some(site) => self.sheet.handle(site, value),
        }
    }

    // The handle of a call that was made, so of a known site.
    pub fn made(&self, site: u8, value: u16) -> Handle {
        self.handle(site, value).expect("calls are made of known sites alone")
    }
}
