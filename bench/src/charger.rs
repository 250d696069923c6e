//! A charger of the same rules, written by hand in plain Rust: what the proved one is compared with.

#[derive(Clone, Copy, PartialEq, Eq, Debug)]
pub struct Id {
    pub kind: u8,
    pub code: u64,
}

#[derive(Clone, Copy, PartialEq, Eq, Debug, Default)]
pub struct Entry {
    pub kind: u8,
    pub cause: u8,
    pub period: u16,
    pub number: u32,
    pub from: u32,
    pub to: u32,
    pub code: u64,
    pub up: u64,
    pub down: u64,
}

#[derive(Clone, Copy, PartialEq, Eq, Debug)]
pub enum Method {
    Converged,
    Offline,
    Qos,
}

#[derive(Clone, Copy, Debug)]
pub struct Override {
    pub trigger: u8,
    pub switch: u8,
    pub category: u8,
    pub threshold: u64,
}

#[derive(Clone, Copy, Debug, Default)]
struct Trigger {
    enabled: bool,
    immediate: bool,
    threshold: u64,
}

#[derive(Clone, Copy, Debug)]
struct Line {
    id: Id,
    active: bool,
    since: u32,
    up: u64,
    down: u64,
    total_up: u64,
    total_down: u64,
}

#[derive(Clone, Copy, PartialEq, Eq, Debug)]
pub enum Due {
    Nothing,
    Sent(usize),
    Held(usize),
}

#[derive(Clone, Copy, PartialEq, Eq, Debug)]
enum Phase {
    Fresh,
    Open,
    Ended,
    Shelved,
}

const MOST: u64 = 999_999_999_999;

/// What a session is lent: a book of so many places, under a link.
pub struct Book {
    pub entries: Vec<Entry>,
    pub places: usize,
    pub up: bool,
    pub profile: Vec<Override>,
}

impl Book {
    fn intake(&self) -> usize {
        if self.up { self.places - self.entries.len() } else { 0 }
    }

    fn take(&mut self, head: Entry, containers: &[Entry]) -> bool {
        if containers.len() + 1 > self.intake() {
            return false;
        }
        self.entries.push(head);
        self.entries.extend_from_slice(containers);
        true
    }
}

/// (has it, immediate, may be recategorised, may be switched)
fn rule(method: Method, n: u8) -> Option<(bool, bool, bool)> {
    Some(match n {
        5 if method == Method::Qos => return None,
        1..=6 | 15 | 16 => (false, true, true),
        7 => (false, false, false),
        8..=11 => (method != Method::Offline, true, true),
        12..=14 => (true, false, true),
        17 if method == Method::Qos => (false, true, true),
        17..=20 => (true, false, false),
        _ => return None,
    })
}

pub struct Session {
    method: Method,
    id: u32,
    triggers: [Trigger; 21],
    phase: Phase,
    last: u32,
    period: u16,
    volume: u64,
    changes: u64,
    mark: u32,
    closed: u64,
    owed: bool,
    lines: Vec<Line>,
    waiting: Vec<Entry>,
}

impl Session {
    pub fn new(method: Method, id: u32, limits: [u64; 5]) -> (Session, Option<u8>) {
        let mut triggers = [Trigger::default(); 21];
        for n in 1..21u8 {
            if let Some((immediate, _, _)) = rule(method, n) {
                let threshold = if (12..=16).contains(&n) { limits[n as usize - 12] } else { 0 };
                let enabled = !(12..=16).contains(&n) || threshold > 0;
                triggers[n as usize] = Trigger { enabled, immediate, threshold };
            }
        }
        let bad = limits.iter().any(|l| *l > MOST);
        let session = Session {
            method,
            id,
            triggers,
            phase: if bad { Phase::Shelved } else { Phase::Fresh },
            last: 0,
            period: 0,
            volume: 0,
            changes: 0,
            mark: 0,
            closed: 0,
            owed: false,
            lines: Vec::with_capacity(32),
            waiting: Vec::with_capacity(128),
        };
        (session, if bad { Some(4) } else { None })
    }

    pub fn last(&self) -> u32 {
        self.last
    }

    pub fn open(&mut self, t: u32, book: &mut Book) -> Result<(usize, usize), u8> {
        if self.phase != Phase::Fresh {
            return Err(1);
        }
        if t < self.last {
            return Err(3);
        }
        if book.intake() < 1 {
            return Err(10);
        }
        let mut applied = 0;
        for o in &book.profile {
            let Some((_, recategorise, switch)) = rule(self.method, o.trigger) else { continue };
            let limit = (12..=16).contains(&o.trigger);
            if o.switch > 2
                || o.category > 2
                || o.threshold > MOST
                || (o.switch != 0 && !switch)
                || (o.category != 0 && !recategorise)
                || (o.threshold != 0 && !limit)
            {
                continue;
            }
            let g = &mut self.triggers[o.trigger as usize];
            if o.switch != 0 {
                g.enabled = o.switch == 1;
            }
            if o.category != 0 {
                g.immediate = o.category == 2;
            }
            if o.threshold != 0 {
                g.threshold = o.threshold;
            }
            applied += 1;
        }
        let head = self.head(1, 0, 0, t);
        book.take(head, &[]);
        self.phase = Phase::Open;
        self.last = t;
        self.mark = t;
        Ok((applied, book.profile.len() - applied))
    }

    fn head(&self, kind: u8, cause: u8, number: usize, t: u32) -> Entry {
        Entry { kind, cause, period: self.period, number: number as u32, from: t, to: t, code: self.id as u64, up: 0, down: 0 }
    }

    fn ready(&self, t: u32) -> Result<(), u8> {
        if self.phase != Phase::Open {
            return Err(1);
        }
        if t < self.last { Err(3) } else { Ok(()) }
    }

    fn fires(&self, n: usize) -> bool {
        self.triggers[n].enabled && self.triggers[n].threshold > 0
    }

    fn urgent(&self, n: usize) -> bool {
        self.triggers[n].enabled && self.triggers[n].immediate
    }

    #[inline]
    fn find(&self, id: Id) -> Option<usize> {
        self.lines.iter().position(|l| l.id == id)
    }

    fn room(&self, n: usize) -> Result<(), u8> {
        if self.closed + n as u64 > u32::MAX as u64 {
            return Err(8);
        }
        if self.waiting.len() + n > 128 { Err(9) } else { Ok(()) }
    }

    fn close(&mut self, i: usize, cause: u8, t: u32) {
        self.closed += 1;
        let l = &mut self.lines[i];
        self.waiting.push(Entry {
            kind: l.id.kind,
            cause,
            period: self.period,
            number: self.closed as u32,
            from: l.since,
            to: t,
            code: l.id.code,
            up: l.up,
            down: l.down,
        });
        l.since = t;
        l.up = 0;
        l.down = 0;
    }

    fn close_active(&mut self, cause: u8, t: u32) {
        for i in 0..self.lines.len() {
            if self.lines[i].active {
                self.close(i, cause, t);
            }
        }
    }

    fn active(&self) -> usize {
        self.lines.iter().filter(|l| l.active).count()
    }

    fn report(&mut self, due: bool, cause: u8, t: u32, book: &mut Book) -> Due {
        if !(due || self.owed || self.waiting.len() > 96) {
            return Due::Nothing;
        }
        let n = self.waiting.len();
        let head = self.head(2, cause, n, t);
        if book.take(head, &self.waiting) {
            self.waiting.clear();
            self.owed = false;
            Due::Sent(n)
        } else {
            self.owed = true;
            Due::Held(n)
        }
    }

    fn done(&mut self, n: usize, due: bool, cause: u8, t: u32, book: &mut Book) -> Result<(usize, Due), u8> {
        self.last = t;
        Ok((n, self.report(due, cause, t, book)))
    }

    pub fn start(&mut self, id: Option<Id>, t: u32, book: &mut Book) -> Result<(usize, Due), u8> {
        self.ready(t)?;
        let id = id.ok_or(4)?;
        match self.find(id) {
            Some(i) if self.lines[i].active => return Err(5),
            Some(i) => {
                let l = &mut self.lines[i];
                l.active = true;
                l.since = t;
                l.up = 0;
                l.down = 0;
            }
            None if self.lines.len() == 32 => return Err(7),
            None => self.lines.push(Line { id, active: true, since: t, up: 0, down: 0, total_up: 0, total_down: 0 }),
        }
        self.done(0, false, 0, t, book)
    }

    #[inline(never)]
    pub fn usage(&mut self, id: Option<Id>, up: u32, down: u32, t: u32, book: &mut Book) -> Result<(usize, Due), u8> {
        self.ready(t)?;
        let id = id.ok_or(4)?;
        let i = self.find(id).filter(|i| self.lines[*i].active).ok_or(6)?;
        let (up, down) = (up as u64, down as u64);
        let l = self.lines[i];
        if l.total_up + up > MOST || l.total_down + down > MOST {
            return Err(8);
        }
        let volume = self.volume + up + down;
        let session_full = self.fires(13) && volume >= self.triggers[13].threshold;
        let line_full = self.fires(16) && l.up + up + l.down + down >= self.triggers[16].threshold;
        let n = if session_full { self.active() } else { line_full as usize };
        self.room(n)?;
        let l = &mut self.lines[i];
        l.up += up;
        l.down += down;
        l.total_up += up;
        l.total_down += down;
        self.volume = volume;
        if session_full {
            self.close_active(13, t);
            self.volume = 0;
            let urgent = self.urgent(13);
            return self.done(n, urgent, if urgent { 13 } else { 0 }, t, book);
        }
        if line_full {
            self.close(i, 16, t);
            let urgent = self.urgent(16);
            return self.done(n, urgent, if urgent { 16 } else { 0 }, t, book);
        }
        self.done(0, false, 0, t, book)
    }

    pub fn end(&mut self, id: Option<Id>, t: u32, book: &mut Book) -> Result<(usize, Due), u8> {
        self.ready(t)?;
        let id = id.ok_or(4)?;
        let i = self.find(id).filter(|i| self.lines[*i].active).ok_or(6)?;
        self.room(1)?;
        self.close(i, 17, t);
        self.lines[i].active = false;
        let urgent = self.urgent(17);
        self.done(1, urgent, if urgent { 17 } else { 0 }, t, book)
    }

    pub fn change(&mut self, n: u8, t: u32, book: &mut Book) -> Result<(usize, Due), u8> {
        self.ready(t)?;
        if !(1..=11).contains(&n) || rule(self.method, n).is_none() {
            return Err(4);
        }
        if n == 7 && self.period == u16::MAX {
            return Err(8);
        }
        let enabled = self.triggers[n as usize].enabled;
        let closing = if enabled { self.active() } else { 0 };
        self.room(closing)?;
        let mut full = false;
        if enabled {
            self.close_active(n, t);
            if self.fires(14) {
                self.changes += 1;
                if self.changes >= self.triggers[14].threshold {
                    self.changes = 0;
                    full = true;
                }
            }
        }
        if n == 7 {
            self.period += 1;
        }
        let urgent = self.urgent(n as usize);
        let due = urgent || full && self.urgent(14);
        let cause = if full { 14 } else if urgent { n } else { 0 };
        self.done(closing, due, cause, t, book)
    }

    pub fn tick(&mut self, t: u32, book: &mut Book) -> Result<(usize, Due), u8> {
        self.ready(t)?;
        if self.fires(12) && (t - self.mark) as u64 >= self.triggers[12].threshold {
            let n = self.active();
            self.room(n)?;
            self.close_active(12, t);
            self.mark = t;
            let urgent = self.urgent(12);
            return self.done(n, urgent, if urgent { 12 } else { 0 }, t, book);
        }
        if self.fires(15) {
            let limit = self.triggers[15].threshold;
            let old: Vec<usize> =
                (0..self.lines.len()).filter(|i| self.lines[*i].active && (t - self.lines[*i].since) as u64 >= limit).collect();
            self.room(old.len())?;
            for i in &old {
                self.close(*i, 15, t);
            }
            let urgent = self.urgent(15) && !old.is_empty();
            return self.done(old.len(), urgent, if urgent { 15 } else { 0 }, t, book);
        }
        self.done(0, false, 0, t, book)
    }

    pub fn intervene(&mut self, t: u32, book: &mut Book) -> Result<(usize, Due), u8> {
        self.ready(t)?;
        let n = self.active();
        self.room(n)?;
        self.close_active(18, t);
        self.done(n, true, 18, t, book)
    }

    pub fn push(&mut self, t: u32, book: &mut Book) -> Result<(usize, Due), u8> {
        self.ready(t)?;
        self.done(0, true, 0, t, book)
    }

    pub fn finish(&mut self, cause: u8, t: u32, book: &mut Book) -> Result<usize, u8> {
        self.ready(t)?;
        if cause != 19 && cause != 20 {
            return Err(4);
        }
        let n = self.active();
        self.room(n)?;
        let all = self.waiting.len() + n;
        if book.intake() < all + 1 {
            return Err(10);
        }
        self.close_active(cause, t);
        let head = self.head(3, cause, all, t);
        book.take(head, &self.waiting);
        self.waiting.clear();
        self.owed = false;
        self.phase = Phase::Ended;
        self.last = t;
        Ok(all)
    }

    pub fn shelve(&mut self, t: u32) -> Result<usize, u8> {
        self.ready(t)?;
        self.phase = Phase::Shelved;
        self.last = t;
        Ok(self.waiting.len())
    }
}
