//! Legal images, and calls chosen by following the oracle's own machine, so that every
//! answer that can occur does occur often.

use crate::image::load;
use crate::machine::{bit, prevailing, Machine, Page, MOST_SAVED};
use crate::random::Random;
use crate::run::{step, LAST_KIND, RECORD};
use crate::write::*;

/// A legal image, about so many calls, and at times a remainder.
pub fn legal(random: &mut Random, calls: usize) -> Vec<u8> {
    let plan = legal_plan(random);
    let image = plan.image();
    let mut rest = history(random, &image, calls);
    if random.chance(30) {
        let left = random.between(1, 5);
        rest.extend((0..left).map(|_| random.byte()));
    }
    input(&image, &rest)
}

/// The same, but that fields, contexts and masks share several domains as often as not, and that
/// many calls are accesses that name one: where one domain alone is shared, every way of choosing
/// it gives the same.
pub fn naming(random: &mut Random, calls: usize) -> Vec<u8> {
    let mut plan = legal_plan(random);
    // The edges of a few pages are enough, and leave room for calls.
    if random.chance(80) {
        plan.pages.truncate(12);
    }
    for (read, write) in &mut plan.pages {
        (*read, *write) = (several(random, *read), several(random, *write));
    }
    for (context, mask, _) in &mut plan.programs {
        (*context, *mask) = (several(random, *context), several(random, *mask));
    }
    let image = plan.image();
    let mut rest = namings(random, &image, calls);
    if random.chance(20) {
        let left = random.between(1, 5);
        rest.extend((0..left).map(|_| random.byte()));
    }
    input(&image, &rest)
}

/// A set of several domains, often without those of highest level, or the given one.
fn several(random: &mut Random, given: u16) -> u16 {
    match random.below(4) {
        0 => given,
        1 => random.word(),
        _ => random.word() & (0xFFFF << random.below(14)),
    }
}

/// Sets of domains. Most are drawn from a few domains, so that fields and contexts overlap.
#[derive(Clone, Copy)]
struct Pool(u16);

impl Pool {
    fn new(random: &mut Random) -> Pool {
        let mut domains = 0;
        for _ in 0..random.between(1, 7) {
            domains |= 1 << random.below(16);
        }
        Pool(domains)
    }

    fn bits(self, random: &mut Random) -> u16 {
        match random.below(12) {
            0 => 0,
            1 => 0xFFFF,
            2 => random.word(),
            3 => 1 << random.below(16),
            4 => random.word() & random.word(),
            5 => self.0,
            6 => self.0 | 1 << random.below(16),
            7 => !self.0,
            _ => self.0 & random.word(),
        }
    }
}

pub fn legal_plan(random: &mut Random) -> Plan {
    let pool = Pool::new(random);
    let exponent = random.between(5, 12);
    let most = 128.min(65_536 >> exponent);
    let page_count = match random.below(8) {
        0 => 1,
        1 => most,
        2 => random.between(1, most),
        _ => random.between(1, 8.min(most)),
    };
    let program_count = match random.below(6) {
        0 => 1,
        1 => 8,
        _ => random.between(1, 8),
    };
    let pages = (0..page_count).map(|_| (pool.bits(random), pool.bits(random))).collect();
    let programs = (0..program_count)
        .map(|_| {
            let mask = if random.chance(50) { 0xFFFF } else { pool.bits(random) };
            (pool.bits(random), mask, u8::from(random.chance(15)))
        })
        .collect();
    Plan { exponent: exponent as u8, pages, programs }
}

/// Records chosen one by one, each after the machine that the one before left.
pub fn history(random: &mut Random, image: &[u8], calls: usize) -> Vec<u8> {
    let machine = load(image).expect("the image is legal");
    let pool = Pool::new(random);
    // The image's domains matter most; a pool of their union keeps stores in touch with them.
    let seen = machine.programs.iter().fold(0, |all, program| all | program.context);
    let pool = if random.chance(80) { Pool(seen) } else { pool };
    let nesting = random.chance(15);
    let sinking = random.chance(25);
    let mut history = History { random, machine, pool, nesting, sinking, records: Vec::new() };
    for _ in 0..calls {
        // In user mode at depth 8 with the flag set nothing can change any more.
        if history.stuck() && history.random.chance(25) {
            break;
        }
        if history.random.chance(3) {
            history.denial();
        } else {
            history.one_call();
        }
    }
    if calls > 0 && history.random.chance(50) {
        if history.random.chance(50) {
            history.show_fields();
        }
        history.show_programs();
        history.show_fields();
    }
    history.records
}

/// A short list of records that change much, and that more often than not leaves the machine
/// as a load does: on program 0, at depth 0, with the flag clear. Nothing is shown by accesses
/// afterwards, since the writer shows it all but the last violation, which the questions show.
pub fn changes(random: &mut Random, image: &[u8], calls: usize) -> Vec<u8> {
    let machine = load(image).expect("the image is legal");
    let pool = Pool::new(random);
    let (nesting, sinking) = (random.chance(10), random.chance(5));
    let mut history = History { random, machine, pool, nesting, sinking, records: Vec::new() };
    while history.records.len() < calls * RECORD {
        match history.random.below(100) {
            0..=17 => history.visit(),
            18..=32 => history.denial(),
            _ => history.one_call(),
        }
    }
    if history.random.chance(60) {
        history.come_to_rest();
    }
    history.records
}

/// Records among which accesses that name a domain are frequent, each followed at times by any other.
fn namings(random: &mut Random, image: &[u8], calls: usize) -> Vec<u8> {
    let machine = load(image).expect("the image is legal");
    let pool = Pool(random.word());
    let mut history = History { random, machine, pool, nesting: false, sinking: false, records: Vec::new() };
    while history.records.len() < calls * RECORD && !history.stuck() {
        match history.random.below(100) {
            0..=2 => history.denial(),
            3..=19 => history.visit(),
            20..=59 => history.named_access(),
            _ => history.one_call(),
        }
    }
    history.records
}

struct History<'a> {
    random: &'a mut Random,
    machine: Machine,
    pool: Pool,
    /// Whether entries are to pile up.
    nesting: bool,
    /// Whether the mode store is to go to user mode above depth 0 as often as not.
    /// No return leads below that depth again, so most runs keep away from it.
    sinking: bool,
    records: Vec<u8>,
}

const ENTRY: usize = 4;
const RETURN: usize = 5;

impl History<'_> {
    fn put(&mut self, record: Record) -> u8 {
        self.records.extend(record);
        step(&mut self.machine, &record).number()
    }

    fn stuck(&self) -> bool {
        self.machine.depth() == MOST_SAVED && self.machine.pending
    }

    fn one_call(&mut self) {
        // Access of one byte, grant, revoke, mask, entry, return, switch, the four stores, the question,
        // access of two bytes, an unknown kind.
        let mut weights = match (self.machine.privileged(), self.machine.pending, self.machine.depth()) {
            (false, false, _) => [18, 14, 14, 8, 9, 2, 3, 3, 2, 2, 3, 2, 18, 1],
            (false, true, _) => [4, 3, 3, 3, 20, 1, 1, 1, 1, 1, 2, 2, 4, 1],
            (true, _, 0) => [3, 2, 2, 2, 8, 3, 4, 5, 3, 3, 8, 4, 3, 1],
            (true, _, 1) => [3, 2, 2, 2, 4, 16, 16, 5, 3, 3, 3, 7, 3, 1],
            (true, _, _) => [3, 2, 2, 2, 6, 14, 4, 4, 2, 2, 3, 4, 3, 1],
        };
        if self.nesting {
            weights[ENTRY] *= 6;
            weights[RETURN] = weights[RETURN] / 2 + 1;
        }
        let kind = self.random.weighted(&weights) as u8 + 1;
        let record = match kind {
            1 | 13 => self.an_access(kind),
            2 | 3 => self.a_grant_or_revoke(kind),
            4 => mask(self.a_mask()),
            9 | 10 => record(kind, 0, 0, self.pool.bits(self.random)),
            5 | 6 => record(kind, 0, 0, 0),
            7 => record(kind, 0, 0, self.a_program()),
            8 => record(kind, self.a_right(), self.a_page(), self.pool.bits(self.random)),
            11 => record(kind, 0, 0, self.a_mode()),
            12 => question(),
            _ => record(self.an_unknown_kind(), self.random.byte(), self.random.word(), self.random.word()),
        };
        let record = self.with_noise(record);
        self.put(record);
    }

    /// Fills the unused parts of a record, which are to be ignored.
    fn with_noise(&mut self, mut record: Record) -> Record {
        if self.random.chance(40) {
            let unused = match record[0] {
                4 | 7 | 9 | 10 | 11 => 1..4,
                5 | 6 | 12 => 1..6,
                _ => 1..1,
            };
            record[unused].fill_with(|| self.random.byte());
        }
        record
    }

    fn a_right(&mut self) -> u8 {
        if self.random.chance(94) {
            self.random.below(2) as u8
        } else {
            let other = self.random.between(2, 255) as u8;
            self.random.pick(&[2, 3, 128, 129, 255, other])
        }
    }

    /// A number that is not below `limit`, often one that is below it in one byte alone.
    fn too_large(&mut self, limit: usize) -> u16 {
        let below = self.random.below(limit);
        let uniform = self.random.word() | 0x8000;
        self.random.pick(&[
            limit as u16,
            limit as u16 + 1,
            65_535,
            256 + below as u16,
            (below as u16 + 1) << 8,
            uniform,
        ])
    }

    fn a_page(&mut self) -> u16 {
        let count = self.machine.pages.len();
        match self.random.below(20) {
            0 => self.too_large(count),
            1 => count as u16,
            2 => count as u16 - 1,
            _ => self.random.below(count) as u16,
        }
    }

    fn a_program(&mut self) -> u16 {
        let count = self.machine.programs.len();
        match self.random.below(10) {
            0 => self.too_large(count),
            1 => count as u16,
            2 => self.machine.current as u16,
            _ => self.random.below(count) as u16,
        }
    }

    /// A mask for the mask command. Of those that share nothing with the context half get one of its
    /// domains, if it has any: masks that are done stay the greater part, and many share just enough.
    fn a_mask(&mut self) -> u16 {
        let bits = self.pool.bits(self.random);
        if bits & self.machine.context == 0 && self.random.chance(50) {
            bits | self.one_of(self.machine.context)
        } else {
            bits
        }
    }

    fn a_mode(&mut self) -> u16 {
        if self.machine.depth() > 0 && !self.sinking && self.random.chance(90) {
            return self.random.pick(&[1, 1, 1, 2, 256, 257, 65_535]);
        }
        match self.random.below(10) {
            0 => self.random.pick(&[2, 3, 255, 256, 257, 512, 0x8000, 65_535]),
            1 => self.random.word(),
            2..=3 => 1,
            _ => 0,
        }
    }

    /// 0, or a kind past the last one.
    fn an_unknown_kind(&mut self) -> u8 {
        let known = self.random.between(1, LAST_KIND.into()) as u8;
        let next = LAST_KIND + 1;
        let other = self.random.between(next.into(), 255) as u8;
        self.random.pick(&[0, next, next + 1, 255, 128 + known, 16 + known, other])
    }

    /// A page and right with the wanted property, searched from a random place on.
    fn search(&mut self, wanted: impl Fn(&Machine, u16) -> bool) -> Option<(u8, u16)> {
        let places = 2 * self.machine.pages.len();
        let start = self.random.below(places);
        for n in 0..places {
            let place = (start + n) % places;
            let (right, page) = ((place % 2) as u8, (place / 2) as u16);
            if wanted(&self.machine, self.machine.field(right, Page(page))) {
                return Some((right, page));
            }
        }
        None
    }

    /// A right and an edge, as the number of the page behind it, of which the page in front and the
    /// page behind give what is wanted, searched from a random place on. One page has no edge.
    fn search_edge(&mut self, wanted: (bool, bool)) -> Option<(u8, u32)> {
        self.search_edge_where(|machine, right, behind| {
            (machine.gives(right, behind - 1), machine.gives(right, behind)) == wanted
        })
    }

    /// A right and an edge with the wanted property, which is asked with the first byte behind it.
    fn search_edge_where(&mut self, wanted: impl Fn(&Machine, u8, u64) -> bool) -> Option<(u8, u32)> {
        let edges = self.machine.pages.len() as u32 - 1;
        if edges == 0 {
            return None;
        }
        let size = self.machine.page_size();
        let (start, first_right) = (self.random.below(edges as usize) as u32, self.random.below(2) as u8);
        for n in 0..2 * edges {
            let (right, edge) = ((first_right + (n / edges) as u8) % 2, 1 + (start + n) % edges);
            let behind = u64::from(edge) * size;
            if wanted(&self.machine, right, behind) {
                return Some((right, edge));
            }
        }
        None
    }

    /// An access of one byte or of two, kind 1 or kind 13.
    fn an_access(&mut self, kind: u8) -> Record {
        let memory = self.machine.memory() as usize;
        match self.random.below(24) {
            0..=2 => return access_of_kind(kind, self.a_right(), self.an_address_at_the_end()),
            3..=5 => return access_of_kind(kind, self.a_right(), self.random.below(memory) as u32),
            6..=8 => return access_of_kind(kind, self.a_right(), self.an_address_at_an_edge()),
            _ => {}
        }
        if kind == 13 && self.random.chance(75) {
            // Across an edge. Where no edge has what is wanted, one is taken whose pages differ, if there is one.
            let (both_give, first_gives, second_gives, neither_gives) =
                ((true, true), (true, false), (false, true), (false, false));
            let wanted = self.random.pick(&[both_give, both_give, both_give, first_gives, second_gives, neither_gives]);
            let tried = [wanted, first_gives, second_gives, both_give, neither_gives];
            if let Some((right, edge)) = tried.into_iter().find_map(|wanted| self.search_edge(wanted)) {
                return access_two(right, edge * self.machine.page_size() as u32 - 1);
            }
        }
        let open = self.search(|machine, field| field & machine.local_context() != 0);
        let shut = self.search(|machine, field| field & machine.local_context() == 0);
        let found = if self.random.chance(75) { open.or(shut) } else { shut.or(open) };
        let (right, page) = found.expect("every field is one or the other");
        access_of_kind(kind, right, self.address_in(page))
    }

    /// An access in user mode with the flag clear, if that can be reached, to a field that shares
    /// domains with the local context, if there is one; often under a new mask.
    fn named_access(&mut self) {
        if self.machine.pending && self.put(entry_call()) != 0 {
            return;
        }
        self.enter_user_mode();
        if self.random.chance(40) {
            let bits = several(self.random, 0xFFFF);
            self.put(mask(bits));
        }
        let record = self.a_named_access();
        if let Some(record) = record {
            self.put(record);
        }
    }

    /// Of two bytes across an edge where its pages give through different domains, or of one page.
    fn a_named_access(&mut self) -> Option<Record> {
        if self.random.chance(40) {
            let found = self.search_edge_where(|machine, right, behind| {
                let both = machine.giver(right, behind - 1).zip(machine.giver(right, behind));
                both.is_some_and(|(first, second)| first != second)
            });
            if let Some((right, edge)) = found {
                return Some(access_two(right, edge * self.machine.page_size() as u32 - 1));
            }
        }
        let (right, page) = self.search(|machine, field| field & machine.local_context() != 0)?;
        Some(self.an_access_within(right, page))
    }

    /// An address in a page, often its first, its last or its last but one.
    fn address_in(&mut self, page: u16) -> u32 {
        let size = self.machine.page_size() as u32;
        let inside = self.random.below(size as usize) as u32;
        u32::from(page) * size + self.random.pick(&[0, size - 1, size - 2, inside])
    }

    /// One of the two bytes in front of an edge, or the byte behind it. Where memory has one page
    /// alone its end is the edge.
    fn an_address_at_an_edge(&mut self) -> u32 {
        let edges = (self.machine.pages.len() - 1).max(1);
        let edge = self.random.between(1, edges) as u32;
        edge * self.machine.page_size() as u32 - self.random.pick(&[0, 1, 2])
    }

    /// An address at the end of memory, past it, or at the end of all addresses.
    fn an_address_at_the_end(&mut self) -> u32 {
        let memory = self.machine.memory() as u32;
        let inside = self.random.below(memory as usize) as u32;
        let far = (self.random.word() as u32) << 16;
        let near = self.random.between(1, 300) as u32;
        self.random.pick(&[
            memory - 2,
            memory - 1,
            memory - 1,
            memory,
            memory,
            memory + near,
            0x1_0000 | inside,
            far | inside,
            0x0100_0000 | inside,
            far,
            u32::MAX - 1,
            u32::MAX,
        ])
    }

    /// An access to a page and to no other, of one byte or of two.
    fn an_access_within(&mut self, right: u8, page: u16) -> Record {
        let size = self.machine.page_size() as u32;
        let start = u32::from(page) * size;
        if self.random.chance(50) {
            return access(right, self.address_in(page));
        }
        let inside = self.random.below(size as usize - 1) as u32;
        access_two(right, start + self.random.pick(&[0, 1, size - 2, inside]))
    }

    fn a_grant_or_revoke(&mut self, kind: u8) -> Record {
        let held = self.search(|machine, field| {
            prevailing(field).is_some_and(|highest| bit(highest) & machine.local_context() != 0)
        });
        let (right, page) = match held {
            Some(place) if self.random.chance(75) => place,
            _ => (self.a_right(), self.a_page()),
        };
        let known = right < 2 && (page as usize) < self.machine.pages.len();
        let highest = if known { prevailing(self.machine.field(right, Page(page))) } else { None };
        let highest = highest.map_or(0, |domain| domain.0);
        let domain = match self.random.below(20) {
            0 => self.too_large(16),
            1 => 16,
            2..=3 => highest,
            4 => self.random.between(0, highest as usize) as u16,
            5..=6 => highest + 1,
            7..=8 => self.random.below(16) as u16,
            _ => self.random.between((highest as usize + 1).min(15), 15) as u16,
        };
        record(kind, right, page, domain)
    }

    /// Goes to privileged mode, or says that it cannot be reached.
    fn enter_privileged_mode(&mut self) -> bool {
        self.machine.privileged() || self.put(entry_call()) == 0
    }

    /// Goes to user mode, by returns as far as they lead.
    fn enter_user_mode(&mut self) {
        while self.machine.privileged() && self.machine.depth() > 0 {
            self.put(return_call());
        }
        if self.machine.privileged() {
            self.put(store_mode(0));
        }
    }

    /// Accesses that tell what some fields hold: one of its domains alone, or all others.
    fn show_fields(&mut self) {
        for _ in 0..self.random.between(1, 16) {
            if !self.enter_privileged_mode() {
                return;
            }
            let page = self.random.below(self.machine.pages.len()) as u16;
            let right = self.random.below(2) as u8;
            let domains = self.one_or_others(self.machine.field(right, Page(page)));
            self.put(store_context(domains));
            self.put(store_mask(0xFFFF));
            self.enter_user_mode();
            let record = self.an_access_within(right, page);
            self.put(record);
        }
    }

    /// Turns of the programs, with accesses that tell the context or the mask each has.
    fn show_programs(&mut self) {
        for _ in 0..self.random.between(1, 12) {
            if !self.enter_privileged_mode() {
                return;
            }
            while self.machine.privileged() && self.machine.depth() > 1 {
                self.put(return_call());
            }
            if !self.enter_privileged_mode() {
                return;
            }
            if self.machine.depth() == 0 {
                self.put(entry_call());
            }
            let program = self.random.below(self.machine.programs.len()) as u16;
            self.put(switch(program));
            let show_context = self.random.chance(50);
            let shown = if show_context { self.machine.context } else { self.machine.mask };
            let field = self.one_or_others(shown);
            let page = self.random.below(self.machine.pages.len()) as u16;
            let right = self.random.below(2) as u8;
            if self.random.chance(70) {
                self.put(store_field(right, page, field));
                self.put(if show_context { store_mask(0xFFFF) } else { store_context(0xFFFF) });
            }
            self.put(return_call());
            let record = self.an_access_within(right, page);
            self.put(record);
        }
    }

    /// A turn of some program with kernel stores in it, as far as the depth allows one.
    fn visit(&mut self) {
        if self.machine.depth() == 0 {
            self.put(entry_call());
        }
        if self.random.chance(40) {
            self.some_stores();
        }
        let program = self.random.below(self.machine.programs.len()) as u16;
        self.put(switch(program));
        if self.random.chance(40) {
            self.some_stores();
        }
        self.put(return_call());
        if self.random.chance(40) {
            let bits = self.a_mask();
            self.put(mask(bits));
        }
    }

    /// A turn of some program in which it is denied something where it can be, and questions in
    /// the interrupt after it. What may come between is to leave the last violation as it was.
    fn denial(&mut self) {
        if self.machine.depth() == 0 && self.random.chance(70) {
            let count = self.machine.programs.len();
            let any = self.random.below(count);
            let program = self.random.pick(&[any, any, any, count - 1]);
            self.put(entry_call());
            self.put(switch(program as u16));
            self.put(return_call());
        }
        let record = self.a_denied_access();
        if let Some(record) = record {
            self.put(record);
        }
        if self.random.chance(20) {
            self.ask();
        }
        if self.random.chance(40) {
            self.one_call();
        }
        if !self.enter_privileged_mode() {
            return;
        }
        self.ask();
        if self.random.chance(50) {
            match self.random.below(4) {
                0 => self.some_stores(),
                1 => {
                    let program = self.a_program();
                    self.put(switch(program));
                }
                _ => self.one_call(),
            }
            self.ask();
        }
        if self.random.chance(80) {
            self.put(return_call());
        }
    }

    /// An access that user mode is denied, if there is one: of two bytes where one of two pages or
    /// both deny it, or of one byte or two of one page.
    fn a_denied_access(&mut self) -> Option<Record> {
        let size = self.machine.page_size() as u32;
        if self.random.chance(50) {
            let first = self.random.pick(&[(true, false), (false, true), (false, false)]);
            let tried = [first, (true, false), (false, true)];
            if let Some((right, edge)) = tried.into_iter().find_map(|wanted| self.search_edge(wanted)) {
                return Some(access_two(right, edge * size - 1));
            }
        }
        let (right, page) = self.search(|machine, field| field & machine.local_context() == 0)?;
        // Any place in the page, so that the page in place of the address would show.
        let kind = self.random.pick(&[1, 1, 1, 13]);
        let places = if kind == 1 { size } else { size - 1 };
        let place = self.random.below(places as usize) as u32;
        Some(access_of_kind(kind, right, u32::from(page) * size + place))
    }

    fn ask(&mut self) {
        let record = self.with_noise(question());
        self.put(record);
    }

    fn some_stores(&mut self) {
        for _ in 0..self.random.between(1, 3) {
            let bits = self.pool.bits(self.random);
            let record = match self.random.below(5) {
                0..=1 => store_context(bits),
                2 => store_mask(bits),
                _ => store_field(self.random.below(2) as u8, self.a_page(), bits),
            };
            self.put(record);
        }
    }

    /// Goes to program 0 at depth 0 with the flag clear. From user mode above depth 0 no call
    /// leads there; such a machine stays as it is.
    fn come_to_rest(&mut self) {
        while self.machine.privileged() && self.machine.depth() > 1 {
            self.put(return_call());
        }
        if !self.machine.privileged() && self.machine.depth() > 0 {
            return;
        }
        let away = self.machine.current != 0 || self.machine.depth() > 0 || self.machine.pending;
        if away || self.random.chance(30) {
            if self.machine.depth() == 0 {
                self.put(entry_call());
            }
            if self.machine.current != 0 || self.random.chance(20) {
                self.put(switch(0));
            }
            // What is stored after the switch is in the live registers alone.
            if self.random.chance(50) {
                self.some_stores();
            }
            self.put(return_call());
        }
        if self.random.chance(40) {
            // In privileged mode the kernel's store does what the command may not.
            let record =
                if self.machine.privileged() { store_mask(self.pool.bits(self.random)) } else { mask(self.a_mask()) };
            self.put(record);
        }
        if self.machine.privileged() && self.random.chance(30) {
            self.put(store_mode(0));
        }
    }

    fn one_or_others(&mut self, bits: u16) -> u16 {
        if bits == 0 || self.random.chance(50) {
            return !bits;
        }
        self.one_of(bits)
    }

    /// One of these domains, or nothing where there is none.
    fn one_of(&mut self, bits: u16) -> u16 {
        if bits == 0 {
            return 0;
        }
        loop {
            let one = 1 << self.random.below(16);
            if bits & one != 0 {
                return one;
            }
        }
    }
}
