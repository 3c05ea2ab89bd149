//! The machine and its calls (RULES, sections 1 to 3).
//!
//! The lists are as long as the counts say, so that there is nothing past a count or
//! the depth here. No answer of a run depends on it.

pub const READ: u8 = 0;
pub const WRITE: u8 = 1;

pub const DOMAINS: u16 = 16;
pub const MOST_PAGES: usize = 128;
pub const MOST_PROGRAMS: usize = 8;
pub const MOST_SAVED: usize = 8;
pub const MOST_MEMORY: u64 = 65_536;

/// A page number. It is a type of its own, since a grant names a page and a domain.
#[derive(Clone, Copy, PartialEq, Eq, Debug)]
pub struct Page(pub u16);

/// A domain number. The lower it is, the higher the domain's level (RULES 1.4).
#[derive(Clone, Copy, PartialEq, Eq, Debug)]
pub struct Domain(pub u16);

#[derive(Clone, Copy, PartialEq, Eq, Debug)]
pub enum Mode {
    User,
    Privileged,
}

/// How many bytes an access touches.
#[derive(Clone, Copy, PartialEq, Eq, Debug)]
pub enum Width {
    One,
    Two,
}

impl Width {
    /// The bytes touched by an access at an address: that one, or that one and the next (RULES 3.2).
    /// They are counted in 64 bits, so that the byte after the last 32-bit address is just one that
    /// no memory has, and never byte 0.
    pub fn touched(self, address: u32) -> Vec<u64> {
        let first = u64::from(address);
        match self {
            Width::One => vec![first],
            Width::Two => vec![first, first + 1],
        }
    }
}

/// The two fields of a page. Bit s of a field is domain s.
#[derive(Clone, Copy, PartialEq, Eq, Debug)]
pub struct Fields {
    pub read: u16,
    pub write: u16,
}

/// What the table stores for a program.
#[derive(Clone, Copy, PartialEq, Eq, Debug)]
pub struct Program {
    pub context: u16,
    pub mask: u16,
    pub mode: Mode,
}

/// Who was denied what (RULES 1.16). The address is the one that the access named, all of it,
/// since the page alone would not tell which byte was wanted. Of two bytes it is the first one's.
#[derive(Clone, Copy, PartialEq, Eq, Debug)]
pub struct Violation {
    pub program: usize,
    pub right: u8,
    pub address: u32,
}

#[derive(Clone, PartialEq, Eq, Debug)]
pub struct Machine {
    pub exponent: u32,
    /// The page count is its length.
    pub pages: Vec<Fields>,
    pub context: u16,
    pub mask: u16,
    pub mode: Mode,
    pub pending: bool,
    /// The depth is its length; the last saved mode stands last.
    pub saved: Vec<Mode>,
    /// The program count is its length.
    pub programs: Vec<Program>,
    pub current: usize,
    /// None until the first violation after a load (RULES 1.16).
    pub last_violation: Option<Violation>,
}

/// Done or allowed, or the number of the condition that was met first.
pub type Answer = Result<(), u8>;

/// The domain that an answer names, or none (RULES 2.13). Domain 0 is a name like any other, so that
/// no number can stand for none.
pub type Named = Option<Domain>;

fn refuse_if(met: bool, number: u8) -> Answer {
    if met {
        Err(number)
    } else {
        Ok(())
    }
}

/// The lowest-numbered domain in a field, which has the highest level in it.
pub fn prevailing(field: u16) -> Option<Domain> {
    (0..DOMAINS).find(|&s| bit(Domain(s)) & field != 0).map(Domain)
}

/// Only for domains 0 to 15.
pub fn bit(domain: Domain) -> u16 {
    1 << domain.0
}

impl Machine {
    /// What a refused load gives: every number zero, every mode user, the flag clear, no violation.
    pub fn all_zero() -> Machine {
        Machine {
            exponent: 0,
            pages: Vec::new(),
            context: 0,
            mask: 0,
            mode: Mode::User,
            pending: false,
            saved: Vec::new(),
            programs: Vec::new(),
            current: 0,
            last_violation: None,
        }
    }

    pub fn page_size(&self) -> u64 {
        1 << self.exponent
    }

    pub fn memory(&self) -> u64 {
        self.pages.len() as u64 * self.page_size()
    }

    pub fn local_context(&self) -> u16 {
        self.context & self.mask
    }

    pub fn privileged(&self) -> bool {
        self.mode == Mode::Privileged
    }

    pub fn depth(&self) -> usize {
        self.saved.len()
    }

    /// The page that has a byte. Only for a byte in memory.
    pub fn page_of(&self, byte: u64) -> Page {
        Page((byte / self.page_size()) as u16)
    }

    /// Whether the page of a byte gives a right through the local context. Only for a right of 0
    /// or 1 and a byte in memory.
    pub fn gives(&self, right: u8, byte: u64) -> bool {
        self.field(right, self.page_of(byte)) & self.local_context() != 0
    }

    /// The domain through which the page of a byte gives a right: the highest level among those that
    /// the field and the local context both hold (RULES 1.17). It is none where they share none. The
    /// domains are asked one after another, from the highest level down, for each of the three words
    /// that must hold them: the search for the prevailing domain sees the field alone and is of no
    /// use here. Only for a right of 0 or 1 and a byte in memory.
    pub fn giver(&self, right: u8, byte: u64) -> Named {
        let field = self.field(right, self.page_of(byte));
        for s in 0..DOMAINS {
            let domain = Domain(s);
            let held_by = |word: u16| word & bit(domain) != 0;
            if held_by(field) && held_by(self.context) && held_by(self.mask) {
                return Some(domain);
            }
        }
        None
    }

    /// Only for a right of 0 or 1 and a page below the page count.
    pub fn field(&self, right: u8, page: Page) -> u16 {
        let fields = &self.pages[page.0 as usize];
        if right == READ {
            fields.read
        } else {
            fields.write
        }
    }

    fn set_field(&mut self, right: u8, page: Page, bits: u16) {
        let fields = &mut self.pages[page.0 as usize];
        if right == READ {
            fields.read = bits;
        } else {
            fields.write = bits;
        }
    }

    /// A loaded machine is sound and every call keeps it so; the check stands
    /// in every call because the rules have it there (RULES 2.4).
    pub fn sound(&self) -> bool {
        (1..=MOST_PAGES).contains(&self.pages.len())
            && (5..=12).contains(&self.exponent)
            && self.memory() <= MOST_MEMORY
            && self.depth() <= MOST_SAVED
            && (1..=MOST_PROGRAMS).contains(&self.programs.len())
            && self.current < self.programs.len()
            && !(self.pending && self.privileged())
            && self.last_violation.is_none_or(|violation| self.could_meet(violation))
    }

    /// Whether a stored violation names a program, a right and a byte of this machine (RULES 1.11).
    fn could_meet(&self, violation: Violation) -> bool {
        violation.program < self.programs.len()
            && (violation.right == READ || violation.right == WRITE)
            && u64::from(violation.address) < self.memory()
    }

    fn refuse_unsound(&self) -> Answer {
        refuse_if(!self.sound(), 1)
    }

    fn refuse_right(&self, right: u8) -> Answer {
        refuse_if(right != READ && right != WRITE, 2)
    }

    fn refuse_page(&self, page: Page) -> Answer {
        refuse_if(page.0 as usize >= self.pages.len(), 4)
    }

    fn refuse_in_privileged_mode(&self) -> Answer {
        refuse_if(self.privileged(), 6)
    }

    fn refuse_in_user_mode(&self) -> Answer {
        refuse_if(!self.privileged(), 7)
    }

    fn refuse_pending(&self) -> Answer {
        refuse_if(self.pending, 8)
    }

    /// An access of either width: one rule over the list of bytes it touches (RULES 3.2, 3.3). Each
    /// byte's page is asked by itself, so that what one page gives is of no use to the other. Where
    /// it is allowed it names the domain that gave it (RULES 2.13).
    pub fn access(&mut self, width: Width, right: u8, address: u32) -> Result<Named, u8> {
        let touched = width.touched(address);
        self.refuse_unsound()?;
        self.refuse_right(right)?;
        refuse_if(touched.iter().any(|&byte| byte >= self.memory()), 3)?;
        if self.privileged() {
            // No page was asked, so no domain gave anything, whatever the context shares with a field.
            return Ok(None);
        }
        self.refuse_pending()?;
        if !touched.iter().all(|&byte| self.gives(right, byte)) {
            // The only place that sets it: a later violation takes the place of an earlier one. There
            // is one for the access as a whole, at its first byte, whichever page denied it.
            self.last_violation = Some(Violation { program: self.current, right, address });
            self.pending = true;
            return Err(9);
        }
        // Of two bytes the first one's page speaks, also where the other page has a higher domain.
        Ok(self.giver(right, touched[0]))
    }

    /// Grant and revoke refuse alike.
    fn refuse_command(&self, right: u8, page: Page, domain: Domain) -> Answer {
        self.refuse_unsound()?;
        self.refuse_right(right)?;
        self.refuse_page(page)?;
        refuse_if(domain.0 >= DOMAINS, 5)?;
        self.refuse_in_privileged_mode()?;
        self.refuse_pending()?;
        // The whole field is looked at, never only what a context has of it (RULES 1.8).
        let Some(highest) = prevailing(self.field(right, page)) else {
            return Err(11);
        };
        refuse_if(bit(highest) & self.local_context() == 0, 11)?;
        refuse_if(domain.0 <= highest.0, 12)
    }

    pub fn grant(&mut self, right: u8, page: Page, domain: Domain) -> Answer {
        self.refuse_command(right, page, domain)?;
        self.set_field(right, page, self.field(right, page) | bit(domain));
        Ok(())
    }

    pub fn revoke(&mut self, right: u8, page: Page, domain: Domain) -> Answer {
        self.refuse_command(right, page, domain)?;
        self.set_field(right, page, self.field(right, page) & !bit(domain));
        Ok(())
    }

    /// A program may not take all its domains from itself: the mistake would show only later, where it
    /// wants to access something (RULES 3.8). What counts is the whole global context of now. The mask
    /// before does not, so that domains that were masked out can come back. With an empty context every
    /// mask is refused. Bits outside the context do no harm and are kept (RULES 3.9).
    pub fn mask_command(&mut self, mask: u16) -> Answer {
        self.refuse_unsound()?;
        self.refuse_in_privileged_mode()?;
        self.refuse_pending()?;
        refuse_if(mask & self.context == 0, 19)?;
        self.mask = mask;
        Ok(())
    }

    pub fn interrupt_entry(&mut self) -> Answer {
        self.refuse_unsound()?;
        refuse_if(self.depth() == MOST_SAVED, 13)?;
        self.saved.push(self.mode);
        self.mode = Mode::Privileged;
        self.pending = false;
        Ok(())
    }

    pub fn return_from_interrupt(&mut self) -> Answer {
        self.refuse_unsound()?;
        self.refuse_in_user_mode()?;
        self.mode = self.saved.pop().ok_or(14)?;
        Ok(())
    }

    /// A sound machine has an entry for its current program. So the first check also guards the store
    /// below, and the current program needs no check of its own (RULES 3.14, 9.2).
    pub fn switch(&mut self, named: u16) -> Answer {
        self.refuse_unsound()?;
        self.refuse_in_user_mode()?;
        refuse_if(self.depth() != 1, 15)?;
        refuse_if(named as usize >= self.programs.len(), 16)?;
        // The saved mode is the program's own; the live one is the kernel's.
        self.programs[self.current] = Program { context: self.context, mask: self.mask, mode: self.saved[0] };
        // Read after the store, so that a program that is switched to itself keeps its registers (RULES 3.15).
        let next = self.programs[named as usize];
        self.context = next.context;
        self.mask = next.mask;
        self.saved[0] = next.mode;
        self.current = named as usize;
        Ok(())
    }

    pub fn store_field(&mut self, right: u8, page: Page, bits: u16) -> Answer {
        self.refuse_unsound()?;
        self.refuse_right(right)?;
        self.refuse_page(page)?;
        self.refuse_in_user_mode()?;
        self.set_field(right, page, bits);
        Ok(())
    }

    pub fn store_context(&mut self, context: u16) -> Answer {
        self.refuse_unsound()?;
        self.refuse_in_user_mode()?;
        self.context = context;
        Ok(())
    }

    /// The kernel knows what it does: a mask that shares nothing with the context is stored like any
    /// other (RULES 3.20, 3.21).
    pub fn store_mask(&mut self, mask: u16) -> Answer {
        self.refuse_unsound()?;
        self.refuse_in_user_mode()?;
        self.mask = mask;
        Ok(())
    }

    pub fn store_mode(&mut self, number: u16) -> Answer {
        self.refuse_unsound()?;
        let mode = match number {
            0 => Mode::User,
            1 => Mode::Privileged,
            _ => return Err(17),
        };
        self.refuse_in_user_mode()?;
        self.mode = mode;
        Ok(())
    }

    /// The question for the last violation: what it hands out, or the number that refuses it
    /// (RULES 3.24, 3.25). It only looks, so that it can be asked again and again.
    pub fn question(&self) -> Result<Option<Violation>, u8> {
        self.refuse_unsound()?;
        self.refuse_in_user_mode()?;
        Ok(self.last_violation)
    }
}
