//! The calls of libslot.a that this example makes. include/slot_core.h describes them; compare/header holds these
//! declarations to the source.

pub const CORE_PC: usize = 15;
pub const CORE_DATUM: usize = 25;
pub const CORE_RETIRED: usize = 29;
pub const CORE_SUM_N: usize = 33;
pub const CORE_SUM_S: usize = 35;
pub const CORE_SUM_I: usize = 37;
pub const CORE_WORDS: usize = 39;

extern "C" {
    fn slot_abi_2() -> u32;
    fn slot_core_start(core: *mut u32, registers: *const u32, flags: u32, entry: u32, memory: *const u8, length: usize) -> u32;
    fn slot_core_run(core: *mut u32, memory: *mut u8, length: usize, budget: u64, used: *mut u64) -> u32;
    fn slot_core_store(core: *const u32, address: *mut u32) -> u32;
}

pub struct Core {
    pub words: [u32; CORE_WORDS],
}

/// What the coming cycle stores.
pub struct Store {
    pub address: u32,
    pub bytes: u32,
    pub datum: u32,
}

impl Core {
    /// A core at 0 with zero registers and flags, or the number that it is refused with.
    pub fn start(memory: &[u8]) -> Result<Core, u32> {
        let mut words = [0; CORE_WORDS];
        // SAFETY: each array has the length that the header gives, and nothing overlaps. The layout is that of number 2:
        // an archive of another number has no slot_abi_2, and the program does not link.
        let answer = unsafe {
            assert_eq!(slot_abi_2(), 2);
            slot_core_start(words.as_mut_ptr(), [0; 15].as_ptr(), 0, 0, memory.as_ptr(), memory.len())
        };
        if answer == 0 {
            Ok(Core { words })
        } else {
            Err(answer)
        }
    }

    /// One cycle: the answer, and the cycles used.
    pub fn cycle(&mut self, memory: &mut [u8]) -> (u32, u64) {
        let mut used = 0;
        // SAFETY: as above.
        let answer = unsafe { slot_core_run(self.words.as_mut_ptr(), memory.as_mut_ptr(), memory.len(), 1, &mut used) };
        (answer, used)
    }

    /// What the coming cycle stores, if it does.
    pub fn coming_store(&self) -> Option<Store> {
        let mut address = 0;
        // SAFETY: as above.
        let bytes = unsafe { slot_core_store(self.words.as_ptr(), &mut address) };
        let datum = self.words[CORE_DATUM];
        match bytes {
            0 => None,
            1 => Some(Store { address, bytes, datum: datum % 256 }),
            _ => Some(Store { address, bytes, datum }),
        }
    }

    /// The address of the next instruction, at a boundary.
    pub fn next_address(&self) -> u32 {
        self.words[CORE_PC].wrapping_sub(8) % (1 << 26)
    }

    /// A count: its low word and the next.
    fn count(&self, low: usize) -> u64 {
        u64::from(self.words[low + 1]) << 32 | u64::from(self.words[low])
    }

    pub fn retired(&self) -> u64 {
        self.count(CORE_RETIRED)
    }

    /// The ticks of the start's refill and of all instructions done, by the header's way.
    pub fn ticks(&self) -> u64 {
        2 * self.count(CORE_SUM_N) + self.count(CORE_SUM_S) + self.count(CORE_SUM_I)
    }
}
