//! The link's window: byte addresses from one to another, which is not in it.

#[derive(Clone, Copy, Debug, PartialEq, Eq)]
pub struct Window {
    from: u32,
    to: u32,
}

impl Window {
    /// Whole words inside a memory of so many bytes, one at least.
    pub fn new(from: u32, to: u32, length: u64) -> Option<Window> {
        let whole = from % 4 == 0 && to % 4 == 0;
        (whole && from < to && u64::from(to) <= length).then_some(Window { from, to })
    }

    pub fn holds(&self, address: u32) -> bool {
        (self.from..self.to).contains(&address)
    }
}
