//! A run of the core whose stores into a window are folded into a summary.

use super::summary::Summary;
use super::window::Window;
use crate::answers::{BAD_WINDOW, FINE};
use crate::pipeline::Core;
use crate::stores::watch;

impl Core {
    /// The answer, the cycles used and the core afterwards, as `run` has them; refused, the summary
    /// stays.
    pub fn rate_run(
        mut self,
        memory: &mut [u8],
        budget: u64,
        [from, to]: [u32; 2],
        summary: &mut Summary,
    ) -> (u32, u64, Core) {
        let refusal = self.run_refusal(memory, budget);
        if refusal != FINE {
            return (refusal, 0, self);
        }
        let Some(window) = Window::new(from, to, memory.len() as u64) else {
            return (BAD_WINDOW, 0, self);
        };
        if self.stop != 0 {
            return (self.stop, 0, self);
        }
        let came = watch(&mut self, memory, budget, |store| {
            if window.holds(store.address) {
                summary.fold(&store);
            }
        });
        (came.stop, came.used, self)
    }
}
