//! The whole text that ./rate prints for an image, or why there is none.

use super::backlog::{Backlog, Verdict};
use super::line::rate;
use super::summary::Summary;
use super::window::Window;
use crate::answers::FINE;
use crate::arm::counter;
use crate::pipeline::Core;
use crate::stores::{watch, Store};

/// What is asked. The numbers are inside the limits that ./rate sets.
#[derive(Clone, Debug)]
pub struct Asked {
    pub image: Vec<u8>,
    pub from: u32,
    pub to: u32,
    /// Ticks a second.
    pub clock: u64,
    /// In kb/s, strictly rising.
    pub options: Vec<u64>,
    /// In words.
    pub buffer: u64,
    pub cycles: u64,
    /// The address at which a stop is no refusal.
    pub end: Option<u32>,
}

#[derive(Clone, Copy, Debug, PartialEq, Eq)]
pub enum Refused {
    /// The image's length.
    Length,
    Window,
    /// A stop that was not asked for.
    Stop {
        stop: u32,
        address: u32,
    },
    /// Fewer than two.
    Stores(u64),
}

/// The text, and the status that goes with it.
pub type Figures = (String, u8);

/// The figures; each store in the window is told to `gaps`, unless there are none.
pub fn figures(asked: &Asked, gaps: impl FnMut(&Store)) -> Result<Figures, Refused> {
    let window = window(asked)?;
    let mut summary = Summary::default();
    let core = run(asked, window, |store| summary.fold(&store));
    let address = counter(core.pc.wrapping_sub(8));
    if core.stop != 0 && asked.end != Some(address) {
        return Err(Refused::Stop {
            stop: core.stop,
            address,
        });
    }
    if summary.stores < 2 {
        return Err(Refused::Stores(summary.stores));
    }
    let verdicts = verdicts(asked, window, summary.stores, gaps);
    Ok(text(asked, &core, &summary, &verdicts))
}

fn window(asked: &Asked) -> Result<Window, Refused> {
    let (refusal, _) = Core::start([0; 15], 0, 0, &asked.image);
    if refusal != FINE {
        return Err(Refused::Length);
    }
    Window::new(asked.from, asked.to, asked.image.len() as u64).ok_or(Refused::Window)
}

/// The run from the start, whose stores into the window are told: where it came to.
fn run(asked: &Asked, window: Window, mut each: impl FnMut(Store)) -> Core {
    let mut memory = asked.image.clone();
    let (_, mut core) = Core::start([0; 15], 0, 0, &memory);
    watch(&mut core, &mut memory, asked.cycles, |store| {
        if window.holds(store.address) {
            each(store);
        }
    });
    core
}

/// Of each option, by another run: where the halves meet is known only now, and a long list takes
/// more memory than the run takes time.
fn verdicts(
    asked: &Asked,
    window: Window,
    stores: u64,
    mut gaps: impl FnMut(&Store),
) -> Vec<(u64, Verdict)> {
    let backlog = |&option: &u64| Backlog::new(option, asked.clock, asked.buffer, stores);
    let mut backlogs: Vec<Backlog> = asked.options.iter().map(backlog).collect();
    run(asked, window, |store| {
        gaps(&store);
        for backlog in &mut backlogs {
            backlog.add(store.tick, store.bits());
        }
    });
    let verdicts = backlogs.iter().map(Backlog::verdict);
    asked.options.iter().copied().zip(verdicts).collect()
}

fn text(asked: &Asked, core: &Core, summary: &Summary, verdicts: &[(u64, Verdict)]) -> Figures {
    let Summary { cycles, ticks, .. } = summary;
    let mut text = format!("length={}\n", asked.image.len());
    text += &end(core);
    for (key, value) in [
        ("cycles", core.cycles),
        ("ticks", core.sums.ticks()),
        ("stores", summary.stores),
        ("bits", summary.bits),
        ("first_cycle", cycles.first),
        ("first_tick", ticks.first),
        ("last_cycle", cycles.last),
        ("last_tick", ticks.last),
        ("least_gap_cycles", cycles.gaps.least),
        ("least_gap_ticks", ticks.gaps.least),
        ("greatest_gap_cycles", cycles.gaps.greatest),
        ("greatest_gap_ticks", ticks.gaps.greatest),
    ] {
        text += &format!("{key}={value}\n");
    }
    text += &format!("rate={}\n", rate(summary, asked.clock));
    text.extend(verdicts.iter().map(|(option, it)| line(*option, it)));
    let choice = verdicts.iter().find(|(_, verdict)| verdict.serves());
    match choice {
        Some((option, _)) => text += &format!("choice={option}\n"),
        None => text += "choice=none\n",
    }
    text += &format!(
        "claim=this image from address 0 with zero registers and flags, for {} cycles; no other input\n",
        core.cycles
    );
    (text, u8::from(choice.is_none()))
}

/// The stop, and the word that it was found at.
fn end(core: &Core) -> String {
    let mut text = format!("end={}\n", core.stop);
    if core.stop != 0 {
        let address = counter(core.pc.wrapping_sub(8));
        text += &format!("end_address={address:08X}\n");
        if let Some(word) = core.ix {
            text += &format!("end_word={word:08X}\n");
        }
    }
    text
}

fn line(option: u64, verdict: &Verdict) -> String {
    let word = |holds| if holds { "yes" } else { "no" };
    let mut line = format!(
        "option={option} backlog={} grows={} fits={}",
        verdict.backlog,
        word(verdict.grows),
        word(verdict.fits())
    );
    if let Some(overflow) = verdict.overflow {
        line += &format!(
            " overflow_store={} overflow_tick={}",
            overflow.store, overflow.tick
        );
    }
    line + "\n"
}
