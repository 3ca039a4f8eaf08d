//! The environment of a goal, kept in a solver from one question to the next.
//!
//! "The environment of a goal is all constraints stored in and-boxes around it."
//! Stores only grow at their ends. Each and-box has a stamp of its own, and the
//! and-boxes around one are always the same. So what the solver was told for the
//! and-boxes from the top down to where two questions part need not be told
//! again, nor even looked at: the configuration notes which stores grew.

use crate::config::{AndId, Config, Goal, Shape};
use crate::solver::{Mark, Solver, Told};

/// An and-box whose store the solver was told.
#[derive(Clone, Copy, Debug)]
struct Loaded {
    id: AndId,
    stamp: u64,
    /// How many of its constraints.
    count: usize,
    /// The state before them.
    mark: Mark,
    /// Whether there is a solution up to here.
    satisfiable: bool,
}

/// A solver that was told the stores on a way from the top.
#[derive(Clone, Debug, Default)]
pub struct Environment {
    pub solver: Solver,
    loaded: Vec<Loaded>,
    /// For each and-box, where it stands in `loaded` if it does.
    places: Vec<usize>,
    /// How many of the configuration's notes on grown stores were seen.
    seen: u64,
    way: Vec<AndId>,
}

impl Environment {
    /// Tells the solver, as level 0, exactly the stores of the and-boxes at and
    /// around `goal`, and says whether they have a common solution. If not, the
    /// inner ones may be left out.
    pub fn load(&mut self, config: &Config, goal: Option<Goal>) -> bool {
        self.solver.reserve(config.next);
        self.solver.begin_walk();
        self.notice_growth(config);
        let mut way = std::mem::take(&mut self.way);
        way.clear();
        let mut kept = 0;
        let mut at = goal;
        while let Some(goal) = at {
            if let Shape::And(id) = config.shape(goal) {
                if let Some(place) = self.place(config, id) {
                    kept = place + 1;
                    break;
                }
                way.push(id);
            }
            at = config.parent(goal);
        }
        way.reverse();
        self.unload(kept);
        let satisfiable = self.load_way(config, &way);
        self.way = way;
        satisfiable
    }

    /// Where an and-box stands in `loaded`.
    fn place(&self, config: &Config, id: AndId) -> Option<usize> {
        let place = *self.places.get(usize::from(id.0))?;
        let loaded = self.loaded.get(place)?;
        (loaded.stamp == config.and(id).stamp).then_some(place)
    }

    /// Takes back all but the first `kept` and-boxes.
    fn unload(&mut self, kept: usize) {
        if let Some(first) = self.loaded.get(kept) {
            self.solver.undo(first.mark);
            self.loaded.truncate(kept);
        }
    }

    /// Takes back what was told below a store that grew.
    fn notice_growth(&mut self, config: &Config) {
        match config.grown.since(self.seen) {
            None => self.unload(0),
            Some(grown) => {
                for &id in grown {
                    if let Some(place) = self.place(config, id) {
                        self.unload(place + 1);
                    }
                }
            }
        }
        self.seen = config.grown.count();
    }

    /// Tells what the last and-box that is loaded got since, and those of a way
    /// down from there.
    fn load_way(&mut self, config: &Config, way: &[AndId]) -> bool {
        // The last one kept may have got more constraints since.
        if let Some(last) = self.loaded.last_mut() {
            let store = config.and(last.id).store;
            if last.satisfiable && last.count < store.len() {
                let more = config.constraints.newest(store, store.len() - last.count);
                last.satisfiable = self.solver.tell(more, 0).satisfiable;
            }
            last.count = store.len();
            if !last.satisfiable {
                return false;
            }
        }
        for &id in way {
            let index = usize::from(id.0);
            if self.places.len() <= index {
                self.places.resize(index + 1, 0);
            }
            self.places[index] = self.loaded.len();
            let and = config.and(id);
            let mark = self.solver.mark();
            let satisfiable = self.solver.tell(config.store_of(id), 0).satisfiable;
            self.loaded.push(Loaded {
                id,
                stamp: and.stamp,
                count: and.store.len(),
                mark,
                satisfiable,
            });
            if !satisfiable {
                return false;
            }
        }
        true
    }

    /// Tells the store of an and-box inside, at a level above 0 of this walk.
    pub fn enter(&mut self, config: &Config, id: AndId, level: u16) -> Told {
        self.solver.own(config.locals_of(id), level);
        self.solver.tell(config.store_of(id), level)
    }
}
