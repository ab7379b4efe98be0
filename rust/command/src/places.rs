//! The places where a watched walk can be after the events so far, by the moves of the second implementation.
use crate::events::Event;
use dapohiru_second::job::Job;
use dapohiru_second::walk::{self, Place, Walks};

/// The highest number of symbols.
const SYMBOLS: usize = 16;

/// A set of places, by their numbers.
type Places = Box<[u64]>;

/// The walk of a job, as far as its events tell it.
pub struct Walk<'a> {
    walks: Walks<'a>,
    /// Every place, by number.
    all: Vec<Place>,
    /// For each symbol of a word and then for each node the moves that report it, by the numbers of their places.
    moves: Vec<Vec<(usize, usize)>>,
    /// For each place those that are reached from there without an event, once they were asked for.
    silent: Vec<Option<Places>>,
    /// The places at which the last event, or the start, has put the walk.
    put_at: Vec<usize>,
    /// All places where the walk can be.
    now: Places,
}

impl<'a> Walk<'a> {
    /// A walk that stands at these places.
    pub fn at(job: &'a Job, places: &[Place]) -> Self {
        let walks = Walks::new(job, None);
        let all = walks.places();
        let mut moves = vec![Vec::new(); SYMBOLS + job.nodes.len()];
        for from in &all {
            for step in walks.moves(*from) {
                let of_event: &mut Vec<_> = match step.event {
                    Some(walk::Event::Point(node, _)) => &mut moves[SYMBOLS + node],
                    Some(walk::Event::Call(symbol) | walk::Event::After(symbol)) => {
                        &mut moves[symbol]
                    }
                    None => continue,
                };
                of_event.push((from.number(), step.to.number()));
            }
        }
        let mut walk = Walk {
            silent: vec![None; all.len()],
            now: nowhere(all.len()),
            put_at: Vec::new(),
            walks,
            all,
            moves,
        };
        walk.stand(places.iter().map(|place| place.number()).collect());
        walk
    }

    /// Goes on by an event of the job, and says whether the events are still those of a walk.
    pub fn take(&mut self, event: Event) -> bool {
        let moves = match event {
            Event::Word(symbol, _) => &self.moves[symbol as usize],
            Event::Point(node) => &self.moves[SYMBOLS + node],
        };
        let made = moves.iter().filter(|(from, _)| has(&self.now, *from));
        let to = made.map(|(_, to)| *to).collect();
        self.stand(to);
        !self.is_left()
    }

    /// Whether the events are no walk of the job.
    pub fn is_left(&self) -> bool {
        self.put_at.is_empty()
    }

    /// The places at which the last event, or the start, has put the walk; it may have gone on from there without
    /// an event.
    pub fn places(&self) -> impl Iterator<Item = Place> + '_ {
        self.put_at.iter().map(|&place| self.all[place])
    }

    /// Stands at these places, and where the walk goes from there without an event.
    fn stand(&mut self, places: Vec<usize>) {
        self.now.fill(0);
        for &place in &places {
            if self.silent[place].is_none() {
                self.silent[place] = Some(self.reached(place));
            }
            let reached = self.silent[place].iter().flatten();
            self.now
                .iter_mut()
                .zip(reached)
                .for_each(|(now, reached)| *now |= reached);
        }
        self.put_at = places;
    }

    /// The places that are reached from a place without an event, itself among them.
    fn reached(&self, place: usize) -> Places {
        let mut reached = nowhere(self.all.len());
        let mut left = vec![place];
        while let Some(place) = left.pop() {
            if has(&reached, place) {
                continue;
            }
            reached[place / 64] |= 1 << (place % 64);
            let moves = self.walks.moves(self.all[place]).iter();
            let silent = moves.filter(|step| step.event.is_none());
            left.extend(silent.map(|step| step.to.number()));
        }
        reached
    }
}

/// The set of no places among so many.
fn nowhere(count: usize) -> Places {
    vec![0; count.div_ceil(64)].into()
}

/// Whether a place is in a set.
fn has(places: &Places, place: usize) -> bool {
    places[place / 64] >> (place % 64) & 1 == 1
}
