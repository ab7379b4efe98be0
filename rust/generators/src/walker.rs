//! A walker that takes one random walk of a job, as long as there is a way on.
use crate::random::Random;
use dapohiru_second::job::members;
use dapohiru_second::walk::{Event, Place, Walks};

/// A random walk under way.
pub struct Walker<'a> {
    walks: &'a Walks<'a>,
    /// For each place whether some way from there never ends, with no word that never ends.
    lasting: Vec<bool>,
    place: Place,
    /// The entry where the walk begins.
    pub entry: usize,
    /// The state in which the monitors begin, admitted at that entry.
    pub start: usize,
    /// For each point how often the walk has come to it.
    pub visits: Vec<u64>,
    /// How often the walk has come in again.
    pub came_in: u64,
    /// How often the walk has returned.
    pub returned: u64,
}

impl<'a> Walker<'a> {
    /// A walk that begins before any entry, in any state that is admitted there.
    pub fn begin(random: &mut Random, walks: &'a Walks<'a>) -> Self {
        let job = walks.job;
        let entry = random.pick(&job.entries());
        let states: Vec<_> = members(job.nodes[entry].entry).collect();
        Walker {
            walks,
            lasting: lasting(walks),
            place: Place::Before(entry),
            entry,
            start: random.pick(&states),
            visits: vec![0; job.nodes.len()],
            came_in: 0,
            returned: 0,
        }
    }

    /// Goes on to the walk's next event; nothing where the walk cannot go on, or meets no event for
    /// long. Mostly it keeps to ways that last.
    pub fn next_event(&mut self, random: &mut Random) -> Option<Event> {
        for _ in 0..10_000 {
            let moves = self.walks.moves(self.place);
            let lasts = |place: Place| self.lasting[place.number()];
            let keep = lasts(self.place) && !random.once_in(1 << 20);
            if moves.is_empty() {
                return None;
            }
            let mut step = random.pick(moves);
            while keep && !lasts(step.to) {
                step = random.pick(moves);
            }
            self.came_in += u64::from(self.place == Place::ComingIn);
            self.returned += u64::from(self.place == Place::Returning);
            self.place = step.to;
            if let Some(Event::Point(node, _)) = step.event {
                self.visits[node] += 1;
            }
            if step.event.is_some() {
                return step.event;
            }
        }
        None
    }
}

/// For each place, by number, whether some way from there never ends, with no word that never ends.
fn lasting(walks: &Walks) -> Vec<bool> {
    let places = walks.places();
    let mut lasting = vec![true; places.len()];
    loop {
        let ends = |place: &Place| {
            let mut moves = walks.moves(*place).iter();
            lasting[place.number()]
                && !moves.any(|step| step.to != *place && lasting[step.to.number()])
        };
        let ending: Vec<_> = places.iter().filter(|place| ends(place)).collect();
        if ending.is_empty() {
            return lasting;
        }
        ending
            .into_iter()
            .for_each(|place| lasting[place.number()] = false);
    }
}
