//! Two monitors on one walk (document 01, "Two monitors on one walk"), and the search for a
//! difference. It ends where no new place and pair of states is left, and has no other limit.
use crate::job::Job;
use crate::slip::Slip;
use crate::walk::{Event, Place, Walks};

/// A running monitor.
#[derive(Clone, Copy, Debug, PartialEq, Eq)]
pub struct Monitor {
    pub state: usize,
}

impl Monitor {
    /// Takes one event: moves to the next state, and alarms when that is final.
    pub fn take(&mut self, job: &Job, symbol: usize) -> bool {
        self.state = job.next[self.state][symbol] as usize;
        job.finals[self.state] == 1
    }
}

/// Where a walk is, with the states of the full and the planned monitor.
#[derive(Clone, Copy, Debug)]
struct At {
    place: Place,
    full: Monitor,
    planned: Monitor,
    /// How many events the walk has so far.
    events: usize,
    /// Which of those met came before, and the event on the way from there.
    from: Option<(usize, Option<Event>)>,
}

/// A walk at whose last event one monitor alarms and the other does not.
#[derive(Clone, Debug, PartialEq, Eq)]
pub struct Difference {
    /// The place where the walk begins.
    pub start: Place,
    /// The states in which the two monitors begin.
    pub states: (usize, usize),
    /// The walk's events, in walk order.
    pub events: Vec<Event>,
    /// How often the walk comes in again.
    pub came_in: usize,
    /// How often the walk returns.
    pub returned: usize,
}

/// What a search has met.
pub struct Search<'a> {
    walks: &'a Walks<'a>,
    /// For each node whether the planned monitor gets the event of its point.
    watched: Vec<bool>,
    /// For each place, full state and planned state whether it has been met.
    visited: Vec<bool>,
    /// All that has been met, in the order of meeting.
    met: Vec<At>,
}

impl<'a> Search<'a> {
    /// A search under a plan that has met nothing.
    pub fn new(walks: &'a Walks<'a>, plan: &[u8]) -> Self {
        let states = walks.job.states();
        let nodes = walks.job.nodes.len();
        let byte = |node: usize| match walks.slip {
            Some(Slip::PlanByteOfNodeBefore) => plan[(node + nodes - 1) % nodes],
            _ => plan[node],
        };
        Search {
            walks,
            watched: (0..nodes).map(|node| byte(node) == 1).collect(),
            visited: vec![false; walks.place_count() * states * states],
            met: Vec::new(),
        }
    }

    /// Meets a place with two states, once.
    fn meet(&mut self, at: At) {
        let states = self.walks.job.states();
        let (full, planned) = match self.walks.slip {
            Some(Slip::VisitedWithoutPlanned) => (at.full.state, 0),
            Some(Slip::VisitedPlaceOnly) => (0, 0),
            _ => (at.full.state, at.planned.state),
        };
        let number = (at.place.number() * states + full) * states + planned;
        if !self.visited[number] {
            self.visited[number] = true;
            self.met.push(at);
        }
    }

    /// Lets walks begin at a place, with the monitors in these states.
    pub fn begin(&mut self, place: Place, full: usize, planned: usize) {
        self.meet(At {
            place,
            full: Monitor { state: full },
            planned: Monitor { state: planned },
            events: 0,
            from: None,
        });
    }

    /// Lets walks begin before every entry in every admitted state.
    pub fn begin_at_entries(&mut self) {
        for (place, states) in self.walks.starts() {
            for state in states {
                self.begin(place, state, state);
            }
        }
    }

    /// Follows all walks, to the first difference if there is one.
    pub fn difference(&mut self) -> Option<Difference> {
        let mut looked_at = 0;
        while looked_at < self.met.len() {
            if let Some(difference) = self.look_at(looked_at) {
                return Some(difference);
            }
            looked_at += 1;
        }
        None
    }

    /// Follows all walks, past differences too.
    pub fn follow(&mut self) {
        let mut looked_at = 0;
        while looked_at < self.met.len() {
            self.look_at(looked_at);
            looked_at += 1;
        }
    }

    /// Makes every move from one of those met, and gives the first difference on the way.
    fn look_at(&mut self, number: usize) -> Option<Difference> {
        let at = self.met[number];
        let mut difference = None;
        for step in self.walks.moves(at.place) {
            if !self.walks.makes(at.place, step, at.full.state) {
                continue;
            }
            let mut next = At {
                place: step.to,
                events: at.events + usize::from(step.event.is_some()),
                from: Some((number, step.event)),
                ..at
            };
            let differs = step.event.is_some_and(|event| self.tell(event, &mut next));
            if difference.is_none() && differs && self.counts(step.to) {
                difference = Some(self.difference_at(next));
            }
            let limit = self.walks.job.nodes.len();
            if !self.walks.slips(Slip::EventsAsManyAsNodes) || next.events <= limit {
                self.meet(next);
            }
        }
        difference
    }

    /// Gives the event to the monitors that get it; says whether one alone alarms.
    fn tell(&self, event: Event, at: &mut At) -> bool {
        let (job, slip) = (self.walks.job, self.walks.slip);
        let watched = match event {
            Event::Point(node, _) => self.watched[node],
            Event::Call(_) => slip != Some(Slip::CallWordSkipped),
            Event::After(_) => slip != Some(Slip::AfterWordSkipped),
        };
        let was_final = |monitor: Monitor| {
            slip == Some(Slip::FinalToFinalQuiet) && job.finals[monitor.state] == 1
        };
        let (mut full, mut planned) = (false, false);
        if watched || slip != Some(Slip::FullSkipsToo) {
            let quiet = was_final(at.full);
            full = at.full.take(job, event.symbol()) && !quiet;
        }
        if watched {
            let quiet = was_final(at.planned);
            planned = at.planned.take(job, event.symbol()) && !quiet;
        } else if slip == Some(Slip::UnwatchedPointMoves) {
            at.planned.take(job, event.symbol());
        }
        match slip {
            Some(Slip::AddedAlarmIgnored) => full && !planned,
            Some(Slip::MissedAlarmIgnored) => planned && !full,
            _ => full != planned,
        }
    }

    /// Whether a difference counts on the way to a place: everywhere, whatever follows.
    fn counts(&self, place: Place) -> bool {
        if !self.walks.slips(Slip::OnlyWalksThatReachAnExit) {
            return true;
        }
        let mut places = vec![place];
        let mut looked_at = 0;
        while looked_at < places.len() {
            if matches!(places[looked_at], Place::Ended(_)) {
                return true;
            }
            for step in self.walks.moves(places[looked_at]) {
                if !places.contains(&step.to) {
                    places.push(step.to);
                }
            }
            looked_at += 1;
        }
        false
    }

    /// The walk that leads there.
    fn difference_at(&self, last: At) -> Difference {
        let mut at = last;
        let mut events = Vec::new();
        let (mut came_in, mut returned) = (0, 0);
        while let Some((before, event)) = at.from {
            events.extend(event);
            came_in += usize::from(at.place == Place::ComingIn);
            returned += usize::from(at.place == Place::Returning);
            at = self.met[before];
        }
        events.reverse();
        Difference {
            start: at.place,
            states: (at.full.state, at.planned.state),
            events,
            came_in,
            returned,
        }
    }

    /// Those met at a place and on the copies of its node.
    fn met_at(&self, place: Place) -> impl Iterator<Item = &At> {
        let copies = self.walks.copies(place);
        copies.flat_map(|place| self.met.iter().filter(move |at| at.place == place))
    }

    /// The states in which the full monitor has arrived at a place.
    pub fn full_states(&self, place: Place) -> u64 {
        let there = self.met_at(place);
        there.fold(0, |set, at| set | 1 << at.full.state)
    }

    /// The states in which the planned monitor has arrived at a place.
    pub fn planned_states(&self, place: Place) -> u64 {
        let there = self.met_at(place);
        there.fold(0, |set, at| set | 1 << at.planned.state)
    }
}

/// A walk on which the monitor under this plan and the one with all points watched do not alarm at
/// the same events, or none if the plan is faithful.
pub fn difference(walks: &Walks, plan: &[u8]) -> Option<Difference> {
    let mut search = Search::new(walks, plan);
    search.begin_at_entries();
    search.difference()
}
