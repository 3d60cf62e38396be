//! A trace that is being written, call by call.

use crate::random::Random;

pub const PLACES: usize = 256;
const LARGEST: u64 = 4_294_967_295;

/// The trace so far, with as much of the line's state as it takes to steer towards a full or an idle line.
pub struct Script {
    pub random: Random,
    pub text: Vec<u8>,
    pub open: Vec<Terms>,
    pub waiting: usize,
    pub carrying: bool,
}

#[derive(Clone, Copy)]
pub struct Terms {
    pub session: u64,
    pub weight: u64,
    pub limit: u64,
}

impl Script {
    pub fn new(random: Random) -> Script {
        Script {
            random,
            text: Vec::new(),
            open: Vec::new(),
            waiting: 0,
            carrying: false,
        }
    }

    /// Any octets as a line. What they do to the line's state is not followed.
    pub fn line(&mut self, octets: &[u8]) {
        self.text.extend_from_slice(octets);
        self.text.push(b'\n');
    }

    pub fn open(&mut self, session: u64, weight: u64, limit: u64) {
        self.line(format!("do=open session={session} weight={weight} limit={limit}").as_bytes());
        let good = session <= 63 && (1..=16).contains(&weight) && (1..=65_535).contains(&limit);
        if good && self.terms(session).is_none() {
            self.open.push(Terms {
                session,
                weight,
                limit,
            });
        }
    }

    pub fn enter(&mut self, session: u64, length: u64) {
        let ticket = self.ticket();
        self.line(format!("do=enter session={session} length={length} ticket={ticket}").as_bytes());
        let good = self
            .terms(session)
            .is_some_and(|terms| (1..=terms.limit).contains(&length));
        if good && self.waiting < PLACES {
            self.waiting += 1;
        }
    }

    pub fn start(&mut self) {
        self.line(b"do=start");
        if !self.carrying && self.waiting > 0 {
            self.carrying = true;
            self.waiting -= 1;
        }
    }

    pub fn finish(&mut self) {
        self.line(b"do=finish");
        self.carrying = false;
    }

    /// Opens so many sessions that are not open yet, as far as there are any.
    pub fn open_some(&mut self, count: usize) {
        let mut closed: Vec<u64> = (0..=63)
            .filter(|&session| self.terms(session).is_none())
            .collect();
        self.random.shuffle(&mut closed);
        for &session in closed.iter().take(count) {
            let weight = self.random.between(1, 16);
            let limit = self.limit();
            self.open(session, weight, limit);
        }
    }

    /// A packet of an open session, mostly one that its limit allows. Some session must be open.
    pub fn enter_some(&mut self) {
        let terms = self.random.pick(&self.open);
        let length = self.length(terms.limit);
        self.enter(terms.session, length);
    }

    /// A packet of an open session with a length that its limit allows. Some session must be open.
    pub fn enter_good(&mut self) {
        let terms = self.random.pick(&self.open);
        let length = self.random.between(1, terms.limit);
        self.enter(terms.session, length);
    }

    /// The next call that serves: finish what is in service, else start something.
    pub fn serve(&mut self) {
        if self.carrying {
            self.finish();
        } else {
            self.start();
        }
    }

    /// Serves until nothing waits and nothing is in service.
    pub fn run_empty(&mut self) {
        while self.carrying || self.waiting > 0 {
            self.serve();
        }
    }

    /// A row of calls on the open sessions, of which `enters` in ten are packets that enter.
    pub fn traffic(&mut self, calls: u64, enters: u64) {
        for _ in 0..calls {
            if self.random.once_in(25) {
                self.out_of_turn();
            } else if self.random.between(1, 10) <= enters {
                self.enter_some();
            } else {
                self.serve();
            }
        }
    }

    /// A call that is refused more often than not.
    fn out_of_turn(&mut self) {
        match self.random.below(4) {
            0 => self.start(),
            1 => self.finish(),
            2 => self.open_some(1),
            _ => {
                let session = self.random.between(0, 65);
                self.enter(session, 1);
            }
        }
    }

    fn terms(&self, session: u64) -> Option<&Terms> {
        self.open.iter().find(|terms| terms.session == session)
    }

    fn ticket(&mut self) -> u64 {
        match self.random.below(8) {
            0 => 0,
            1 => LARGEST,
            2..5 => self.random.between(0, LARGEST),
            _ => self.random.between(1, 4),
        }
    }

    fn limit(&mut self) -> u64 {
        match self.random.below(6) {
            0 => self.random.pick(&[1, 2, 65_534, 65_535]),
            1 => self.random.between(1, 20),
            2 => 1500,
            _ => self.random.between(1, 65_535),
        }
    }

    fn length(&mut self, limit: u64) -> u64 {
        match self.random.below(24) {
            0 => self.random.pick(&[0, limit + 1, 65_535, 65_536, LARGEST]),
            1..4 => limit,
            4..7 => 1,
            _ => self.random.between(1, limit),
        }
    }
}
