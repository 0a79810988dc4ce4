//! Three nodes that replicate a log, simulated: messages are lost, late or arrive twice, and nodes crash.
//!
//! A client asks a node for a record. A leader appends it to its log and sends the log to the others. Another node first stands for
//! election in a new term, which it leads once a majority has voted for it. A node that has synced a leader's log reports it to the client.
//!
//! `replicated` runs 500 seeds, then every run of two requests with at most one fault. With `--forget-sync` a node votes for another
//! one before its vote is durable. Either search finds this, and prints the run, with status 1.
use blobcrash::{
    Blob, Config, Error, Exploration, ExploreError, Explored, PartialWriteMode, Probability, Run,
    Store, WriteConfig, WriteOptions, seeds,
};
use std::collections::{BTreeMap, BTreeSet, VecDeque};
use std::fmt;
use std::process::ExitCode;

const NODES: [u8; 3] = [1, 2, 3];
const CLIENT: u8 = 0;
/// A state of a node is a frame of one sector, which a crash keeps or loses as a whole.
const FRAME: usize = 512;

/// What a node keeps: its term, its vote in it, its log, a byte for each record, and in which term a leader sent that.
#[derive(Clone, Default)]
struct State {
    term: u8,
    vote: u8,
    log_term: u8,
    log: Vec<u8>,
}

#[derive(Clone, Copy, Debug, PartialEq)]
enum Kind {
    Ask,
    Stand,
    Vote,
    Log,
    Synced,
}

/// A message, with the state of its sender, or the record of a client.
#[derive(Clone)]
struct Message {
    kind: Kind,
    to: u8,
    sender: u8,
    state: State,
}

impl fmt::Display for Message {
    fn fmt(&self, f: &mut fmt::Formatter<'_>) -> fmt::Result {
        let (kind, term) = (self.kind, self.state.term);
        write!(
            f,
            "{kind:?} from {} to {}, term {term}",
            self.sender, self.to
        )
    }
}

/// A node. Its blob has a frame for each of its states.
struct Node {
    number: u8,
    forgets_sync: bool,
    store: Store,
    blob: Blob,
    end: usize,
    synced: usize,
    state: State,
    voters: BTreeSet<u8>,
    record: Vec<u8>,
}

impl Node {
    /// Goes on with the last durable state. It is the greatest, since states only grow, and lost frames before it are zeros.
    fn load(number: u8, forgets_sync: bool, store: &Store) -> Result<Node, Error> {
        let (blob, size) = store.open("node", b"states")?;
        let end = size as usize;
        let data = blob.read_at(0, end)?;
        let frame = data.chunks(FRAME).max().unwrap_or(&[0; FRAME]);
        let log = frame[3..].iter().take_while(|record| **record != 0);
        Ok(Node {
            number,
            forgets_sync,
            store: store.clone(),
            blob,
            end,
            synced: end,
            state: State {
                term: frame[0],
                vote: frame[1],
                log_term: frame[2],
                log: log.copied().collect(),
            },
            voters: BTreeSet::new(),
            record: Vec::new(),
        })
    }

    fn save(&mut self, sync: bool) -> Result<(), Error> {
        let state = &self.state;
        let mut frame = vec![state.term, state.vote, state.log_term];
        frame.extend(&state.log);
        frame.resize(FRAME, 0);
        let at = self.end as u64;
        self.blob.write_at(at, &frame, WriteOptions::default())?;
        self.end += FRAME;
        if sync {
            self.blob.sync()?;
            self.synced = self.end;
        }
        Ok(())
    }

    /// Appends a record, or stands for election. Returns messages.
    fn ask(&mut self, record: &[u8]) -> Result<Vec<Message>, Error> {
        self.record = record.to_vec();
        if self.voters.len() >= 2 {
            return self.append();
        }
        self.state.term += 1;
        self.state.vote = self.number;
        self.voters = BTreeSet::from([self.number]);
        self.save(true)?;
        Ok(self.messages(Kind::Stand, &NODES))
    }

    fn append(&mut self) -> Result<Vec<Message>, Error> {
        self.state.log_term = self.state.term;
        self.state.log.append(&mut self.record);
        self.save(true)?;
        Ok(self.messages(Kind::Log, &NODES))
    }

    /// Messages to each of these but itself.
    fn messages(&self, kind: Kind, to: &[u8]) -> Vec<Message> {
        let (sender, state) = (self.number, &self.state);
        let others = to.iter().filter(|to| **to != sender);
        let message = |to: &u8| Message {
            kind,
            to: *to,
            sender,
            state: state.clone(),
        };
        others.map(message).collect()
    }

    /// Handles a message, and returns others.
    fn receive(&mut self, message: &Message) -> Result<Vec<Message>, Error> {
        let (kind, sender, state) = (message.kind, message.sender, &message.state);
        if kind == Kind::Ask {
            return self.ask(&state.log);
        }
        let own = &mut self.state;
        if state.term > own.term {
            (own.term, own.vote) = (state.term, 0);
            self.voters.clear();
        }
        if state.term < own.term {
            return Ok(vec![]);
        }
        let is_current = (state.log_term, state.log.len()) >= (own.log_term, own.log.len());
        match kind {
            Kind::Stand if is_current && [0, sender].contains(&own.vote) => {
                own.vote = sender;
                self.save(!self.forgets_sync)?;
                return Ok(self.messages(Kind::Vote, &[sender]));
            }
            Kind::Vote if self.voters.len() < 2 => {
                self.voters.insert(sender);
                if self.voters.len() == 2 {
                    return self.append();
                }
            }
            Kind::Log => {
                if is_current {
                    (own.log_term, own.log) = (state.log_term, state.log.clone());
                    self.save(true)?;
                }
                return Ok(self.messages(Kind::Synced, &[CLIENT]));
            }
            _ => {}
        }
        Ok(vec![])
    }
}

/// A broken promise, or an error of a store.
type Broken = Box<dyn std::error::Error>;

/// What must hold of all messages that were sent.
#[derive(Default)]
struct Promises {
    votes: BTreeMap<(u8, u8), u8>,
    leaders: Vec<State>,
    acknowledged: Vec<State>,
}

impl Promises {
    fn check(&mut self, message: &Message) -> Result<(), Broken> {
        let (kind, sender, state) = (message.kind, message.sender, &message.state);
        if kind == Kind::Stand || kind == Kind::Vote {
            let candidate = if kind == Kind::Vote {
                message.to
            } else {
                sender
            };
            let voted = self.votes.entry((sender, state.term)).or_insert(candidate);
            if *voted != candidate {
                return Err(format!("{sender} votes twice in term {}", state.term).into());
            }
        }
        match kind {
            Kind::Log => self.leaders.push(state.clone()),
            // By a majority, since the leader had synced it before.
            Kind::Synced => self.acknowledged.push(state.clone()),
            _ => {}
        }
        for State { term, log, .. } in &self.acknowledged {
            for leader in self.leaders.iter().filter(|leader| leader.term > *term) {
                if !leader.log.starts_with(log) {
                    let later = leader.term;
                    return Err(format!("leader {later} lacks a record of term {term}").into());
                }
            }
        }
        Ok(())
    }
}

/// What happens to a message: it arrives, is lost, arrives twice or, late, after those in flight and the next request. Or first its node or
/// all nodes crash, or the power of its node is to fail at one of the next two calls.
const EVENTS: [&str; 7] = [
    "arrives",
    "is lost",
    "twice",
    "late",
    "crash",
    "crash of all",
    "power loss",
];

/// The nodes and the messages in flight. The store of the run has no data: it chooses all that happens.
///
/// Each node has a store of its own, so that it can crash alone. The draws and power losses that an exploration tries are those of the
/// run's store, so here the run chooses them, and the script of a failure has only notes. There is no clock. What the test doesn't
/// choose isn't tried: no crash tears a frame, and no call fails.
struct Simulation<'a> {
    run: &'a Run,
    nodes: Vec<Node>,
    records: VecDeque<u8>,
    flight: VecDeque<Message>,
    promises: Promises,
}

impl Simulation<'_> {
    fn new(run: &Run, requests: u8, forgets_sync: bool) -> Result<Simulation<'_>, Broken> {
        let config = Config::default().write(WriteConfig {
            failure_rate: Probability::ZERO,
            retention_rate: Probability::new(1, 2).unwrap(),
            mode: PartialWriteMode::Sectors(FRAME as u64),
        });
        let start = |number| {
            let store = Store::builder().config(config).pushed().open()?;
            Node::load(number, forgets_sync, &store)
        };
        Ok(Simulation {
            run,
            nodes: NODES.into_iter().map(start).collect::<Result<_, _>>()?,
            records: (1..=requests).collect(),
            flight: VecDeque::new(),
            promises: Promises::default(),
        })
    }

    /// One run, with at most this many faults. `arrivals` is how many more of the events are that a message arrives.
    fn go(mut self, mut faults: u8, arrivals: usize) -> Result<(), Broken> {
        while !(self.records.is_empty() && self.flight.is_empty()) {
            if self.flight.is_empty() {
                self.ask();
            }
            let mut event = EVENTS[0];
            if faults > 0 {
                let chosen = self.run.choose(EVENTS.len() + arrivals);
                event = EVENTS.get(chosen).unwrap_or(&event);
                faults -= u8::from(event != EVENTS[0]);
            }
            if let Some(message) = self.flight.pop_front() {
                self.deliver(message, event)?;
            }
        }
        Ok(())
    }

    /// Asks some node for the next record, if there is one.
    fn ask(&mut self) {
        if let Some(record) = self.records.pop_front() {
            let to = NODES[self.run.choose(NODES.len())];
            let state = State {
                log: vec![record],
                ..State::default()
            };
            self.flight.push_back(Message {
                kind: Kind::Ask,
                to,
                sender: CLIENT,
                state,
            });
        }
    }

    fn deliver(&mut self, message: Message, event: &str) -> Result<(), Broken> {
        self.run.note(&format!("{message}: {event}"));
        let node = usize::from(message.to - 1);
        match event {
            "is lost" => return Ok(()),
            "twice" => self.flight.push_back(message.clone()),
            "late" => {
                self.ask();
                self.flight.push_back(message);
                return Ok(());
            }
            "crash" => self.crash(node)?,
            "crash of all" => (0..NODES.len()).try_for_each(|node| self.crash(node))?,
            "power loss" => {
                let calls = self.run.choose(2) as u64;
                self.nodes[node].store.crash_after(calls)?;
            }
            _ => {}
        }
        let messages = match self.nodes[node].receive(&message) {
            Err(Error::PowerLoss) => return self.crash(node),
            messages => messages?,
        };
        for message in messages {
            self.promises.check(&message)?;
            if message.to != CLIENT {
                self.flight.push_back(message);
            }
        }
        Ok(())
    }

    /// Crashes a node, and lets it recover. The run chooses which of its frames are kept that aren't synced.
    fn crash(&mut self, node: usize) -> Result<(), Broken> {
        let (run, node) = (self.run, &mut self.nodes[node]);
        let unsynced = (node.synced..node.end).step_by(FRAME);
        let words = unsynced.map(|_| [0, u64::MAX][run.choose(2)]);
        let (number, store) = (node.number, node.store.clone());
        store.push_words(&words.collect::<Vec<_>>())?;
        *node = store.recover(|store| Node::load(number, node.forgets_sync, store))?;
        let term = node.state.term;
        run.note(&format!("{number} crashed, and is in term {term}"));
        Ok(())
    }
}

/// Prints what a search found, and returns whether that is a run that breaks a promise.
fn breaks(search: &str, found: Result<Explored<()>, ExploreError<Broken>>) -> bool {
    match &found {
        Ok(visited) => println!("{search}: {} runs, none breaks a promise", visited.runs),
        Err(failed) => println!("{search}: {failed}"),
    }
    found.is_err()
}

fn main() -> ExitCode {
    let forgets_sync = std::env::args().any(|word| word == "--forget-sync");
    let builder = Store::builder();
    let large = |run: &Run| Simulation::new(run, 8, forgets_sync)?.go(20, 40);
    let small = |run: &Run| Simulation::new(run, 2, forgets_sync)?.go(1, 0);
    let is_broken = breaks("seeds", seeds(&builder, 0..500, large))
        | breaks("explore", Exploration::of(&builder).visit(small));
    ExitCode::from(u8::from(is_broken))
}
