// The same machine in plain Rust: the world of nodes and clients that `rwvote script` and `rwvote audit` step, for the
// events of these benchmarks, under problem 1. It reads standard input through a buffer, keeps its world in structs,
// `VecDeque`, `HashSet` and `Vec`, and prints by `write!`. `bench/script/README.md` says what it leaves out.
//
// usage: machine script|audit < INPUT
use std::collections::VecDeque;
use std::fmt;
use std::io::{self, BufRead, BufWriter, Write};
use std::process::ExitCode;

type Node = usize;
type Client = usize;
type Attempt = u64;

#[derive(Clone, Copy, PartialEq, Eq)]
enum Mode {
    Read,
    Write,
}

#[derive(Clone, Copy, PartialEq, Eq)]
struct Name {
    room: [u8; 32],
    size: usize,
}

impl Name {
    fn of(word: &[u8]) -> Option<Name> {
        let may_stand = |b: &u8| matches!(b, b'a'..=b'z' | b'0'..=b'9' | b'-');
        if !(1..=32).contains(&word.len()) || !word.iter().all(may_stand) {
            return None;
        }
        let mut room = [0; 32];
        room[..word.len()].copy_from_slice(word);
        Some(Name {
            room,
            size: word.len(),
        })
    }
}

#[derive(Clone, Copy, PartialEq, Eq)]
struct Ticket {
    client: Client,
    attempt: Attempt,
    mode: Mode,
    resource: Name,
}

#[derive(Clone, Copy)]
enum Message {
    Request(Node, Ticket),
    Release(Node, Client, Attempt),
    Grant(Node, Ticket),
    Busy(Node, Ticket),
    Done(Node, Client, Attempt),
}

#[derive(Clone, Copy)]
enum Actor {
    Node(Node),
    Client(Client),
}

enum Event {
    Begin(Client, Mode, Name),
    Try(Actor),
    Kept(Actor),
    SayTo(Client, Node),
    Say(Node),
    Take(Node, usize),
    Hear(Client, usize),
    Enter(Client),
    Leave(Client),
    Rise(Actor, bool),
    Fall(Actor),
}

enum Effect {
    Chose(Attempt),
    Tried,
    Kept,
    Sent(usize, Message),
    Said(usize, usize),
    Changed,
    Same,
    Counted,
    Busy,
    Done,
    Inside,
    Outside,
    Up,
    Down,
}

/// A step that may not happen.
struct Refused;

// ---- What is printed.

impl fmt::Display for Mode {
    fn fmt(&self, f: &mut fmt::Formatter<'_>) -> fmt::Result {
        f.write_str(match self {
            Mode::Read => "read",
            Mode::Write => "write",
        })
    }
}

impl fmt::Display for Name {
    fn fmt(&self, f: &mut fmt::Formatter<'_>) -> fmt::Result {
        f.write_str(std::str::from_utf8(&self.room[..self.size]).unwrap_or(""))
    }
}

impl fmt::Display for Ticket {
    fn fmt(&self, f: &mut fmt::Formatter<'_>) -> fmt::Result {
        write!(
            f,
            "c{} {} {} {}",
            self.client, self.attempt, self.mode, self.resource
        )
    }
}

impl fmt::Display for Message {
    fn fmt(&self, f: &mut fmt::Formatter<'_>) -> fmt::Result {
        match self {
            Message::Request(node, ticket) => write!(f, "request n{node} {ticket}"),
            Message::Grant(node, ticket) => write!(f, "grant n{node} {ticket}"),
            Message::Busy(node, ticket) => write!(f, "busy n{node} {ticket}"),
            Message::Release(node, client, attempt) => {
                write!(f, "release n{node} c{client} {attempt}")
            }
            Message::Done(node, client, attempt) => write!(f, "done n{node} c{client} {attempt}"),
        }
    }
}

// ---- A node.

#[derive(Clone, Copy)]
struct Live {
    ticket: Ticket,
    holds: bool,
}

#[derive(Clone, Copy)]
struct Entry {
    client: Client,
    floor: Attempt,
    live: Option<Live>,
}

type Entries = VecDeque<Entry>;

enum NodePhase {
    Down,
    Idle,
    // Its record changed, and is to be kept before the replies are said.
    Decided(Vec<Message>),
    Stored(Vec<Message>),
}

struct NodeState {
    kept: Entries,
    tried: Option<Entries>,
    entries: Entries,
    phase: NodePhase,
}

fn admits(entries: &Entries, ticket: &Ticket) -> bool {
    !entries
        .iter()
        .filter_map(|entry| entry.live.as_ref())
        .any(|live| {
            live.holds
                && live.ticket.resource == ticket.resource
                && (ticket.mode == Mode::Write || live.ticket.mode == Mode::Write)
        })
}

impl NodeState {
    fn request(&mut self, node: Node, ticket: &Ticket) -> (bool, Vec<Message>) {
        let place = self
            .entries
            .iter()
            .position(|entry| entry.client == ticket.client);
        let mut freed = None;
        if let Some(entry) = place.map(|place| self.entries[place]) {
            if ticket.attempt <= entry.floor {
                return (
                    false,
                    vec![Message::Done(node, ticket.client, ticket.attempt)],
                );
            }
            if let Some(live) = entry.live {
                if live.ticket == *ticket {
                    let reply = if live.holds {
                        Message::Grant
                    } else {
                        Message::Busy
                    };
                    return (false, vec![reply(node, *ticket)]);
                }
                freed = Some(live.ticket.resource);
            }
        }
        if let Some(place) = place {
            self.entries.remove(place);
        }
        let mut replies = Vec::new();
        if let Some(resource) = freed {
            self.settle(node, &resource, &mut replies);
        }
        let holds = admits(&self.entries, ticket);
        self.entries.push_back(Entry {
            client: ticket.client,
            floor: ticket.attempt - 1,
            live: Some(Live {
                ticket: *ticket,
                holds,
            }),
        });
        let reply = if holds { Message::Grant } else { Message::Busy };
        replies.push(reply(node, *ticket));
        (true, replies)
    }

    fn release(&mut self, node: Node, client: Client, attempt: Attempt) -> (bool, Vec<Message>) {
        let mut replies = vec![Message::Done(node, client, attempt)];
        let Some(place) = self.entries.iter().position(|entry| entry.client == client) else {
            self.entries.push_back(Entry {
                client,
                floor: attempt,
                live: None,
            });
            return (true, replies);
        };
        let entry = &mut self.entries[place];
        if attempt <= entry.floor {
            return (false, replies);
        }
        entry.floor = attempt;
        if let Some(live) = entry.live.filter(|live| live.ticket.attempt <= attempt) {
            entry.live = None;
            self.settle(node, &live.ticket.resource, &mut replies);
        }
        (true, replies)
    }

    fn settle(&mut self, node: Node, resource: &Name, replies: &mut Vec<Message>) {
        for place in 0..self.entries.len() {
            let Some(live) = self.entries[place].live else {
                continue;
            };
            if !live.holds
                && live.ticket.resource == *resource
                && admits(&self.entries, &live.ticket)
            {
                self.entries[place].live = Some(Live {
                    holds: true,
                    ..live
                });
                replies.push(Message::Grant(node, live.ticket));
            }
        }
    }
}

// ---- A client.

#[derive(Clone, Copy)]
enum ClientPhase {
    Down,
    Idle,
    Chosen(Ticket),
    Asking(Ticket, u64),
    Inside(Ticket),
}

struct ClientState {
    kept: Attempt,
    tried: Option<Attempt>,
    phase: ClientPhase,
}

// ---- The world.

struct Settings {
    votes: Vec<u64>,
    read: u64,
    write: u64,
    clients: usize,
}

struct World {
    settings: Settings,
    nodes: Vec<NodeState>,
    clients: Vec<ClientState>,
    messages: Vec<Message>,
}

impl World {
    fn new(settings: Settings, is_up: bool) -> World {
        let nodes = settings.votes.iter().map(|_| NodeState {
            kept: Entries::new(),
            tried: None,
            entries: Entries::new(),
            phase: if is_up {
                NodePhase::Idle
            } else {
                NodePhase::Down
            },
        });
        let clients = (0..settings.clients).map(|_| ClientState {
            kept: 0,
            tried: None,
            phase: if is_up {
                ClientPhase::Idle
            } else {
                ClientPhase::Down
            },
        });
        World {
            nodes: nodes.collect(),
            clients: clients.collect(),
            messages: Vec::new(),
            settings,
        }
    }

    fn node(&mut self, node: Node) -> Result<&mut NodeState, Refused> {
        self.nodes.get_mut(node.wrapping_sub(1)).ok_or(Refused)
    }

    fn client(&mut self, client: Client) -> Result<&mut ClientState, Refused> {
        self.clients.get_mut(client.wrapping_sub(1)).ok_or(Refused)
    }

    fn send(&mut self, message: Message) -> usize {
        self.messages.push(message);
        self.messages.len()
    }

    fn message(&self, number: usize) -> Result<Message, Refused> {
        self.messages
            .get(number.wrapping_sub(1))
            .copied()
            .ok_or(Refused)
    }

    fn step(&mut self, event: &Event) -> Result<Effect, Refused> {
        match *event {
            Event::Begin(client, mode, resource) => self.begin(client, mode, resource),
            Event::Try(actor) => self.begin_keep(actor),
            Event::Kept(actor) => self.end_keep(actor),
            Event::SayTo(client, node) => self.say_to(client, node),
            Event::Say(node) => self.say(node),
            Event::Take(node, number) => self.take(node, number),
            Event::Hear(client, number) => self.hear(client, number),
            Event::Enter(client) => self.enter(client),
            Event::Leave(client) => self.leave(client),
            Event::Rise(actor, is_new) => self.rise(actor, is_new),
            Event::Fall(actor) => self.fall(actor),
        }
    }

    fn begin(&mut self, client: Client, mode: Mode, resource: Name) -> Result<Effect, Refused> {
        let it = self.client(client)?;
        let ClientPhase::Idle = it.phase else {
            return Err(Refused);
        };
        let attempt = it.kept + 1;
        it.phase = ClientPhase::Chosen(Ticket {
            client,
            attempt,
            mode,
            resource,
        });
        Ok(Effect::Chose(attempt))
    }

    fn begin_keep(&mut self, actor: Actor) -> Result<Effect, Refused> {
        match actor {
            Actor::Node(node) => {
                let it = self.node(node)?;
                match it.phase {
                    NodePhase::Decided(_) if it.tried.is_none() => {
                        it.tried = Some(it.entries.clone())
                    }
                    _ => return Err(Refused),
                }
            }
            Actor::Client(client) => {
                let it = self.client(client)?;
                match it.phase {
                    ClientPhase::Chosen(ticket) if it.tried.is_none() => {
                        it.tried = Some(ticket.attempt)
                    }
                    _ => return Err(Refused),
                }
            }
        }
        Ok(Effect::Tried)
    }

    fn end_keep(&mut self, actor: Actor) -> Result<Effect, Refused> {
        match actor {
            Actor::Node(node) => {
                let it = self.node(node)?;
                it.kept = it.tried.take().ok_or(Refused)?;
                if let NodePhase::Decided(replies) = &mut it.phase {
                    it.phase = NodePhase::Stored(std::mem::take(replies));
                }
            }
            Actor::Client(client) => {
                let it = self.client(client)?;
                it.kept = it.tried.take().ok_or(Refused)?;
                if let ClientPhase::Chosen(ticket) = it.phase {
                    it.phase = ClientPhase::Asking(ticket, 0);
                }
            }
        }
        Ok(Effect::Kept)
    }

    fn say_to(&mut self, client: Client, node: Node) -> Result<Effect, Refused> {
        self.node(node)?;
        let it = self.client(client)?;
        let message = match it.phase {
            ClientPhase::Asking(ticket, _) => Message::Request(node, ticket),
            ClientPhase::Idle if it.kept > 0 => Message::Release(node, client, it.kept),
            _ => return Err(Refused),
        };
        Ok(Effect::Sent(self.send(message), message))
    }

    fn say(&mut self, node: Node) -> Result<Effect, Refused> {
        let it = self.node(node)?;
        let NodePhase::Stored(replies) = std::mem::replace(&mut it.phase, NodePhase::Idle) else {
            return Err(Refused);
        };
        let first = self.messages.len() + 1;
        self.messages.extend_from_slice(&replies);
        Ok(Effect::Said(first, replies.len()))
    }

    fn take(&mut self, node: Node, number: usize) -> Result<Effect, Refused> {
        let message = self.message(number)?;
        let it = self.node(node)?;
        let NodePhase::Idle = it.phase else {
            return Err(Refused);
        };
        let (changed, replies) = match message {
            Message::Request(to, ticket) if to == node => it.request(node, &ticket),
            Message::Release(to, client, attempt) if to == node => {
                it.release(node, client, attempt)
            }
            _ => return Err(Refused),
        };
        it.phase = if changed {
            NodePhase::Decided(replies)
        } else {
            NodePhase::Stored(replies)
        };
        Ok(if changed {
            Effect::Changed
        } else {
            Effect::Same
        })
    }

    fn hear(&mut self, client: Client, number: usize) -> Result<Effect, Refused> {
        let message = self.message(number)?;
        let it = self.client(client)?;
        match message {
            Message::Grant(node, ticket) if ticket.client == client => {
                if let ClientPhase::Asking(asked, granted) = &mut it.phase {
                    if *asked == ticket {
                        *granted |= 1 << node;
                    }
                }
                Ok(Effect::Counted)
            }
            Message::Busy(_, ticket) if ticket.client == client => Ok(Effect::Busy),
            Message::Done(_, to, _) if to == client => Ok(Effect::Done),
            _ => Err(Refused),
        }
    }

    fn enter(&mut self, client: Client) -> Result<Effect, Refused> {
        let (read, write) = (self.settings.read, self.settings.write);
        let ClientPhase::Asking(ticket, granted) = self.client(client)?.phase else {
            return Err(Refused);
        };
        let votes = &self.settings.votes;
        let had: u64 = votes
            .iter()
            .enumerate()
            .filter(|(at, _)| granted >> (at + 1) & 1 == 1)
            .map(|(_, votes)| votes)
            .sum();
        let wanted = if ticket.mode == Mode::Read {
            read
        } else {
            write
        };
        if had < wanted {
            return Err(Refused);
        }
        self.client(client)?.phase = ClientPhase::Inside(ticket);
        Ok(Effect::Inside)
    }

    fn leave(&mut self, client: Client) -> Result<Effect, Refused> {
        let it = self.client(client)?;
        match it.phase {
            ClientPhase::Asking(..) | ClientPhase::Inside(_) => it.phase = ClientPhase::Idle,
            _ => return Err(Refused),
        }
        Ok(Effect::Outside)
    }

    fn rise(&mut self, actor: Actor, is_new: bool) -> Result<Effect, Refused> {
        match actor {
            Actor::Node(node) => {
                let it = self.node(node)?;
                let NodePhase::Down = it.phase else {
                    return Err(Refused);
                };
                match (is_new, it.tried.take()) {
                    (true, Some(tried)) => it.kept = tried,
                    (true, None) => return Err(Refused),
                    (false, _) => {}
                }
                it.entries = it.kept.clone();
                it.phase = NodePhase::Idle;
            }
            Actor::Client(client) => {
                let it = self.client(client)?;
                let ClientPhase::Down = it.phase else {
                    return Err(Refused);
                };
                match (is_new, it.tried.take()) {
                    (true, Some(tried)) => it.kept = tried,
                    (true, None) => return Err(Refused),
                    (false, _) => {}
                }
                it.phase = ClientPhase::Idle;
            }
        }
        Ok(Effect::Up)
    }

    fn fall(&mut self, actor: Actor) -> Result<Effect, Refused> {
        match actor {
            Actor::Node(node) => match &mut self.node(node)?.phase {
                NodePhase::Down => return Err(Refused),
                phase => *phase = NodePhase::Down,
            },
            Actor::Client(client) => match &mut self.client(client)?.phase {
                ClientPhase::Down => return Err(Refused),
                phase => *phase = ClientPhase::Down,
            },
        }
        Ok(Effect::Down)
    }

    fn print_inside(&self, name: &Name, out: &mut impl Write) -> io::Result<()> {
        write!(out, "inside {name}:")?;
        for it in &self.clients {
            if let ClientPhase::Inside(ticket) = &it.phase {
                if ticket.resource == *name {
                    write!(out, " c{} {}", ticket.client, ticket.mode)?;
                }
            }
        }
        writeln!(out)
    }

    fn print(&self, effect: &Effect, out: &mut impl Write) -> io::Result<()> {
        match effect {
            Effect::Chose(attempt) => writeln!(out, "chose {attempt}"),
            Effect::Tried => writeln!(out, "tried"),
            Effect::Kept => writeln!(out, "kept"),
            Effect::Sent(number, message) => writeln!(out, "sent {number} {message}"),
            Effect::Said(first, count) => {
                for number in *first..first + count {
                    writeln!(out, "sent {number} {}", self.messages[number - 1])?;
                }
                Ok(())
            }
            Effect::Changed => writeln!(out, "changed"),
            Effect::Same => writeln!(out, "same"),
            Effect::Counted => writeln!(out, "counted"),
            Effect::Busy => writeln!(out, "busy"),
            Effect::Done => writeln!(out, "done"),
            Effect::Inside => writeln!(out, "inside"),
            Effect::Outside => writeln!(out, "outside"),
            Effect::Up => writeln!(out, "up"),
            Effect::Down => writeln!(out, "down"),
        }
    }
}

// ---- What is read.

fn number(word: &[u8]) -> Option<usize> {
    std::str::from_utf8(word).ok()?.parse().ok()
}

fn node(word: &[u8]) -> Option<Node> {
    number(word.strip_prefix(b"n")?)
}

fn client(word: &[u8]) -> Option<Client> {
    number(word.strip_prefix(b"c")?)
}

fn actor(word: &[u8]) -> Option<Actor> {
    node(word)
        .map(Actor::Node)
        .or_else(|| client(word).map(Actor::Client))
}

fn event(line: &[u8]) -> Option<Event> {
    let mut words = line.split(|b| *b == b' ');
    let event = match words.next()? {
        b"begin" => {
            let client = client(words.next()?)?;
            let mode = match words.next()? {
                b"read" => Mode::Read,
                b"write" => Mode::Write,
                _ => return None,
            };
            Event::Begin(client, mode, Name::of(words.next()?)?)
        }
        b"try" => Event::Try(actor(words.next()?)?),
        b"kept" => Event::Kept(actor(words.next()?)?),
        b"sayto" => Event::SayTo(client(words.next()?)?, node(words.next()?)?),
        b"say" => Event::Say(node(words.next()?)?),
        b"take" => Event::Take(node(words.next()?)?, number(words.next()?)?),
        b"hear" => Event::Hear(client(words.next()?)?, number(words.next()?)?),
        b"enter" => Event::Enter(client(words.next()?)?),
        b"leave" => Event::Leave(client(words.next()?)?),
        b"rise" => {
            let actor = actor(words.next()?)?;
            match words.next()? {
                b"old" => Event::Rise(actor, false),
                b"new" => Event::Rise(actor, true),
                _ => return None,
            }
        }
        b"fall" => Event::Fall(actor(words.next()?)?),
        _ => return None,
    };
    words.next().is_none().then_some(event)
}

fn settings(input: &mut impl BufRead) -> io::Result<Settings> {
    let mut settings = Settings {
        votes: Vec::new(),
        read: 0,
        write: 0,
        clients: 0,
    };
    let mut line = String::new();
    while input.read_line(&mut line)? > 0 && line != "---\n" {
        if let Some((key, value)) = line.trim_end().split_once(" = ") {
            match key {
                "votes" => {
                    settings.votes = value
                        .trim_matches(['[', ']'])
                        .split(", ")
                        .filter_map(|it| it.parse().ok())
                        .collect()
                }
                "read" => settings.read = value.parse().unwrap_or(0),
                "write" => settings.write = value.parse().unwrap_or(0),
                "clients" => settings.clients = value.parse().unwrap_or(0),
                _ => {}
            }
        }
        line.clear();
    }
    Ok(settings)
}

fn script(world: &mut World, input: &mut impl BufRead, out: &mut impl Write) -> io::Result<()> {
    let mut line = Vec::new();
    while input.read_until(b'\n', &mut line)? > 0 {
        let text = line.strip_suffix(b"\n").unwrap_or(&line);
        if let Some(name) = text.strip_prefix(b"inside ").and_then(Name::of) {
            world.print_inside(&name, out)?;
        } else {
            match event(text).map(|event| world.step(&event)) {
                Some(Ok(effect)) => world.print(&effect, out)?,
                Some(Err(Refused)) => writeln!(out, "refused")?,
                None => writeln!(out, "bad line")?,
            }
        }
        line.clear();
    }
    Ok(())
}

fn audit(world: &mut World, input: &mut impl BufRead, out: &mut impl Write) -> io::Result<()> {
    let (mut line, mut count) = (Vec::new(), 0_u64);
    while input.read_until(b'\n', &mut line)? > 0 {
        count += 1;
        let text = line.strip_suffix(b"\n").unwrap_or(&line);
        if !matches!(event(text).map(|event| world.step(&event)), Some(Ok(_))) {
            return writeln!(out, "broken at line {count}");
        }
        line.clear();
    }
    writeln!(out, "sound {count}")
}

fn run() -> io::Result<()> {
    let is_script = std::env::args().nth(1).as_deref() == Some("script");
    let mut input = io::stdin().lock();
    let mut out = BufWriter::new(io::stdout().lock());
    let mut world = World::new(settings(&mut input)?, is_script);
    if is_script {
        script(&mut world, &mut input, &mut out)?
    } else {
        audit(&mut world, &mut input, &mut out)?
    };
    out.flush()
}

fn main() -> ExitCode {
    match run() {
        Ok(()) => ExitCode::SUCCESS,
        Err(_) => ExitCode::from(2),
    }
}
