// The same service without a world: a thread for each node and each client, `std::sync::mpsc` for
// inboxes, frames of bytes, and one lock round a list of events with their effects. It reads the
// settings of a run, and prints what `rwvote run` prints of it; after the word `--journal` the
// settings and the journal. README.md says what it does alike and what it leaves out.
use std::collections::VecDeque;
use std::fmt;
use std::io::{self, Read, Write};
use std::sync::Mutex;
use std::sync::mpsc::{self, Receiver, Sender};
use std::thread;

type Node = u8;
type Client = u32;
type Attempt = u64;

#[derive(Clone, Copy, PartialEq, Eq)]
struct Name {
    room: [u8; 32],
    size: usize,
}

#[derive(Clone, Copy, PartialEq, Eq)]
enum Mode {
    Read,
    Write,
}

#[derive(Clone, Copy, PartialEq, Eq)]
struct Ticket {
    client: Client,
    attempt: Attempt,
    mode: Mode,
    resource: Name,
}

#[derive(Clone, Copy)]
enum Message {
    Request(Node, Ticket),
    Release(Node, Client, Attempt),
    Grant(Node, Ticket),
    Busy(Node, Ticket),
    Done(Node, Client, Attempt),
}

#[derive(Clone, Copy)]
enum Actor {
    Node(Node),
    Client(Client),
}

#[derive(Clone, Copy)]
enum Event {
    Begin(Client, Mode, Name),
    Try(Actor),
    Kept(Actor),
    SayTo(Client, Node),
    Say(Node),
    Take(Node, u32),
    Hear(Client, u32),
    Enter(Client),
    Leave(Client),
    Rise(Actor),
}

#[derive(Clone, Copy)]
enum Heard {
    Counted,
    Busy,
    Done,
}

// The fields of an effect are kept, as the program's book keeps them, and nobody reads them.
#[derive(Clone, Copy)]
#[allow(dead_code)]
enum Effect {
    Chose(Attempt),
    Tried,
    Kept,
    Sent(u32, Message),
    Said { first: u32, count: u32 },
    Took(Message, bool),
    Heard(Message, Heard),
    Inside,
    Outside,
    Up,
}

// ---- The book: one lock round the events and the number of messages that were sent.

#[derive(Default)]
struct Book {
    events: Vec<(Event, Effect)>,
    sent: u32,
}

type Shared = Mutex<Book>;

fn log(book: &Shared, event: Event, effect: Effect) {
    book.lock().unwrap().events.push((event, effect));
}

// Numbers a message, and logs that it is sent.
fn log_sent(book: &Shared, event: Event, message: Message) -> u32 {
    let mut book = book.lock().unwrap();
    book.sent += 1;
    let number = book.sent;
    book.events.push((event, Effect::Sent(number, message)));
    number
}

// Numbers the replies, and logs that they are said. Answers the first one's number.
fn log_said(book: &Shared, event: Event, count: u32) -> u32 {
    let mut book = book.lock().unwrap();
    let first = book.sent + 1;
    book.sent += count;
    book.events.push((event, Effect::Said { first, count }));
    first
}

// ---- Frames, and what goes through inboxes.

struct Parcel {
    number: u32,
    frame: Vec<u8>,
}

fn put_head(out: &mut Vec<u8>, kind: u8, node: Node, client: Client, attempt: Attempt) {
    out.extend_from_slice(&[1, kind, node]);
    out.extend_from_slice(&client.to_be_bytes());
    out.extend_from_slice(&attempt.to_be_bytes());
}

fn put_ticket(out: &mut Vec<u8>, kind: u8, node: Node, ticket: &Ticket) {
    let name = &ticket.resource.room[..ticket.resource.size];
    put_head(out, kind, node, ticket.client, ticket.attempt);
    out.extend_from_slice(&[ticket.mode as u8, name.len() as u8]);
    out.extend_from_slice(name);
}

fn encode(message: &Message) -> Vec<u8> {
    let mut out;
    match message {
        Message::Request(node, ticket)
        | Message::Grant(node, ticket)
        | Message::Busy(node, ticket) => {
            let kind = match message {
                Message::Request(..) => 1,
                Message::Grant(..) => 3,
                _ => 4,
            };
            out = Vec::with_capacity(17 + ticket.resource.size);
            put_ticket(&mut out, kind, *node, ticket);
        }
        Message::Release(node, client, attempt) | Message::Done(node, client, attempt) => {
            let kind = if matches!(message, Message::Release(..)) {
                2
            } else {
                6
            };
            out = Vec::with_capacity(15);
            put_head(&mut out, kind, *node, *client, *attempt);
        }
    }
    out
}

fn is_name(bytes: &[u8]) -> bool {
    let may_stand = |b: &u8| matches!(b, b'a'..=b'z' | b'0'..=b'9' | b'-');
    (1..=32).contains(&bytes.len()) && bytes.iter().all(may_stand)
}

fn name_of(bytes: &[u8]) -> Option<Name> {
    if !is_name(bytes) {
        return None;
    }
    let mut room = [0; 32];
    room[..bytes.len()].copy_from_slice(bytes);
    Some(Name {
        room,
        size: bytes.len(),
    })
}

fn ticket_of(client: Client, attempt: Attempt, rest: &[u8]) -> Option<Ticket> {
    let [mode, size, name @ ..] = rest else {
        return None;
    };
    let mode = match mode {
        0 => Mode::Read,
        1 => Mode::Write,
        _ => return None,
    };
    let resource = name_of(name).filter(|name| name.size == usize::from(*size))?;
    Some(Ticket {
        client,
        attempt,
        mode,
        resource,
    })
}

fn decode(frame: &[u8]) -> Option<Message> {
    let [1, kind, node, rest @ ..] = frame else {
        return None;
    };
    let (client, rest) = rest.split_first_chunk::<4>()?;
    let (attempt, rest) = rest.split_first_chunk::<8>()?;
    let (client, attempt) = (u32::from_be_bytes(*client), u64::from_be_bytes(*attempt));
    match kind {
        1 => Some(Message::Request(*node, ticket_of(client, attempt, rest)?)),
        3 => Some(Message::Grant(*node, ticket_of(client, attempt, rest)?)),
        4 => Some(Message::Busy(*node, ticket_of(client, attempt, rest)?)),
        2 if rest.is_empty() => Some(Message::Release(*node, client, attempt)),
        6 if rest.is_empty() => Some(Message::Done(*node, client, attempt)),
        _ => None,
    }
}

// ---- Records in memory: each keep copies the bytes.

struct Record {
    bytes: Vec<u8>,
}

impl Record {
    fn keep(&mut self, bytes: &[u8]) {
        self.bytes = bytes.to_vec();
    }
}

// Logs that the actor tries to keep these bytes, keeps them, and logs that they are kept.
fn keep(actor: Actor, bytes: &[u8], record: &mut Record, book: &Shared) {
    log(book, Event::Try(actor), Effect::Tried);
    record.keep(bytes);
    log(book, Event::Kept(actor), Effect::Kept);
}

// ---- A node: its entries, in the order in which tickets arrived, and what it decides.

#[derive(Clone, Copy)]
struct Live {
    ticket: Ticket,
    holds: bool,
}

#[derive(Clone, Copy)]
struct Entry {
    client: Client,
    floor: Attempt,
    live: Option<Live>,
}

struct NodeCore {
    node: Node,
    entries: VecDeque<Entry>,
}

impl NodeCore {
    fn lives(&self) -> impl Iterator<Item = &Live> {
        self.entries.iter().filter_map(|entry| entry.live.as_ref())
    }

    // Whether a ticket is admitted, under problem 1.
    fn admits(&self, ticket: &Ticket) -> bool {
        let holds = |live: &&Live| live.holds && live.ticket.resource == ticket.resource;
        match ticket.mode {
            Mode::Write => !self.lives().any(|live| holds(&live)),
            Mode::Read => !self
                .lives()
                .any(|live| holds(&live) && live.ticket.mode == Mode::Write),
        }
    }

    // Tickets that wait and are admitted now hold, the first one first.
    fn settle(&mut self, resource: &Name, replies: &mut Vec<Message>) {
        for place in 0..self.entries.len() {
            let Some(live) = self.entries[place].live else {
                continue;
            };
            if live.holds || live.ticket.resource != *resource || !self.admits(&live.ticket) {
                continue;
            }
            self.entries[place].live = Some(Live {
                holds: true,
                ..live
            });
            replies.push(Message::Grant(self.node, live.ticket));
        }
    }

    fn place_of(&self, client: Client) -> Option<usize> {
        self.entries.iter().position(|entry| entry.client == client)
    }

    // A new ticket holds or waits behind the others. Here each client has released its last one, and
    // nothing is repeated.
    fn request(&mut self, ticket: &Ticket) -> Vec<Message> {
        let holds = self.admits(ticket);
        if let Some(place) = self.place_of(ticket.client) {
            self.entries.remove(place);
        }
        self.entries.push_back(Entry {
            client: ticket.client,
            floor: ticket.attempt - 1,
            live: Some(Live {
                ticket: *ticket,
                holds,
            }),
        });
        let reply = if holds { Message::Grant } else { Message::Busy };
        vec![reply(self.node, *ticket)]
    }

    fn release(&mut self, client: Client, attempt: Attempt) -> Vec<Message> {
        let mut replies = vec![Message::Done(self.node, client, attempt)];
        if let Some(place) = self.place_of(client) {
            let entry = &mut self.entries[place];
            entry.floor = attempt;
            if let Some(live) = entry.live.take() {
                self.settle(&live.ticket.resource, &mut replies);
            }
        }
        replies
    }

    fn record(&self) -> Vec<u8> {
        let mut out = Vec::new();
        out.extend_from_slice(&[1, 1]);
        out.extend_from_slice(&(self.entries.len() as u16).to_be_bytes());
        for entry in &self.entries {
            out.extend_from_slice(&entry.client.to_be_bytes());
            out.extend_from_slice(&entry.floor.to_be_bytes());
            let Some(live) = &entry.live else {
                out.push(0);
                continue;
            };
            out.push(if live.holds { 2 } else { 1 });
            let ticket = &live.ticket;
            out.extend_from_slice(&ticket.attempt.to_be_bytes());
            out.extend_from_slice(&[ticket.mode as u8, ticket.resource.size as u8]);
            out.extend_from_slice(&ticket.resource.room[..ticket.resource.size]);
        }
        out
    }
}

fn client_of(message: &Message) -> Client {
    match message {
        Message::Request(_, ticket) | Message::Grant(_, ticket) | Message::Busy(_, ticket) => {
            ticket.client
        }
        Message::Release(_, client, _) | Message::Done(_, client, _) => *client,
    }
}

fn run_node(node: Node, inbox: Receiver<Parcel>, clients: Vec<Sender<Parcel>>, book: &Shared) {
    let actor = Actor::Node(node);
    let mut record = Record {
        bytes: vec![1, 1, 0, 0],
    };
    let mut core = NodeCore {
        node,
        entries: VecDeque::new(),
    };
    log(book, Event::Rise(actor), Effect::Up);
    while let Ok(Parcel { number, frame }) = inbox.recv() {
        let Some(message) = decode(&frame) else {
            continue;
        };
        log(book, Event::Take(node, number), Effect::Took(message, true));
        let replies = match &message {
            Message::Request(to, ticket) if *to == node => core.request(ticket),
            Message::Release(to, client, attempt) if *to == node => core.release(*client, *attempt),
            _ => continue,
        };
        keep(actor, &core.record(), &mut record, book);
        let first = log_said(book, Event::Say(node), replies.len() as u32);
        for (reply, number) in replies.iter().zip(first..) {
            let frame = encode(reply);
            // A client that has ended needs no reply.
            let _ = clients[client_of(reply) as usize - 1].send(Parcel { number, frame });
        }
    }
}

// ---- A client: one wish after the other.

struct Wish {
    client: Client,
    mode: Mode,
    resource: Name,
}

struct ClientRun<'a> {
    client: Client,
    inbox: Receiver<Parcel>,
    nodes: Vec<Sender<Parcel>>,
    votes: &'a [u8],
    book: &'a Shared,
}

impl ClientRun<'_> {
    fn tell(&self, node: Node, message: Message) {
        let number = log_sent(self.book, Event::SayTo(self.client, node), message);
        let frame = encode(&message);
        let _ = self.nodes[usize::from(node) - 1].send(Parcel { number, frame });
    }

    // Hears the next message, and answers its node where it is the one that is waited for.
    fn hear(&self, attempt: Attempt) -> Option<(Node, Heard)> {
        let Parcel { number, frame } = self.inbox.recv().unwrap();
        let message = decode(&frame).filter(|message| client_of(message) == self.client)?;
        let (node, heard) = match message {
            Message::Grant(node, ticket) if ticket.attempt == attempt => (node, Heard::Counted),
            Message::Busy(node, ticket) if ticket.attempt == attempt => (node, Heard::Busy),
            Message::Done(node, _, of) if of == attempt => (node, Heard::Done),
            _ => return None,
        };
        log(
            self.book,
            Event::Hear(self.client, number),
            Effect::Heard(message, heard),
        );
        Some((node, heard))
    }

    // Asks one node after the other until their votes are enough; answers how many were asked.
    fn ask(&self, ticket: Ticket, need: u32) -> Node {
        let (mut votes, mut asked) = (0, 0);
        for (node, vote) in (1..).zip(self.votes) {
            if votes >= need {
                break;
            }
            self.tell(node, Message::Request(node, ticket));
            asked = node;
            while !matches!(self.hear(ticket.attempt), Some((_, Heard::Counted))) {}
            votes += u32::from(*vote);
        }
        asked
    }

    fn release(&self, attempt: Attempt, asked: Node) {
        for node in 1..=asked {
            self.tell(node, Message::Release(node, self.client, attempt));
        }
        let mut done = 0;
        while done < asked {
            if matches!(self.hear(attempt), Some((_, Heard::Done))) {
                done += 1;
            }
        }
    }

    fn fulfil(&self, wish: &Wish, attempt: Attempt, need: u32, record: &mut Record) {
        let (client, mode, resource) = (self.client, wish.mode, wish.resource);
        log(
            self.book,
            Event::Begin(client, mode, resource),
            Effect::Chose(attempt),
        );
        let mut bytes = [1; 9];
        bytes[1..].copy_from_slice(&attempt.to_be_bytes());
        keep(Actor::Client(client), &bytes, record, self.book);
        let asked = self.ask(
            Ticket {
                client,
                attempt,
                mode,
                resource,
            },
            need,
        );
        log(self.book, Event::Enter(client), Effect::Inside);
        log(self.book, Event::Leave(client), Effect::Outside);
        self.release(attempt, asked);
    }

    fn run(&self, wishes: &[Wish], needs: (u32, u32)) {
        let mut record = Record {
            bytes: vec![1, 0, 0, 0, 0, 0, 0, 0, 0],
        };
        log(
            self.book,
            Event::Rise(Actor::Client(self.client)),
            Effect::Up,
        );
        for (wish, attempt) in wishes.iter().zip(1..) {
            let need = match wish.mode {
                Mode::Read => needs.0,
                Mode::Write => needs.1,
            };
            self.fulfil(wish, attempt, need, &mut record);
        }
    }
}

// ---- The settings, the threads, and what is printed.

struct Settings {
    votes: Vec<u8>,
    needs: (u32, u32),
    clients: Client,
    wishes: Vec<Wish>,
}

fn wish_of(text: &str) -> Option<Wish> {
    let mut words = text.split(' ');
    let client = words.next()?.strip_prefix('c')?.parse().ok()?;
    let mode = match words.next()? {
        "read" => Mode::Read,
        "write" => Mode::Write,
        _ => return None,
    };
    let resource = name_of(words.next()?.as_bytes())?;
    Some(Wish {
        client,
        mode,
        resource,
    })
}

// Reads lines such as `clients = 4`, as `run` of this folder writes them.
fn settings_of(text: &str) -> Option<Settings> {
    let mut settings = Settings {
        votes: Vec::new(),
        needs: (0, 0),
        clients: 0,
        wishes: Vec::new(),
    };
    for line in text.lines().take_while(|line| *line != "---") {
        let (key, value) = line.split_once(" = ")?;
        match key {
            "votes" => {
                settings.votes = value
                    .trim_matches(['[', ']'])
                    .split(", ")
                    .map(|v| v.parse().ok())
                    .collect::<Option<_>>()?
            }
            "read" => settings.needs.0 = value.parse().ok()?,
            "write" => settings.needs.1 = value.parse().ok()?,
            "clients" => settings.clients = value.parse().ok()?,
            "wishes" => {
                settings.wishes = value
                    .split('"')
                    .skip(1)
                    .step_by(2)
                    .map(wish_of)
                    .collect::<Option<_>>()?
            }
            _ => {}
        }
    }
    Some(settings)
}

fn run_all(settings: &Settings) -> Book {
    let book = Mutex::new(Book::default());
    let (nodes, node_inboxes): (Vec<_>, Vec<_>) =
        settings.votes.iter().map(|_| mpsc::channel()).unzip();
    let (clients, client_inboxes): (Vec<_>, Vec<_>) =
        (0..settings.clients).map(|_| mpsc::channel()).unzip();
    thread::scope(|scope| {
        let book = &book;
        for (node, inbox) in (1..).zip(node_inboxes) {
            let clients = clients.clone();
            scope.spawn(move || run_node(node, inbox, clients, book));
        }
        for (client, inbox) in (1..).zip(client_inboxes) {
            let run = ClientRun {
                client,
                inbox,
                nodes: nodes.clone(),
                votes: &settings.votes,
                book,
            };
            let own = settings.wishes.iter().filter(|wish| wish.client == client);
            let own: Vec<Wish> = own.map(|wish| Wish { ..*wish }).collect();
            scope.spawn(move || run.run(&own, settings.needs));
        }
        // A node ends once no client is left that could send to it.
        drop((nodes, clients));
    });
    book.into_inner().unwrap()
}

impl fmt::Display for Actor {
    fn fmt(&self, f: &mut fmt::Formatter) -> fmt::Result {
        match self {
            Actor::Node(node) => write!(f, "n{node}"),
            Actor::Client(client) => write!(f, "c{client}"),
        }
    }
}

fn line_of(event: &Event) -> String {
    match event {
        Event::Begin(client, mode, name) => {
            let mode = if *mode == Mode::Read { "read" } else { "write" };
            format!(
                "begin c{client} {mode} {}",
                String::from_utf8_lossy(&name.room[..name.size])
            )
        }
        Event::Try(who) => format!("try {who}"),
        Event::Kept(who) => format!("kept {who}"),
        Event::SayTo(client, node) => format!("sayto c{client} n{node}"),
        Event::Say(node) => format!("say n{node}"),
        Event::Take(node, number) => format!("take n{node} {number}"),
        Event::Hear(client, number) => format!("hear c{client} {number}"),
        Event::Enter(client) => format!("enter c{client}"),
        Event::Leave(client) => format!("leave c{client}"),
        Event::Rise(who) => format!("rise {who} old"),
    }
}

fn main() -> io::Result<()> {
    let mut text = String::new();
    io::stdin().read_to_string(&mut text)?;
    let settings = settings_of(&text).expect("settings");
    let book = run_all(&settings);
    let mut out = io::BufWriter::new(io::stdout().lock());
    if std::env::args().any(|word| word == "--journal") {
        out.write_all(text.as_bytes())?;
        for (event, _) in &book.events {
            writeln!(out, "{}", line_of(event))?;
        }
        return Ok(());
    }
    let entered = book
        .events
        .iter()
        .filter(|(event, _)| matches!(event, Event::Enter(_)))
        .count();
    writeln!(out, "entered {entered}\nevents {}", book.events.len())
}
