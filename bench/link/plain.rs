// The same in plain Rust: parcels from some senders to one receiver, and to and fro between two threads,
// over the channels of `std::sync::mpsc`.
use std::sync::Arc;
use std::sync::mpsc::{self, Receiver, Sender};
use std::thread;
use std::time::{Duration, Instant};

const PARCELS: u32 = 400_000;
const TURNS: u32 = 50_000;
const ROUNDS: u32 = 7;

type Frame = Arc<[u8]>;

struct Parcel {
    number: u32,
    frame: Frame,
}

fn send(to: Sender<Parcel>, count: u32, frame: Frame) {
    for number in 0..count {
        to.send(Parcel {
            number,
            frame: frame.clone(),
        })
        .unwrap();
    }
}

fn time_stream(senders: u32, frame: &Frame) -> Duration {
    let (sender, inbox) = mpsc::channel();
    let start = Instant::now();
    let threads: Vec<_> = (0..senders)
        .map(|_| {
            let (sender, frame) = (sender.clone(), frame.clone());
            thread::spawn(move || send(sender, PARCELS / senders, frame))
        })
        .collect();
    drop(sender);
    let came = inbox.iter().count() as u32;
    assert_eq!(came, PARCELS / senders * senders);
    for thread in threads {
        thread.join().unwrap();
    }
    start.elapsed()
}

fn answer(inbox: Receiver<Parcel>, to: Sender<Parcel>) {
    for parcel in inbox {
        to.send(parcel).unwrap();
    }
}

fn time_turns(frame: &Frame) -> Duration {
    let (to_there, there) = mpsc::channel();
    let (to_here, here) = mpsc::channel();
    let start = Instant::now();
    let thread = thread::spawn(move || answer(there, to_here));
    for number in 0..TURNS {
        to_there
            .send(Parcel {
                number,
                frame: frame.clone(),
            })
            .unwrap();
        let parcel: Parcel = here.recv().unwrap();
        assert!(parcel.number == number && parcel.frame.len() == frame.len());
    }
    drop(to_there);
    thread.join().unwrap();
    start.elapsed()
}

fn main() {
    let frame: Frame =
        Arc::from(*b"\x01\x01\x01\x00\x00\x00\x01\x00\x00\x00\x00\x00\x00\x00\x01\x00\x01a");
    for senders in [1, 4] {
        let best = (0..ROUNDS)
            .map(|_| time_stream(senders, &frame))
            .min()
            .unwrap();
        let rate = u128::from(PARCELS) * 1_000 / best.as_micros();
        println!("{senders} senders: std::sync::mpsc {rate} thousand parcels a second");
    }
    let best = (0..ROUNDS).map(|_| time_turns(&frame)).min().unwrap();
    println!(
        "to and fro: std::sync::mpsc {} nanoseconds a turn",
        best.as_nanos() / u128::from(TURNS)
    );
}
