//! The loops of `oneshot_bench` over the Rust crate `oneshot`: `rust_oneshot LOOP COUNT`.

use std::future::Future;
use std::hint::black_box;
use std::pin::Pin;
use std::sync::Arc;
use std::task::{Context, Poll, Wake, Waker};

/// How many rounds one start of a thread serves.
const BATCH: u64 = 1024;

const LARGE: [u8; 4096] = [7; 4096];

struct Quiet;

impl Wake for Quiet {
    fn wake(self: Arc<Self>) {}
}

struct Request {
    reply: oneshot::Sender<()>,
}

fn make_drop<T>(count: u64) {
    for _ in 0..count {
        let (sender, receiver) = black_box(oneshot::channel::<T>());
        drop(sender);
        drop(receiver);
    }
}

fn make_send_receive_drop<T: Copy>(count: u64, message: T) {
    for _ in 0..count {
        let (sender, receiver) = black_box(oneshot::channel());
        assert!(sender.send(black_box(message)).is_ok());
        assert!(receiver.try_recv().is_ok());
    }
}

fn make_send_recv<T: Copy>(count: u64, message: T) {
    for _ in 0..count {
        let (sender, receiver) = black_box(oneshot::channel());
        assert!(sender.send(black_box(message)).is_ok());
        assert!(receiver.recv().is_ok());
    }
}

fn make_poll_send_poll<T: Copy>(count: u64, message: T) {
    let waker = Waker::from(Arc::new(Quiet));
    let mut cx = Context::from_waker(&waker);
    for _ in 0..count {
        let (sender, mut receiver) = black_box(oneshot::async_channel());
        assert!(Pin::new(&mut receiver).poll(&mut cx).is_pending());
        assert!(sender.send(black_box(message)).is_ok());
        assert!(matches!(Pin::new(&mut receiver).poll(&mut cx), Poll::Ready(Ok(_))));
    }
}

fn batch(count: u64) {
    let (senders, receivers): (Vec<_>, Vec<_>) = (0..count).map(|_| oneshot::channel::<Request>()).unzip();
    std::thread::scope(|scope| {
        scope.spawn(move || {
            for requests in senders {
                let (reply, replies) = oneshot::channel();
                assert!(requests.send(Request { reply }).is_ok());
                assert!(replies.recv().is_ok());
            }
        });
        for requests in receivers {
            let Request { reply } = requests.recv().expect("a request");
            assert!(reply.send(()).is_ok());
        }
    });
}

fn round_trip(count: u64) {
    for _ in 0..count / BATCH {
        batch(BATCH);
    }
    batch(count % BATCH);
}

fn main() {
    let words: Vec<String> = std::env::args().skip(1).collect();
    let [kind, count] = words.as_slice() else {
        panic!("usage: rust_oneshot LOOP COUNT");
    };
    let count = count.parse().expect("a count");
    match kind.as_str() {
        "make_drop" => make_drop::<u64>(count),
        "make_send_receive_drop" => make_send_receive_drop(count, 7u64),
        "make_send_recv" => make_send_recv(count, 7u64),
        "make_poll_send_poll" => make_poll_send_poll(count, 7u64),
        "make_send_receive_drop_4096" => make_send_receive_drop(count, LARGE),
        "round_trip" => round_trip(count),
        _ => panic!("no such loop: {kind}"),
    }
}
