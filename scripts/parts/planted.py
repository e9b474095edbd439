"""The differences that scripts/documents has to see, by the page or file that has to show each one by itself: a file,
its text, and the text in its place."""
LOOKS, SIDE = "crates/oneshot_ends/src/ground/looks.rt", "crates/oneshot_word/src/sender.rt"
SENDER = "crates/oneshot_ends/src/sender.rt"
CHANNEL = ["machine", "errors", "drive", "word", "ends", "reply", "watch"]
ROOT = "#![tactic(auto)]"
FORGETS = ["forget(0)", "ManuallyDrop", "MaybeUninit", "Box::leak(0)", "Box::into_raw", "Arc::into_raw", "Rc::into_raw"]
# Differences of a page come before those of the sources that it is printed from.
IN_PRINTED = {
    "README.md": [
        ("README.md", "fn main", "fn start"),
        ("README.md", "```sh", "```rust"),
        ("README.md", "```sh", "  ```rust"),
        ("README.md", "printed: code", "printed: codes"),
        ("README.md", "<!--end-->", ""),
        ("crates/hello/src/main.rt", "19", "20"),
    ],
    "docs/ARCHITECTURE.md": [
        ("docs/ARCHITECTURE.md", "<!--printed: picture-->", ""),
        ("crates.txt", "oneshot_reply may_wait=2: oneshot_errors oneshot_ends", "oneshot_reply: oneshot_errors"),
    ],
    "docs/PROTOCOL.md": [
        ("docs/PROTOCOL.md", "printed: positions Look-->", "printed: positions Drop-->"),
        ("crates/oneshot_machine/specs/Timed.antt", "(Word UNPARKING, Goes ", "(Word MESSAGE, Goes "),
        ("crates/oneshot_machine/src/states.rt", "RECEIVING: u8 = 0", "RECEIVING: u8 = 1"),
    ],
    "docs/CALLING.md": [
        ("docs/CALLING.md", "contracts Sender::send-->", "contracts Sender::send_kept-->"),
        ("docs/CALLING.md", "<!--printed: clauses-->", ""),
        ("docs/CALLING.md", "<!--printed: code hello_request/src/main.rt-->", ""),
        (SENDER, "pub fn is_closed", "pub fn more() {}\n\n    pub fn is_closed"),
        # the clauses of a contract that is not printed whole
        ("crates/oneshot_ends/src/receiver.rt",
         "fn recv_ref(&mut self) -> Result<T, RecvError>\n        ensures channel",
         "fn recv_ref(&mut self) -> Result<T, RecvError>\n        ensures channels"),
        # a call that no more has the clauses of another, and one that lacks
        ("crates/oneshot_watch/src/ticket.rt", "ensures right {", "ensures rights {"),
        ("crates/oneshot_watch/src/replies.rt", "same_waker", "waker"),
        ("crates/oneshot_watch/src/replies.rt", "TakesReady result self.old.took", "TakesReady result self.new.took"),
        ("crates/oneshot_watch/src/requests.rt", "requires fits {", "requires fitting {"),
        ("crates/oneshot_watch/src/ticket.rt", "fn is_closed", "fn is_done"),
    ],
    "docs/MODEL.md": [
        ("docs/MODEL.md", ",CallList::as_slice", ""),
        ("crates/oneshot_world/src/trace.rt", "pub enum Place", "pub enum Spot"),
    ],
    "docs/COVERAGE.md": [
        ("docs/COVERAGE.md", "<!--printed: definitions-->", ""),
        # what covers a call: a test, and an edit that can no more be made
        ("crates/oneshot_out_of_memory/src/channels.rt", "async_channel(", "channel("),
        ("crates/oneshot_drive/must-fail/always_sent.edit", "old: DISCONNECTED", "old: DISCONNECTS"),
        # how many rounds a race has, which end drops, and calls that no program makes for the pairs that have them
        ("crates/oneshot_rounds/src/sizes.rt", "ROUNDS: u64 = 100;", "ROUNDS: u64 = 99;"),
        ("crates/oneshot_rounds/src/beside_a_send.rt", '"send into", "drop"', '"send into", "try"'),
        ("crates/oneshot_calls/src/receives.rt", "self.recv_ref()", "self.recv()"),
        ("crates/oneshot_calls/src/receives.rt", "Receiver::from_raw(self.into_raw())", "self"),
        ("crates/oneshot_calls/src/sends.rt", "Sender::from_raw(self.into_raw())", "self"),
        # the file of a contract that a trait's function has, and a drop without a clause
        ("docs/COVERAGE.md", "| `AsyncReceiver::poll` | ends/future |", "| `AsyncReceiver::poll` | none |"),
        ("docs/COVERAGE.md", "| `Sender::drop` | none |", "| `Sender::drop` | ends/sender |"),
        # a definition that an example reached: of a function, of a trait, of its impl, and of a ghost member
        ("crates/oneshot_contract_examples/specs/DriverExamples.antt", "HandsNoWaker", "IsOpenAt"),
        ("crates/oneshot_contract_examples/specs/DriverExamples.antt", "SenderAsks", "IsOpenAt"),
        ("crates/oneshot_contract_examples/specs/EndExamples.antt", "HasMade", "IsOpen"),
        ("crates/oneshot_contract_examples/specs/OwnExamples.antt", "KeepsLent", "KeepsOwn"),
    ],
    "docs/TRUST.md": [
        ("docs/TRUST.md", "<!--printed: unsafe-->", ""),
        # what functions do with the shared table, and which look
        (SIDE, "fetch_xor", "fetch_add"),
        *((SIDE, "self.table", f"{loop} self.table") for loop in ("for", "while", "loop")),
        (LOOKS, "self.side.peek()", "self.side.peek() + self.side.peek()"),
        (LOOKS, "self.side.peek() == MESSAGE", "loop self.side.peek() == MESSAGE"),
        (LOOKS, "use oneshot_word", "const A: fn() = peek; use oneshot_word"),
        ("crates/oneshot_ends/src/future.rt", "self.ground.has_message()", "self.ground.is_closed()"),
        ("crates/oneshot_ends/src/pair.rt", "use oneshot_word::{", "use oneshot_word::{Peek, "),
        ("crates/oneshot_reply/src/ticket.rt", "replies.is_closed()", "replies.has_message()"),
        ("crates/oneshot_reply/src/requests.rt", "self.reply.is_closed()", "while self.reply.is_closed()"),
        ("crates/oneshot_watch/src/replies.rt", "replies.has_message()", "replies.is_closed()"),
        # which functions pause, and the loops of the drivers
        (SENDER, "self.side.is_closed()", "{ yield_now(); self.side.is_closed() }"),
        (SENDER, "self.side.is_closed()", "{ sleep(0); self.side.is_closed() }"),
        ("crates/oneshot_drive/src/waiting.rt", "for _ in rt.forever() {", "{"),
        ("crates/oneshot_reply/src/requests.rt", "use oneshot_ends", "use std::thread::yield_now as go; use oneshot"),
        # what is unsafe, or forgets a value
        *(("crates/oneshot_drive/src/lib.rt", ROOT, f"{words} {ROOT}") for words in FORGETS),
        *((f"crates/oneshot_{crate}/src/lib.rt", ROOT, f"unsafe {ROOT}") for crate in CHANNEL),
        ("crates/oneshot_ends/src/freed.rt", "unsafe impl", "impl"),
        ("crates/oneshot_drive/src/lib.rt", ROOT, f'"//"; unsafe {ROOT}'),
    ],
    "docs/benchmarks.svg": [("docs/benchmarks.svg", "</svg>", "")],
}
