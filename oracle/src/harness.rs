//! Feeds a day's events, one at a time, into the worker's own loop, and holds what the worker hands
//! out: requests that wait, pending connections and lent ones.

use std::{
    collections::VecDeque,
    future::Future,
    pin::pin,
    rc::Rc,
    task::{Context, Poll, Waker},
    time::{set_clock, Duration},
};

use tokio::{
    counts::{script_noted, Counts},
    sync::{broadcast, oneshot::Receiver},
};

use crate::{
    added::age,
    cmap::{
        conn::{pooled::PooledConnection, PinnedConnectionHandle},
        establish::door::{Answer, ConnectionPoolOptions, ConnectionRequestResult, Door},
    },
    error::{Error, Result},
    event::{cmap::ConnectionClosedReason, EventHandler},
    runtime::{AsyncJoinHandle, Run},
    script::{self, Outcome, Seen, Spawned},
    text::{
        kind, record, Frame, Options, Record, CLOSED_BY_POOL, ERRORED, EXECUTING, NETWORK_TIMEOUT,
    },
};

/// A request without an answer; abandoned where its receiver is gone.
pub(crate) struct Waiting {
    pub(crate) request: u32,
    receiver: Option<Receiver<ConnectionRequestResult>>,
}

impl Waiting {
    pub(crate) fn is_abandoned(&self) -> bool {
        self.receiver.is_none()
    }
}

/// A connection outside the worker: it is being established, or somebody holds it.
pub(crate) struct Seat {
    pub(crate) connection: u32,
    /// When it was last named, created or lent.
    pub(crate) touched: u64,
    pub(crate) held: Held,
}

pub(crate) enum Held {
    PendingForRequest {
        task: Rc<dyn Run>,
        output: AsyncJoinHandle<Result<PooledConnection>>,
    },
    PendingInBackground {
        task: Rc<dyn Run>,
    },
    Lent(Box<PooledConnection>),
    PinnedInUse {
        connection: Box<PooledConnection>,
        pinner: PinnedConnectionHandle,
    },
    /// The connection lies in the pinner's channel.
    PinnedReturned {
        pinner: PinnedConnectionHandle,
    },
}

impl Held {
    pub(crate) fn is_pending(&self) -> bool {
        matches!(
            self,
            Held::PendingForRequest { .. } | Held::PendingInBackground { .. }
        )
    }

    pub(crate) fn is_pinned(&self) -> bool {
        matches!(self, Held::PinnedInUse { .. } | Held::PinnedReturned { .. })
    }
}

pub(crate) struct Harness {
    door: Door,
    /// Nothing once the worker has ended.
    worker: Option<Rc<dyn Run>>,
    pub(crate) waiting: VecDeque<Waiting>,
    /// Connections by rising id.
    pub(crate) seats: Vec<Seat>,
    /// The id that the last created connection got.
    pub(crate) last_connection: u32,
    seen: Vec<Seen>,
    spawned: Vec<Spawned>,
}

impl Harness {
    pub(crate) fn make(options: &Options) -> Self {
        set_clock(0);
        broadcast::script_watch(script::see_interrupt);
        let door = Door::open(ConnectionPoolOptions {
            cmap_event_handler: Some(EventHandler {
                handle: script::see_event,
            }),
            max_idle_time: Some(Duration::from_millis(options.idle_limit)),
            max_pool_size: given(options.maximum),
            min_pool_size: given(options.minimum),
            max_connecting: given(options.max_connecting),
            ..Default::default()
        });
        let mut spawned = Vec::new();
        script::take_spawned(&mut spawned);
        let worker = spawned.pop().map(|spawned| spawned.task);
        assert!(worker.is_some() && spawned.is_empty());
        Self {
            door,
            worker,
            waiting: VecDeque::new(),
            seats: Vec::new(),
            last_connection: 0,
            seen: Vec::new(),
            spawned,
        }
    }

    /// The worker's own counts after the last event; nothing once it has ended.
    pub(crate) fn counts(&self) -> Option<Counts> {
        self.worker.as_ref().and_then(|_| script_noted())
    }

    pub(crate) fn generation(&self) -> u32 {
        self.door.generation()
    }

    pub(crate) fn seat(&self, connection: u32) -> Option<&Seat> {
        let at = self.seat_index(connection)?;
        Some(&self.seats[at])
    }

    fn seat_index(&self, connection: u32) -> Option<usize> {
        self.seats
            .binary_search_by_key(&connection, |seat| seat.connection)
            .ok()
    }

    pub(crate) fn lent_count(&self) -> usize {
        self.seats.iter().filter(|s| !s.held.is_pending()).count()
    }

    /// Runs one event that can be accepted and lays down the records of what the Rust did.
    pub(crate) fn event(&mut self, frame: &Frame, records: &mut Vec<Record>) {
        set_clock(frame.now);
        match frame.kind {
            kind::CHECK_OUT | kind::WARM => {
                let receiver = self.door.request(frame.id, frame.kind == kind::WARM);
                self.waiting.push_back(Waiting {
                    request: frame.id,
                    receiver: Some(receiver),
                });
            }
            kind::ABANDON => {
                let at = self.waiting_index(frame.id);
                self.waiting[at].receiver = None;
            }
            kind::CHECK_IN => self.let_go(frame),
            kind::CLEAR => {
                let cause = Error::scripted(frame.id, frame.flags & NETWORK_TIMEOUT != 0);
                at_once(self.door.clear(cause));
            }
            kind::READY => at_once(self.door.mark_as_ready()),
            kind::SUCCEEDED | kind::SUCCEEDED_IN_BACKGROUND => self.succeed(frame),
            kind::FAILED => self.fail(frame),
            kind::MAINTENANCE => tokio::time::script_tick(),
            kind::FILL => self.door.fill(),
            kind::PIN | kind::RETURN | kind::TAKE => self.change_pin(frame),
            kind::CLOSE => self.door.drop_handles(),
            other => unreachable!("kind {other} was accepted"),
        }
        self.run_worker(frame.kind);
        self.settle(frame, records);
    }

    /// One event gives the worker one turn of its loop; after a close it is gone.
    fn run_worker(&mut self, kind: u8) {
        if let Some(worker) = &self.worker {
            worker.run();
            if kind == kind::CLOSE {
                self.worker = None;
            }
        }
    }

    /// The holder drops the connection at the second time; a pinner is dropped just before.
    fn let_go(&mut self, frame: &Frame) {
        set_clock(frame.second);
        let errored = frame.flags & ERRORED != 0;
        let executing = frame.flags & EXECUTING != 0;
        match self.take_seat(frame.id).held {
            Held::Lent(mut connection) => connection.script_command(errored, executing),
            Held::PinnedInUse {
                mut connection,
                pinner,
            } => {
                connection.script_command(errored, executing);
                drop(pinner);
            }
            Held::PinnedReturned { pinner } => {
                let mut connection = expect(at_once(pinner.take_connection()));
                connection.script_command(errored, executing);
                drop(connection);
                drop(pinner);
            }
            _ => unreachable!("a pending connection was let go"),
        }
        set_clock(frame.now);
    }

    fn succeed(&mut self, frame: &Frame) {
        let seat = self.take_seat(frame.id);
        script::set_outcome(Outcome::Success);
        match seat.held {
            Held::PendingForRequest { task, output } => {
                task.run();
                let connection = expect(output.take_output().expect("establishing has ended"));
                self.put_seat(frame.id, frame.now, Held::Lent(Box::new(connection)));
            }
            Held::PendingInBackground { task } => {
                set_clock(frame.second);
                task.run();
                set_clock(frame.now);
            }
            _ => unreachable!("a lent connection succeeded"),
        }
    }

    fn fail(&mut self, frame: &Frame) {
        script::set_outcome(Outcome::Failure);
        match self.take_seat(frame.id).held {
            Held::PendingForRequest { task, .. } | Held::PendingInBackground { task } => task.run(),
            _ => unreachable!("a lent connection failed"),
        }
    }

    fn change_pin(&mut self, frame: &Frame) {
        let held = match (frame.kind, self.take_seat(frame.id).held) {
            (kind::PIN, Held::Lent(mut connection)) => {
                let pinner = expect(connection.pin());
                Held::PinnedInUse { connection, pinner }
            }
            (kind::RETURN, Held::PinnedInUse { connection, pinner }) => {
                drop(connection);
                Held::PinnedReturned { pinner }
            }
            (kind::TAKE, Held::PinnedReturned { pinner }) => Held::PinnedInUse {
                connection: Box::new(expect(at_once(pinner.take_connection()))),
                pinner,
            },
            (kind::TAKE, Held::PinnedInUse { connection, pinner }) => {
                // The Rust answers with an error and leaves the connection as it was.
                assert!(at_once(pinner.take_connection()).is_err());
                Held::PinnedInUse { connection, pinner }
            }
            _ => unreachable!("the pin state does not fit kind {}", frame.kind),
        };
        self.put_seat(frame.id, frame.now, held);
    }

    /// Takes over what the worker handed out during the event and writes down what it did.
    fn settle(&mut self, frame: &Frame, records: &mut Vec<Record>) {
        let mut spawned = std::mem::take(&mut self.spawned);
        script::take_spawned(&mut spawned);
        for Spawned { connection, task } in spawned.drain(..) {
            let connection = connection.expect("only establishing waits");
            self.put_seat(connection, frame.now, Held::PendingInBackground { task });
        }
        self.spawned = spawned;
        let mut seen = std::mem::take(&mut self.seen);
        script::take_seen(&mut seen);
        for seen in seen.drain(..) {
            records.push(self.record(seen, frame));
        }
        self.seen = seen;
    }

    fn record(&mut self, seen: Seen, frame: &Frame) -> Record {
        match seen {
            Seen::Created(id) => {
                self.last_connection = id;
                of(record::CREATED, id, 0)
            }
            Seen::Ready(id) => of(record::CONNECTION_READY, id, 0),
            Seen::CheckedIn(id) => of(record::CHECKED_IN, id, 0),
            Seen::Closed {
                connection,
                reason,
                measured,
            } => {
                let (reason, other) = match reason {
                    ConnectionClosedReason::Idle => (1, age(measured)),
                    ConnectionClosedReason::Stale => (2, 0),
                    ConnectionClosedReason::Error => (3, 0),
                    ConnectionClosedReason::Dropped => (4, 0),
                    ConnectionClosedReason::PoolClosed => (CLOSED_BY_POOL, 0),
                };
                Record {
                    reason,
                    ..of(record::CLOSED, connection, other)
                }
            }
            Seen::PoolReady => of(record::POOL_READY, 0, 0),
            Seen::PoolCleared { interrupt } => Record {
                reason: u8::from(interrupt),
                ..of(record::POOL_CLEARED, frame.id, self.generation())
            },
            Seen::PoolClosed => of(record::POOL_CLOSED, 0, 0),
            Seen::Interrupt => of(record::INTERRUPT, 0, 0),
            Seen::Gone { request, heard } => {
                self.take_waiting(request);
                let kind = if heard { record::GONE } else { record::UNHEARD };
                of(kind, request, 0)
            }
            Seen::Answered {
                request,
                heard,
                answer,
            } => {
                let answered = self.answer(request, answer, frame.now);
                if heard {
                    answered
                } else {
                    of(record::UNHEARD, request, 0)
                }
            }
        }
    }

    /// Gives a request its answer: it waits no longer, and what it got has a holder.
    fn answer(&mut self, request: u32, answer: Answer, now: u64) -> Record {
        let waiting = self.take_waiting(request);
        match answer {
            Answer::Pooled { connection } => {
                // An abandoned request got nothing: the worker has put the connection back.
                if let Some(ConnectionRequestResult::Pooled(lent)) =
                    waiting.receiver.and_then(|receiver| receiver.take())
                {
                    self.put_seat(connection, now, Held::Lent(lent));
                }
                of(record::POOLED, request, connection)
            }
            Answer::Establishing(output) => {
                let connection = output.connection().expect("the task establishes");
                let Held::PendingInBackground { task } = self.take_seat(connection).held else {
                    unreachable!("a new connection is pending");
                };
                self.put_seat(connection, now, Held::PendingForRequest { task, output });
                of(record::ESTABLISHING, request, connection)
            }
            Answer::Cleared { cause } => of(record::CLEARED, request, cause),
            Answer::Warmed => of(record::WARMED, request, 0),
        }
    }

    fn take_seat(&mut self, connection: u32) -> Seat {
        let at = self.seat_index(connection).expect("the connection is held");
        self.seats.remove(at)
    }

    fn put_seat(&mut self, connection: u32, touched: u64, held: Held) {
        let at = self.seats.partition_point(|s| s.connection < connection);
        self.seats.insert(
            at,
            Seat {
                connection,
                touched,
                held,
            },
        );
    }

    fn waiting_index(&self, request: u32) -> usize {
        self.waiting
            .binary_search_by_key(&request, |waiting| waiting.request)
            .expect("the request waits")
    }

    fn take_waiting(&mut self, request: u32) -> Waiting {
        let at = self.waiting_index(request);
        self.waiting.remove(at).expect("the request waits")
    }
}

impl Drop for Harness {
    /// What is still held goes while its worker lives, so that nothing of it reaches the next day.
    fn drop(&mut self) {
        self.door.drop_handles();
        self.waiting.clear();
        self.seats.clear();
        if let Some(worker) = self.worker.take() {
            worker.run();
        }
        script::take_seen(&mut self.seen);
        script::take_spawned(&mut self.spawned);
    }
}

/// 0 stands for an option that is not given.
fn given(option: u32) -> Option<u32> {
    (option != 0).then_some(option)
}

fn of(kind: u8, id: u32, other: u32) -> Record {
    Record {
        kind,
        id,
        other,
        ..Default::default()
    }
}

fn expect<T>(result: Result<T>) -> T {
    result.unwrap_or_else(|e| panic!("the Rust refused what the day accepted: {e}"))
}

/// The output of a future that has nothing to wait for.
fn at_once<F: Future>(future: F) -> F::Output {
    match pin!(future).poll(&mut Context::from_waker(Waker::noop())) {
        Poll::Ready(output) => output,
        Poll::Pending => unreachable!("a scripted future waits"),
    }
}
