//! What the driver's files take from tokio, for one thread without wakers: whoever feeds a channel
//! polls the task that reads it.

use std::convert::Infallible;

pub mod counts;
pub mod io;
pub mod sync;
pub mod time;

/// Which branch of a `select!` was taken, with the value it gave.
pub enum Chosen<A, B, C = Infallible, D = Infallible> {
    A(A),
    B(B),
    C(C),
    D(D),
    Else,
}

/// The biased `select!` for two or four branches. A branch whose value does not match its pattern is
/// left out until the next `select!`; the futures are dropped before a handler runs.
///
/// The worker's loop is known by its first branch. Expanded there, the macro sees the worker's own
/// fields, and notes the counts whenever the loop comes round.
#[macro_export]
macro_rules! select {
    (biased; Some($request:ident) = $worker:ident.management_receiver.recv() => $($rest:tt)+) => {{
        $crate::counts::script_note($crate::counts::Counts {
            total: $worker.total_connection_count,
            pending: $worker.pending_connection_count,
            available: $worker.available_connections.len(),
            waiting: $worker.wait_queue.len(),
        });
        $crate::select!(@read [] Some($request) = $worker.management_receiver.recv() => $($rest)+)
    }};
    (biased; $($rest:tt)+) => { $crate::select!(@read [] $($rest)+) };

    (@read [$($branches:tt)*] else => $otherwise:expr $(,)?) => {
        $crate::select!(@name [$($branches)*] { $otherwise })
    };
    (@read [$($branches:tt)*] $p:pat = $f:expr => $h:block, $($rest:tt)*) => {
        $crate::select!(@read [$($branches)* ({$p} {$f} {$h})] $($rest)*)
    };
    (@read [$($branches:tt)*] $p:pat = $f:expr => $h:block $($rest:tt)*) => {
        $crate::select!(@read [$($branches)* ({$p} {$f} {$h})] $($rest)*)
    };
    (@read [$($branches:tt)*] $p:pat = $f:expr => $h:expr, $($rest:tt)*) => {
        $crate::select!(@read [$($branches)* ({$p} {$f} {$h})] $($rest)*)
    };
    (@read [$($branches:tt)*]) => {
        $crate::select!(@name [$($branches)*] { unreachable!("every branch of select! is disabled") })
    };

    (@name [$a:tt $b:tt] $otherwise:tt) => {
        $crate::select!(@name [
            $a
            $b
            ({_} {::core::future::pending::<::core::convert::Infallible>()} {unreachable!()})
            ({_} {::core::future::pending::<::core::convert::Infallible>()} {unreachable!()})
        ] $otherwise)
    };
    (@name [$a:tt $b:tt $c:tt $d:tt] $otherwise:tt) => {
        $crate::select!(@run [A a a_open $a] [B b b_open $b] [C c c_open $c] [D d d_open $d] $otherwise)
    };

    (@run $([$variant:ident $future:ident $open:ident ({$p:pat} {$f:expr} {$h:expr})])+ {$otherwise:expr}) => {{
        #[allow(unused_variables, unreachable_patterns)]
        let chosen = {
            $(
                let mut $future = ::core::pin::pin!($f);
                let mut $open = true;
            )+
            ::core::future::poll_fn(|context| {
                let mut waiting = false;
                $(
                    if $open {
                        match ::core::future::Future::poll($future.as_mut(), context) {
                            ::core::task::Poll::Ready(value) if matches!(&value, $p) => {
                                return ::core::task::Poll::Ready($crate::Chosen::$variant(value));
                            }
                            ::core::task::Poll::Ready(_) => $open = false,
                            ::core::task::Poll::Pending => waiting = true,
                        }
                    }
                )+
                if waiting {
                    ::core::task::Poll::Pending
                } else {
                    ::core::task::Poll::Ready($crate::Chosen::Else)
                }
            })
            .await
        };
        #[allow(unreachable_patterns)]
        match chosen {
            $(
                $crate::Chosen::$variant(value) => match value {
                    $p => $h,
                    _ => unreachable!("select! took a value that does not match"),
                },
            )+
            $crate::Chosen::Else => $otherwise,
        }
    }};
}
