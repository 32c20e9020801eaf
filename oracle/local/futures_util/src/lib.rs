//! The one function that worker.rs takes from futures-util.

pub mod future {
    use std::future::Future;

    pub async fn join_all<F: Future>(futures: Vec<F>) -> Vec<F::Output> {
        let mut outputs = Vec::with_capacity(futures.len());
        for future in futures {
            outputs.push(future.await);
        }
        outputs
    }
}
