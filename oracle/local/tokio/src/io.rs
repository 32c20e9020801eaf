//! A stream that is held and never read.

#[derive(Debug)]
pub struct BufStream<T> {
    _stream: T,
}

impl<T> BufStream<T> {
    pub fn new(stream: T) -> Self {
        Self { _stream: stream }
    }
}
