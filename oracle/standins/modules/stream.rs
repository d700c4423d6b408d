//! Stand-in: the names that the file readers mention. Never reached.

use crate::{SignalRef, SignalValueRef, Time, WellenError};
use std::marker::PhantomData;

pub struct Filter<'a> {
    pub start: Time,
    pub end: Option<Time>,
    pub signals: Option<&'a [SignalRef]>,
}

pub enum StreamError<E> {
    Wellen(WellenError),
    Callback(E),
}

impl<E> From<WellenError> for StreamError<E> {
    fn from(error: WellenError) -> Self {
        StreamError::Wellen(error)
    }
}

pub type StreamResult<E> = Result<(), StreamError<E>>;

pub struct StreamEncoder<C, E>
where
    C: FnMut(Time, SignalRef, SignalValueRef<'_>) -> Result<(), E>,
{
    callback: PhantomData<(C, E)>,
}

impl<C, E> StreamEncoder<C, E>
where
    C: FnMut(Time, SignalRef, SignalValueRef<'_>) -> Result<(), E>,
{
    pub fn time_is_none(&self) -> bool {
        unreachable!("stand-in")
    }

    pub fn time_change(&mut self, _time: Time) {
        unreachable!("stand-in")
    }

    pub fn vcd_value_change(&mut self, _id: u64, _value: &[u8]) -> Result<(), E> {
        unreachable!("stand-in")
    }

    pub(crate) fn fst_value_change(
        &mut self,
        _time: Time,
        _id: u64,
        _value: &fst_reader::FstSignalValue,
    ) -> Result<(), E> {
        unreachable!("stand-in")
    }

    pub fn finish(&mut self) {
        unreachable!("stand-in")
    }
}
