//! What the comparison and the benchmark ask of a unit, in the manner of the
//! C interface: an answer that is not negative is the count, a negative one is
//! minus the refusal's number.

/// One warning unit: its engine and the calls on it.
pub trait Unit {
    /// Puts a fresh engine in place of the present one.
    fn fresh(&mut self);

    /// The sample call: the number of messages written to `out`.
    fn sample(&mut self, sample: &[u8], out: &mut [u8]) -> i32;

    /// The block call: the number of messages written to `out`.
    fn block(&mut self, block: &[u8], out: &mut [u8]) -> i32;

    /// The block reader alone: the count of samples written to `out`.
    fn block_read(&self, block: &[u8], out: &mut [u8]) -> i32;

    /// The block writer alone: the count of samples in the block written.
    fn block_write(&self, samples: &[u8], out: &mut [u8]) -> i32;

    /// Appends the sample to the lent block: the block's new count.
    fn block_append(&self, block: &mut [u8], sample: &[u8]) -> i32;

    /// Strikes the last sample out of the lent block: the block's new count.
    fn block_strike_out(&self, block: &mut [u8]) -> i32;

    /// 0 if the message reader takes the record.
    fn message_check(&self, message: &[u8]) -> i32;

    /// The busiest stretch of message records (CR 7): the number of messages in it, and
    /// its first tick in `first`, which is left as it was where the list is empty.
    fn busiest_stretch(&self, records: &[u8], width: u32, first: &mut u32) -> i64;

    /// The engine's bytes where the caller can see them, else nothing. After a
    /// refusal they must be as before.
    fn image(&self) -> &[u8] {
        &[]
    }
}
