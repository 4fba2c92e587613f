//! The proved static library through its C interface: "Every piece of memory
//! goes as a pointer and then its length"; an answer that is not negative is
//! the count, a negative one minus the refusal's number.

use crate::unit::Unit;

extern "C" {
    fn yoldrim_fresh(engine: *mut u8, engine_len: usize) -> i32;
    fn yoldrim_sample(
        engine: *mut u8,
        engine_len: usize,
        sample: *const u8,
        sample_len: usize,
        out: *mut u8,
        out_len: usize,
    ) -> i32;
    fn yoldrim_block(
        engine: *mut u8,
        engine_len: usize,
        block: *const u8,
        block_len: usize,
        out: *mut u8,
        out_len: usize,
    ) -> i32;
    fn yoldrim_block_read(block: *const u8, block_len: usize, out: *mut u8, out_len: usize) -> i32;
    fn yoldrim_block_write(
        samples: *const u8,
        samples_len: usize,
        out: *mut u8,
        out_len: usize,
    ) -> i32;
    fn yoldrim_block_append(
        block: *mut u8,
        block_len: usize,
        sample: *const u8,
        sample_len: usize,
    ) -> i32;
    fn yoldrim_block_strike_out(block: *mut u8, block_len: usize) -> i32;
    fn yoldrim_message_check(message: *const u8, message_len: usize) -> i32;
    fn yoldrim_busiest_stretch(
        records: *const u8,
        records_bytes: usize,
        width: u32,
        first: *mut u32,
    ) -> i64;
    fn yoldrim_receiver_empty(receiver: *mut u8, receiver_len: usize) -> i32;
    fn yoldrim_receive(
        receiver: *mut u8,
        receiver_len: usize,
        tick: u32,
        sender: u32,
        message: *const u8,
        message_len: usize,
    ) -> i32;
    fn yoldrim_show(receiver: *const u8, receiver_len: usize, out: *mut u8, out_len: usize) -> i32;
    fn yoldrim_lamp(gap: f32, speed: f32, seconds: *mut f32) -> i32;
}

/// The size of an engine's image, from the library's header.
pub const ENGINE_BYTES: usize = match usize::from_str_radix(env!("YOLDRIM_ENGINE_BYTES"), 10) {
    Ok(bytes) => bytes,
    Err(_) => panic!("YOLDRIM_ENGINE_BYTES is no number"),
};

/// `yoldrim_fresh` on an image of any length.
pub fn fresh(engine: &mut [u8]) -> i32 {
    // SAFETY: pointer and length are those of one live, exclusive slice.
    unsafe { yoldrim_fresh(engine.as_mut_ptr(), engine.len()) }
}

/// `yoldrim_sample` on an image of any length.
pub fn sample(engine: &mut [u8], sample: &[u8], out: &mut [u8]) -> i32 {
    // SAFETY: each pointer and length are those of one live slice; those
    // written through are exclusive.
    unsafe {
        yoldrim_sample(
            engine.as_mut_ptr(),
            engine.len(),
            sample.as_ptr(),
            sample.len(),
            out.as_mut_ptr(),
            out.len(),
        )
    }
}

/// `yoldrim_block` on an image of any length.
pub fn block(engine: &mut [u8], block: &[u8], out: &mut [u8]) -> i32 {
    // SAFETY: as for `sample`.
    unsafe {
        yoldrim_block(
            engine.as_mut_ptr(),
            engine.len(),
            block.as_ptr(),
            block.len(),
            out.as_mut_ptr(),
            out.len(),
        )
    }
}

/// `yoldrim_receiver_empty` on an image of any length.
pub fn receiver_empty(receiver: &mut [u8]) -> i32 {
    // SAFETY: pointer and length are those of one live, exclusive slice.
    unsafe { yoldrim_receiver_empty(receiver.as_mut_ptr(), receiver.len()) }
}

/// `yoldrim_receive` on an image of any length.
pub fn receive(receiver: &mut [u8], tick: u32, sender: u32, message: &[u8]) -> i32 {
    // SAFETY: as for `sample`.
    unsafe {
        yoldrim_receive(
            receiver.as_mut_ptr(),
            receiver.len(),
            tick,
            sender,
            message.as_ptr(),
            message.len(),
        )
    }
}

/// `yoldrim_show` on an image of any length.
pub fn show(receiver: &[u8], out: &mut [u8]) -> i32 {
    // SAFETY: as for `sample`.
    unsafe { yoldrim_show(receiver.as_ptr(), receiver.len(), out.as_mut_ptr(), out.len()) }
}

/// `yoldrim_lamp`.
pub fn lamp(gap: f32, speed: f32, seconds: &mut f32) -> i32 {
    // SAFETY: the pointer is to a live, exclusive number.
    unsafe { yoldrim_lamp(gap, speed, seconds) }
}

/// The library as a unit; the engine's image is kept here.
pub struct Library {
    image: [u8; ENGINE_BYTES],
}

impl Default for Library {
    fn default() -> Library {
        let mut library = Library { image: [0; ENGINE_BYTES] };
        library.fresh();
        library
    }
}

impl Unit for Library {
    fn fresh(&mut self) {
        let answer = fresh(&mut self.image);
        assert_eq!(answer, 0, "yoldrim_fresh on an image of the header's length");
    }

    fn sample(&mut self, bytes: &[u8], out: &mut [u8]) -> i32 {
        sample(&mut self.image, bytes, out)
    }

    fn block(&mut self, bytes: &[u8], out: &mut [u8]) -> i32 {
        block(&mut self.image, bytes, out)
    }

    fn block_read(&self, block: &[u8], out: &mut [u8]) -> i32 {
        // SAFETY: as for `sample`.
        unsafe { yoldrim_block_read(block.as_ptr(), block.len(), out.as_mut_ptr(), out.len()) }
    }

    fn block_write(&self, samples: &[u8], out: &mut [u8]) -> i32 {
        // SAFETY: as for `sample`.
        unsafe { yoldrim_block_write(samples.as_ptr(), samples.len(), out.as_mut_ptr(), out.len()) }
    }

    fn block_append(&self, block: &mut [u8], sample: &[u8]) -> i32 {
        // SAFETY: as for `sample`.
        unsafe {
            yoldrim_block_append(block.as_mut_ptr(), block.len(), sample.as_ptr(), sample.len())
        }
    }

    fn block_strike_out(&self, block: &mut [u8]) -> i32 {
        // SAFETY: pointer and length are those of one live, exclusive slice.
        unsafe { yoldrim_block_strike_out(block.as_mut_ptr(), block.len()) }
    }

    fn message_check(&self, message: &[u8]) -> i32 {
        // SAFETY: pointer and length are those of one live slice.
        unsafe { yoldrim_message_check(message.as_ptr(), message.len()) }
    }

    fn busiest_stretch(&self, records: &[u8], width: u32, first: &mut u32) -> i64 {
        // SAFETY: pointer and length are those of one live slice; the other pointer is to
        // a live, exclusive number.
        unsafe { yoldrim_busiest_stretch(records.as_ptr(), records.len(), width, first) }
    }

    fn image(&self) -> &[u8] {
        &self.image
    }
}
