//! The C face as it is: `include/vgic.h`. The calls are sound for any numbers and for any words, as long as `words` may be read, and
//! where it is `*mut` written, for `length` elements, and nobody else has them during the call; and so for the bytes of an image.
//!
//! An answer is one number: bits 0 to 31 value, 32 to 47 retired number (1023 for none), 48 to 55 wake set, 56 to 63 refusal (0 for
//! none). A width is a number of bytes; any other than 1, 2, 4 and 8 is refused by 2 before anything else is looked at.

unsafe extern "C" {
    /// How many words a state of so many vCPUs and this limit takes; 0 where one of them is out of range.
    pub safe fn vgic_state_words(count: u64, limit: u64) -> u64;

    /// Makes the words a fresh state.
    pub fn vgic_setup(words: *mut u32, length: usize, count: u64, limit: u64) -> u64;

    /// Reads the Distributor.
    pub fn vgic_read_v2_distributor(
        words: *const u32,
        length: usize,
        vcpu: u64,
        offset: u64,
        width: u64,
    ) -> u64;

    /// Writes the Distributor.
    pub fn vgic_write_v2_distributor(
        words: *mut u32,
        length: usize,
        vcpu: u64,
        offset: u64,
        width: u64,
        value: u64,
    ) -> u64;

    /// Reads a CPU interface; a read of IAR acknowledges.
    pub fn vgic_read_v2_cpu_interface(
        words: *mut u32,
        length: usize,
        vcpu: u64,
        offset: u64,
        width: u64,
    ) -> u64;

    /// Writes a CPU interface.
    pub fn vgic_write_v2_cpu_interface(
        words: *mut u32,
        length: usize,
        vcpu: u64,
        offset: u64,
        width: u64,
        value: u64,
    ) -> u64;

    /// Sets a device's line.
    pub fn vgic_set_level(
        words: *mut u32,
        length: usize,
        vcpu: u64,
        number: u64,
        asserted: bool,
    ) -> u64;

    /// Pulses a device's line.
    pub fn vgic_pulse(words: *mut u32, length: usize, vcpu: u64, number: u64) -> u64;

    /// Reads the message frame of a window.
    pub fn vgic_read_v2m(
        words: *const u32,
        length: usize,
        first: u64,
        count: u64,
        offset: u64,
        width: u64,
    ) -> u64;

    /// Writes the message frame of a window.
    pub fn vgic_write_v2m(
        words: *mut u32,
        length: usize,
        first: u64,
        count: u64,
        offset: u64,
        width: u64,
        value: u64,
    ) -> u64;

    /// Whether a read of IAR would now give a number: value 1 or 0.
    pub fn vgic_irq_level(words: *const u32, length: usize, vcpu: u64) -> u64;

    /// One interrupt's record, as the word that the state has of it.
    pub fn vgic_interrupt(words: *const u32, length: usize, vcpu: u64, number: u64) -> u64;

    /// How many bytes an image of so many vCPUs and this limit takes at the most; 0 where one of them is out of range.
    pub safe fn vgic_image_bytes(count: u64, limit: u64) -> u64;

    /// Writes the controller's image; value: its length.
    pub fn vgic_save(words: *const u32, length: usize, image: *mut u8, room: usize) -> u64;

    /// What an image begins with: value count + 65536 * limit.
    pub fn vgic_image_shape(image: *const u8, image_length: usize) -> u64;

    /// Makes the words the controller that the image is of.
    pub fn vgic_load(words: *mut u32, length: usize, image: *const u8, image_length: usize) -> u64;
}
