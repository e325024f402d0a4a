//! What a machine holds: its settings, the record of a processor, the bits of a storage key, and
//! the limits of lengths.

/// Storage is a multiple of this many bytes, and is not empty.
pub const STORAGE_MULTIPLE: usize = 4096;

/// The number of bytes of the largest storage.
pub const STORAGE_MAXIMUM: usize = 16_777_216;

/// The number of bytes of the longest fetch or store.
pub const ACCESS_MAXIMUM: usize = 256;

/// The bits of a storage key. Hex 01 is ignored, and is zero in every key that the unit writes.
///
/// ```
/// use storage_unit::{Machine, Refusal, Settings, key};
///
/// let mut machine = Machine::new(Settings::default(), 65_536)?;
/// machine.cpu(0).store(2048, b"ABCD")?;
/// assert_eq!(machine.keys[1], key::REFERENCE | key::CHANGE);
/// # Ok::<(), Refusal>(())
/// ```
///
/// A clean unit is an untouched unit. Over any requests and channel programs on one machine, in
/// any order, with the same settings and where the program itself writes neither storage nor keys
/// between them: a unit whose change bit is zero after the last, and to which no completed SSK or
/// SSKE was applied, holds the bytes that it held before the first. So a copy of the storage is
/// brought up to date with the units whose change bits are on, and those to which a completed SSK
/// or SSKE was applied, since it can set a change bit to zero after a store:
///
/// ```
/// use storage_unit::{Machine, Refusal, Settings, key};
///
/// let mut machine = Machine::new(Settings::default(), 65_536)?;
/// let mut copy = machine.storage.to_vec();
/// machine.cpu(0).store(2046, b"ABCD")?;
/// machine.cpu(1).store(40_000, b"EFGH")?;
///
/// let size = machine.settings.key_unit();
/// for unit in (0..machine.keys.len()).filter(|&unit| machine.keys[unit] & key::CHANGE != 0) {
///     let bytes = unit * size..(unit + 1) * size;
///     copy[bytes.clone()].copy_from_slice(&machine.storage[bytes]);
/// }
/// assert!(copy == machine.storage);
/// # Ok::<(), Refusal>(())
/// ```
pub mod key {
    /// The four access-control bits, which are compared with the PSW key.
    pub const ACCESS_CONTROL: u8 = 0xF0;
    /// The fetch-protection bit.
    pub const FETCH_PROTECTION: u8 = 0x08;
    /// The reference bit.
    pub const REFERENCE: u8 = 0x04;
    /// The change bit.
    pub const CHANGE: u8 = 0x02;
}

/// The settings of the machine, the same for both processors.
#[derive(Clone, Copy, Debug, Default, PartialEq, Eq, Hash)]
pub struct Settings {
    /// The storage-key 4K-byte-block facility is present: one key for each
    /// 4,096 bytes instead of one for each 2,048 bytes.
    pub four_k: bool,
    /// The storage-key-instruction extensions are present: ISKE, SSKE and RRBE.
    pub extensions: bool,
}

impl Settings {
    /// The number of storage bytes that share one key.
    ///
    /// ```
    /// use storage_unit::Settings;
    /// assert_eq!(Settings { four_k: false, extensions: true }.key_unit(), 2048);
    /// assert_eq!(Settings { four_k: true, extensions: true }.key_unit(), 4096);
    /// ```
    #[inline]
    #[must_use]
    pub const fn key_unit(self) -> usize {
        if self.four_k { 4096 } else { 2048 }
    }

    /// The number of keys that belong to a storage of `storage_length` bytes.
    ///
    /// ```
    /// use storage_unit::Settings;
    /// assert_eq!(Settings { four_k: false, extensions: true }.key_count(65_536), 32);
    /// ```
    #[inline]
    #[must_use]
    pub const fn key_count(self, storage_length: usize) -> usize {
        storage_length / self.key_unit()
    }
}

/// The record of one processor.
///
/// The fields can hold values that no processor has. A request for a processor
/// with such a record is refused with [`Reason::Record`](crate::Reason::Record).
///
/// ```
/// use storage_unit::Processor;
///
/// // Supervisor state, PSW key 0, prefix 0.
/// let control_program = Processor::default();
/// // A program in problem state with PSW key 8.
/// let program = Processor { psw_key: 8, problem: true, ..Processor::default() };
/// # assert!(!control_program.problem && program.prefix == 0);
/// ```
#[derive(Clone, Copy, Debug, Default, PartialEq, Eq, Hash)]
pub struct Processor {
    /// The PSW key, 0 to 15.
    pub psw_key: u8,
    /// The processor is in the problem state; otherwise in the supervisor state.
    pub problem: bool,
    /// Bit 3 of control register 0: low-address protection is on.
    pub low_protection: bool,
    /// Bit 7 of control register 0: the storage-key-exception control is one.
    pub key_control: bool,
    /// The prefix, a multiple of 4,096 below the storage length.
    pub prefix: u32,
    /// The condition code, 0 to 3.
    pub code: u8,
}
