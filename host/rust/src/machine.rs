//! A machine: settings, storage, keys and the records of two processors together, and a method for
//! each operation of a processor.

use std::borrow::BorrowMut;
use std::fmt;

use crate::{
    Completed, Processor, Reason, Refusal, Request, STORAGE_MAXIMUM, STORAGE_MULTIPLE, Settings,
    calls,
};

/// A machine: its settings, its storage, the keys of its storage, and the records of its two
/// processors. [`cpu`](Machine::cpu) makes the requests of a processor.
///
/// [`Machine::new`] makes one that owns what it holds. One that borrows it is a [`BorrowedMachine`],
/// from [`Machine::borrowed`]. Other holders of bytes serve too: `B` is that of the storage and
/// of the keys, `P` that of the records. The fields are public, and the host may read and write
/// them between requests. A wrong length is answered with [`Reason::Configuration`], a wrong
/// record with [`Reason::Record`].
///
/// ```
/// use storage_unit::{Machine, Processor, Refusal, Settings};
///
/// let mut machine = Machine::new(Settings::default(), 65_536)?;
/// machine.processors[1] = Processor { psw_key: 8, problem: true, ..Processor::default() };
///
/// // Processor 0 gives the 2K block at 8192 the key 80, and processor 1 stores there.
/// machine.cpu(0).ssk(0x80, 8192)?;
/// machine.cpu(1).store(8192, b"ABCD")?;
/// assert_eq!(&machine.storage[8192..8196], b"ABCD");
/// # Ok::<(), Refusal>(())
/// ```
#[derive(Clone, PartialEq, Eq)]
pub struct Machine<B = Vec<u8>, P = [Processor; 2]> {
    /// The settings.
    pub settings: Settings,
    /// The storage, by absolute address: a multiple of 4,096 bytes, from 4,096 to 16,777,216.
    pub storage: B,
    /// The keys, one byte for each key unit by absolute address: as many as
    /// [`Settings::key_count`] gives.
    pub keys: B,
    /// The records of processors 0 and 1.
    pub processors: P,
}

/// A machine that borrows its storage, its keys and its records.
pub type BorrowedMachine<'a> = Machine<&'a mut [u8], &'a mut [Processor; 2]>;

impl Machine {
    /// A machine that owns its storage, of `storage_length` bytes, its keys and its records. All
    /// are zero: both processors are in the supervisor state, with PSW key 0 and prefix 0.
    ///
    /// # Errors
    ///
    /// [`Reason::Configuration`] if the length is not a multiple of 4,096 from 4,096 to
    /// 16,777,216.
    ///
    /// ```
    /// use storage_unit::{Machine, Reason, Settings};
    ///
    /// let machine = Machine::new(Settings { four_k: true, extensions: true }, 1 << 24).unwrap();
    /// assert_eq!((machine.storage.len(), machine.keys.len()), (16_777_216, 4096));
    /// let refusal = Machine::new(Settings::default(), 1000).unwrap_err();
    /// assert_eq!(refusal.reason, Reason::Configuration);
    /// ```
    pub fn new(settings: Settings, storage_length: usize) -> Result<Machine, Refusal> {
        let right = (STORAGE_MULTIPLE..=STORAGE_MAXIMUM).contains(&storage_length)
            && storage_length.is_multiple_of(STORAGE_MULTIPLE);
        if !right {
            return Err(Refusal {
                reason: Reason::Configuration,
                place: 0,
            });
        }
        Ok(Machine {
            settings,
            storage: vec![0; storage_length],
            keys: vec![0; settings.key_count(storage_length)],
            processors: [Processor::default(); 2],
        })
    }
}

impl<'a> BorrowedMachine<'a> {
    /// A machine that borrows its storage, its keys and its records. It may be made anew for each
    /// request.
    ///
    /// ```
    /// use storage_unit::{Machine, Processor, Refusal, Settings};
    ///
    /// let mut storage = [0; 8192];
    /// let mut keys = vec![0; 4];
    /// let mut processors = [Processor::default(); 2];
    /// Machine::borrowed(Settings::default(), &mut storage, &mut keys, &mut processors)
    ///     .cpu(1)
    ///     .set_prefix(4096)?;
    /// assert_eq!(processors[1].prefix, 4096);
    /// # Ok::<(), Refusal>(())
    /// ```
    #[inline]
    #[must_use]
    pub fn borrowed(
        settings: Settings,
        storage: &'a mut [u8],
        keys: &'a mut [u8],
        processors: &'a mut [Processor; 2],
    ) -> BorrowedMachine<'a> {
        Machine {
            settings,
            storage,
            keys,
            processors,
        }
    }
}

impl<B: AsMut<[u8]>, P: BorrowMut<[Processor; 2]>> Machine<B, P> {
    /// Processor 0 or 1, to make requests. All requests of another number are refused with
    /// [`Reason::Record`], unless a length is wrong.
    #[inline]
    pub fn cpu(&mut self, number: u32) -> Cpu<'_> {
        Cpu {
            settings: self.settings,
            storage: self.storage.as_mut(),
            keys: self.keys.as_mut(),
            processors: self.processors.borrow_mut(),
            number,
        }
    }
}

/// The settings, the lengths of storage and keys, and the records.
impl<B: AsRef<[u8]>, P: fmt::Debug> fmt::Debug for Machine<B, P> {
    fn fmt(&self, f: &mut fmt::Formatter) -> fmt::Result {
        f.debug_struct("Machine")
            .field("settings", &self.settings)
            .field("storage_length", &self.storage.as_ref().len())
            .field("keys_length", &self.keys.as_ref().len())
            .field("processors", &self.processors)
            .finish()
    }
}

/// A processor of a [`Machine`], with a method for each operation.
///
/// Addresses are real addresses, below 16,777,216. R2 of ISK and SSK designates a 2K block by
/// bits 8-20, and so does the address of RRB; with 4K units the key is that of the unit in which
/// the 2K block lies, and covers its other 2K block too. R2 of ISKE, SSKE and RRBE designates a 4K
/// block by bits 1-19. The key in R1 is its lowest byte.
///
/// # Errors
///
/// Every method gives the first [`Reason`] that applies, with its place, and then nothing of the
/// machine has changed.
///
/// ```
/// use storage_unit::{Machine, Reason, Refusal, Rule, Settings};
///
/// let settings = Settings { four_k: false, extensions: true };
/// let mut machine = Machine::new(settings, 65_536)?;
/// let mut cpu = machine.cpu(1);
///
/// cpu.set_prefix(8192)?;
/// assert_eq!(cpu.store_prefix()?.word, 8192);
///
/// // Real address 4 is absolute address 8196 now.
/// assert_eq!(cpu.store(4, b"ABCD")?.rule, Some(Rule::Zero));
/// let mut bytes = [0; 4];
/// cpu.fetch(4, &mut bytes)?;
/// assert_eq!(&bytes, b"ABCD");
///
/// assert_eq!(cpu.isk(0x1234_5678, 0)?.word, 0x1234_5606);
/// assert_eq!(cpu.isk(0, 1).unwrap_err().reason, Reason::Specification);
/// assert_eq!(&machine.storage[8196..8200], b"ABCD");
/// # Ok::<(), Refusal>(())
/// ```
#[must_use = "a processor does nothing until one of its methods is called"]
pub struct Cpu<'a> {
    settings: Settings,
    storage: &'a mut [u8],
    keys: &'a mut [u8],
    processors: &'a mut [Processor; 2],
    number: u32,
}

/// The settings, the number of the processor, and its record.
impl fmt::Debug for Cpu<'_> {
    fn fmt(&self, f: &mut fmt::Formatter) -> fmt::Result {
        f.debug_struct("Cpu")
            .field("settings", &self.settings)
            .field("number", &self.number)
            .field("record", &self.record())
            .finish_non_exhaustive()
    }
}

impl Cpu<'_> {
    /// The record of this processor, or `None` if its number is not 0 or 1. RRB and RRBE leave
    /// the condition code in it.
    #[inline]
    #[must_use]
    pub fn record(&self) -> Option<&Processor> {
        self.processors.get(self.number as usize)
    }

    /// The record of this processor, to be changed, or `None` if its number is not 0 or 1.
    #[inline]
    #[must_use]
    pub fn record_mut(&mut self) -> Option<&mut Processor> {
        self.processors.get_mut(self.number as usize)
    }

    /// Any request, as the function [`request`](crate::request()) carries it out. Only a fetch
    /// and a store use the buffer; for the others it may be empty.
    #[inline]
    pub fn request(&mut self, request: &Request, buffer: &mut [u8]) -> Result<Completed, Refusal> {
        calls::request(
            self.settings,
            self.storage,
            self.keys,
            self.processors,
            self.number,
            request,
            buffer,
        )
    }

    /// Fetches as many bytes as `bytes` has, 1 to 256, from the real address on.
    #[inline]
    pub fn fetch(&mut self, address: u32, bytes: &mut [u8]) -> Result<Completed, Refusal> {
        match self.processors.get(self.number as usize) {
            Some(own) => calls::fetch(self.settings, self.storage, self.keys, own, address, bytes),
            None => self.without_record(),
        }
    }

    /// Stores the bytes, 1 to 256 of them, from the real address on.
    #[inline]
    pub fn store(&mut self, address: u32, bytes: &[u8]) -> Result<Completed, Refusal> {
        match self.processors.get(self.number as usize) {
            Some(own) => calls::store(self.settings, self.storage, self.keys, own, address, bytes),
            None => self.without_record(),
        }
    }

    /// INSERT STORAGE KEY: the word of the answer is R1 with the key of the 2K block that R2
    /// designates.
    #[inline]
    pub fn isk(&mut self, r1: u32, r2: u32) -> Result<Completed, Refusal> {
        self.request(&Request::isk(r1, r2), &mut [])
    }

    /// SET STORAGE KEY: the key in R1 becomes that of the 2K block that R2 designates.
    #[inline]
    pub fn ssk(&mut self, r1: u32, r2: u32) -> Result<Completed, Refusal> {
        self.request(&Request::ssk(r1, r2), &mut [])
    }

    /// RESET REFERENCE BIT of the 2K block in which the address lies. The condition code in the
    /// [`record`](Cpu::record) becomes 2 x the old reference bit + the old change bit.
    ///
    /// ```
    /// use storage_unit::{Machine, Refusal, Settings};
    ///
    /// let mut machine = Machine::new(Settings::default(), 65_536)?;
    /// machine.cpu(0).store(2048, b"A")?;
    /// machine.cpu(1).rrb(2048)?;
    /// assert_eq!(machine.processors[1].code, 3);
    /// # Ok::<(), Refusal>(())
    /// ```
    #[inline]
    pub fn rrb(&mut self, address: u32) -> Result<Completed, Refusal> {
        self.request(&Request::rrb(address), &mut [])
    }

    /// INSERT STORAGE KEY EXTENDED: as [`isk`](Cpu::isk), with the 4K block that R2 designates.
    /// Of two keys, the word has the first, its reference and change bits each ORed with those
    /// of the second.
    #[inline]
    pub fn iske(&mut self, r1: u32, r2: u32) -> Result<Completed, Refusal> {
        self.request(&Request::iske(r1, r2), &mut [])
    }

    /// SET STORAGE KEY EXTENDED: as [`ssk`](Cpu::ssk), with the 4K block that R2 designates, with
    /// 2K units both of its keys.
    #[inline]
    pub fn sske(&mut self, r1: u32, r2: u32) -> Result<Completed, Refusal> {
        self.request(&Request::sske(r1, r2), &mut [])
    }

    /// RESET REFERENCE BIT EXTENDED: as [`rrb`](Cpu::rrb), with the 4K block that R2 designates.
    /// Of two keys, the condition code takes the OR of the reference bits and the OR of the
    /// change bits.
    #[inline]
    pub fn rrbe(&mut self, r2: u32) -> Result<Completed, Refusal> {
        self.request(&Request::rrbe(r2), &mut [])
    }

    /// SET PREFIX: bits 8-19 of the word are the new prefix. It holds from the next request on.
    #[inline]
    pub fn set_prefix(&mut self, word: u32) -> Result<Completed, Refusal> {
        self.request(&Request::set_prefix(word), &mut [])
    }

    /// STORE PREFIX: the word of the answer is the prefix.
    #[inline]
    pub fn store_prefix(&mut self) -> Result<Completed, Refusal> {
        self.request(&Request::store_prefix(), &mut [])
    }

    /// The answer to an access of a processor that there is not: every request of it has the same.
    #[cold]
    fn without_record(&mut self) -> Result<Completed, Refusal> {
        self.store_prefix()
    }
}
