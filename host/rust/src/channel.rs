//! A channel: programs of CCWs that move bytes between storage and a device, under the same keys.

use std::borrow::BorrowMut;
use std::error::Error;
use std::fmt;

use crate::boundary::{
    self, CHAINING_COMMAND, CHAINING_ENDED, CHAINING_FIRST, CHAINING_TRANSFER, RawChannel,
};
use crate::{Machine, Processor};

/// A request of a channel: the program that begins at `first`, under the key, with at most as many
/// CCWs as are granted.
///
/// A CCW has eight bytes at a multiple of 8: command, three of the address, flags, one that is
/// ignored, two of the count; numbers have the most significant byte first. Command hex x1, x5, x9
/// or xD writes to the device, x2, x6, xA or xE reads from it, and x8 is a transfer in channel,
/// which goes on at its address. Flag hex 40, chain command, goes on behind the CCW. Addresses are
/// absolute.
///
/// The fields can hold values that are refused.
#[derive(Clone, Copy, Debug, Default, PartialEq, Eq, Hash)]
pub struct ChannelRequest {
    /// The key of the channel, 0 to 15.
    pub key: u32,
    /// The address of the first CCW.
    pub first: u32,
    /// How many CCWs may be fetched, 1 to 256.
    pub grant: u32,
}

/// What [`Machine::channel`] gives.
#[must_use = "the program may have been refused"]
#[derive(Clone, Copy, Debug, PartialEq, Eq, Hash)]
pub struct ChannelReply {
    /// Whether the program ended, or why it was refused. A CCW that is refused has moved nothing,
    /// and has changed no key but that of its own unit, if it was fetched; those before it stand.
    pub answer: Result<(), ChannelRefusal>,
    /// The record of the channel at the end, with the number of CCWs that were fetched.
    pub record: ChannelRecord,
}

/// The record of a channel, of the request that is under way or was last. A CCW that is refused
/// leaves it as it was, but for the number fetched.
#[derive(Clone, Copy, Debug, Default, PartialEq, Eq, Hash)]
pub struct ChannelRecord {
    /// The address of the CCW to come; at the end of a program, that behind its last CCW.
    pub address: u32,
    /// How the CCW to come is reached.
    pub chaining: Chaining,
    /// How many CCWs were fetched, transfers in channel included.
    pub fetched: u32,
    /// How many bytes were taken from the device.
    pub taken: u64,
    /// How many bytes were given to the device.
    pub given: u64,
}

/// How a CCW is reached. The first, and one that is reached by a transfer in channel, must not be a
/// transfer in channel.
#[derive(Clone, Copy, Debug, Default, PartialEq, Eq, Hash)]
#[repr(u8)]
pub enum Chaining {
    /// It is the first.
    #[default]
    First = CHAINING_FIRST,
    /// By chain command.
    Command = CHAINING_COMMAND,
    /// By a transfer in channel.
    Transfer = CHAINING_TRANSFER,
    /// There is none: the program has ended.
    Ended = CHAINING_ENDED,
}

impl Chaining {
    /// The number of the chaining.
    #[inline]
    #[must_use]
    pub const fn number(self) -> u8 {
        self as u8
    }

    /// The chaining with this number, or the last for a number that none has.
    pub(crate) const fn from_number(number: u8) -> Chaining {
        match number {
            CHAINING_FIRST => Chaining::First,
            CHAINING_COMMAND => Chaining::Command,
            CHAINING_TRANSFER => Chaining::Transfer,
            _ => Chaining::Ended,
        }
    }
}

/// How far a request is, for [`Machine::channel_step`]. The default is that of one not begun.
#[derive(Clone, Copy, Debug, Default, PartialEq, Eq, Hash)]
pub struct ChannelProgress {
    /// Whether the request is begun, under way or answered.
    pub status: ChannelStatus,
    /// The record of the channel.
    pub record: ChannelRecord,
}

/// Whether a request of a channel is begun, under way or answered.
#[derive(Clone, Copy, Debug, Default, PartialEq, Eq, Hash)]
pub enum ChannelStatus {
    /// The next step begins it.
    #[default]
    NotBegun,
    /// The next step goes on with the CCW to come.
    UnderWay,
    /// It has this answer, and further steps do nothing and give the same.
    Answered(Result<(), ChannelRefusal>),
}

/// Why a program of a channel was refused.
#[derive(Clone, Copy, Debug, PartialEq, Eq, PartialOrd, Ord, Hash)]
#[repr(u8)]
pub enum ChannelRefusal {
    /// 64: the length of the storage or of the key array is wrong. Also where the library that is
    /// linked is not of this crate's [`VERSION`](crate::VERSION), and answered what this crate does
    /// not know.
    Configuration = 64,
    /// 65: the key of the channel is over 15.
    Key = 65,
    /// 66: the grant is not 1 to 256.
    Grant = 66,
    /// 71: program check. The address of a CCW is not a multiple of 8 or outside storage; a bad
    /// command or flag, or a count of zero; a transfer in channel that is the first CCW or comes
    /// straight after another; data outside storage.
    Program = 71,
    /// 72: protection check. The key forbids fetching the CCW, or a byte of its data.
    Protection = 72,
    /// 73: fewer bytes from the device are left, or less room, than the count.
    Device = 73,
    /// 74: as many CCWs as are granted were fetched, and the program has not ended.
    UsedUp = 74,
}

impl ChannelRefusal {
    /// Every refusal: those before the first CCW in the order in which they are tested, then the
    /// others by their numbers.
    pub const ALL: [ChannelRefusal; 7] = [
        ChannelRefusal::Configuration,
        ChannelRefusal::Key,
        ChannelRefusal::Grant,
        ChannelRefusal::Program,
        ChannelRefusal::Protection,
        ChannelRefusal::Device,
        ChannelRefusal::UsedUp,
    ];

    /// The number of the refusal. [`ChannelRefusal::try_from`] goes back.
    ///
    /// ```
    /// use storage_unit::ChannelRefusal;
    /// assert_eq!(ChannelRefusal::Program.number(), 71);
    /// assert_eq!(ChannelRefusal::try_from(71), Ok(ChannelRefusal::Program));
    /// ```
    #[inline]
    #[must_use]
    pub const fn number(self) -> u16 {
        self as u16
    }

    /// The refusal with this number, or `None` if none has it.
    const fn from_number(number: u16) -> Option<ChannelRefusal> {
        Some(match number {
            64 => ChannelRefusal::Configuration,
            65 => ChannelRefusal::Key,
            66 => ChannelRefusal::Grant,
            71 => ChannelRefusal::Program,
            72 => ChannelRefusal::Protection,
            73 => ChannelRefusal::Device,
            74 => ChannelRefusal::UsedUp,
            _ => return None,
        })
    }

    /// The refusal that a C function gave.
    pub(crate) fn given(number: u16) -> ChannelRefusal {
        ChannelRefusal::from_number(number).unwrap_or(ChannelRefusal::Configuration)
    }
}

/// The words, and the number.
impl fmt::Display for ChannelRefusal {
    fn fmt(&self, f: &mut fmt::Formatter) -> fmt::Result {
        let words = match self {
            ChannelRefusal::Configuration => {
                "configuration: wrong settings, or a wrong length of storage or keys"
            }
            ChannelRefusal::Key => "the key of the channel is over 15, or its progress is wrong",
            ChannelRefusal::Grant => "the grant is not 1 to 256",
            ChannelRefusal::Program => "program check",
            ChannelRefusal::Protection => "protection check",
            ChannelRefusal::Device => "too few bytes from the device, or too little room",
            ChannelRefusal::UsedUp => "the granted CCWs are used up",
        };
        write!(f, "{words} (number {})", self.number())
    }
}

impl Error for ChannelRefusal {}

impl From<ChannelRefusal> for u16 {
    #[inline]
    fn from(refusal: ChannelRefusal) -> u16 {
        refusal.number()
    }
}

impl TryFrom<u16> for ChannelRefusal {
    type Error = UnknownChannelRefusal;

    #[inline]
    fn try_from(number: u16) -> Result<ChannelRefusal, UnknownChannelRefusal> {
        ChannelRefusal::from_number(number).ok_or(UnknownChannelRefusal(number))
    }
}

/// The number is not that of a [`ChannelRefusal`].
#[derive(Clone, Copy, Debug, PartialEq, Eq, Hash)]
pub struct UnknownChannelRefusal(pub u16);

impl fmt::Display for UnknownChannelRefusal {
    fn fmt(&self, f: &mut fmt::Formatter) -> fmt::Result {
        write!(f, "{} is not the number of a channel's refusal", self.0)
    }
}

impl Error for UnknownChannelRefusal {}

impl<B: AsMut<[u8]>, P: BorrowMut<[Processor; 2]>> Machine<B, P> {
    /// Runs a program of a channel to its end. CCWs that read take the bytes of `from`, one after
    /// the other from the first on, and those that write fill `room` from its first byte on; what
    /// is not filled is kept.
    ///
    /// It needs a stack with 64 KB left; it takes under 420 bytes of it for each transfer in channel,
    /// of which there are at most 128. A step takes under 1 KB.
    ///
    /// The records of the processors are neither used nor changed: no prefix, no low-address
    /// protection. Each CCW is fetched when its turn has come, so that it is what a CCW before it
    /// may have read into its place.
    ///
    /// ```
    /// use storage_unit::{ChannelRefusal, ChannelRequest, Machine, Refusal, Settings};
    ///
    /// let mut machine = Machine::new(Settings::default(), 65_536)?;
    /// // Reads 4 bytes to 8192, chain command; writes 2 bytes from 8193 on.
    /// machine.storage[256..264].copy_from_slice(&[0x02, 0x00, 0x20, 0x00, 0x40, 0, 0, 4]);
    /// machine.storage[264..272].copy_from_slice(&[0x01, 0x00, 0x20, 0x01, 0x00, 0, 0, 2]);
    /// let request = ChannelRequest { key: 0, first: 256, grant: 256 };
    /// let mut room = [0; 4];
    /// let reply = machine.channel(&request, b"ABCD", &mut room);
    /// assert_eq!(reply.answer, Ok(()));
    /// assert_eq!(reply.record.fetched, 2);
    /// assert_eq!(&room, b"BC\0\0");
    /// assert_eq!(&machine.storage[8192..8196], b"ABCD");
    /// assert_eq!((machine.keys[0], machine.keys[4]), (0x04, 0x06));
    ///
    /// let reply = machine.channel(&request, b"ABC", &mut room);
    /// assert_eq!(reply.answer, Err(ChannelRefusal::Device));
    /// # Ok::<(), Refusal>(())
    /// ```
    pub fn channel(
        &mut self,
        request: &ChannelRequest,
        from: &[u8],
        room: &mut [u8],
    ) -> ChannelReply {
        let mut progress = ChannelProgress::default();
        let function = boundary::storage_unit_channel;
        let answer = self.call_channel(function, request, from, room, &mut progress);
        ChannelReply {
            // A whole request has an answer, but by a library of another version.
            answer: answer.unwrap_or(Err(ChannelRefusal::Configuration)),
            record: progress.record,
        }
    }

    /// Does one step of a program of a channel: one CCW. The first step of a request has a
    /// progress that is the default, or any with the status [`ChannelStatus::NotBegun`]; each
    /// further one has the progress that the one before it left. Gives the answer, or `None` while
    /// the request is under way.
    ///
    /// Between two steps the host may do anything: make requests of processors, do steps of another
    /// program with a progress of its own, change storage and keys. A later step may have longer
    /// buffers, or buffers elsewhere: `taken` and `given` count from their first bytes. Lengths, key
    /// and grant are tested at each step of a request under way, and a step with others than the
    /// first can be refused by them, which ends the request; `first` is used by the first step
    /// alone. A step of a request that has its answer changes nothing and gives the answer again,
    /// whatever the lengths and the request are.
    ///
    /// ```
    /// use storage_unit::{ChannelProgress, ChannelRequest, ChannelStatus};
    /// use storage_unit::{Machine, Refusal, Settings};
    ///
    /// let mut machine = Machine::new(Settings::default(), 65_536)?;
    /// // Reads 4 bytes to 264, which are the first half of the CCW to come; chain command.
    /// machine.storage[256..264].copy_from_slice(&[0x02, 0x00, 0x01, 0x08, 0x40, 0, 0, 4]);
    /// machine.storage[264..272].copy_from_slice(&[0, 0, 0, 0, 0, 0, 0, 1]);
    /// let request = ChannelRequest { key: 0, first: 256, grant: 256 };
    /// let (from, mut room) = ([0x01, 0x00, 0x01, 0x00], [0; 4]);
    ///
    /// let mut progress = ChannelProgress::default();
    /// let answer = machine.channel_step(&request, &from, &mut room, &mut progress);
    /// assert_eq!((answer, progress.status), (None, ChannelStatus::UnderWay));
    /// assert_eq!((progress.record.address, progress.record.taken), (264, 4));
    /// let answer = machine.channel_step(&request, &from, &mut room, &mut progress);
    /// assert_eq!((answer, progress.status), (Some(Ok(())), ChannelStatus::Answered(Ok(()))));
    /// assert_eq!(room, [0x02, 0, 0, 0]);
    /// # Ok::<(), Refusal>(())
    /// ```
    pub fn channel_step(
        &mut self,
        request: &ChannelRequest,
        from: &[u8],
        room: &mut [u8],
        progress: &mut ChannelProgress,
    ) -> Option<Result<(), ChannelRefusal>> {
        let function = boundary::storage_unit_channel_step;
        self.call_channel(function, request, from, room, progress)
    }

    /// Calls a function of the static library for a channel.
    fn call_channel(
        &mut self,
        function: RawChannel,
        request: &ChannelRequest,
        from: &[u8],
        room: &mut [u8],
        progress: &mut ChannelProgress,
    ) -> Option<Result<(), ChannelRefusal>> {
        // SAFETY: the callers give functions of the static library with this meaning.
        unsafe {
            boundary::call_channel(
                function,
                self.settings,
                self.storage.as_mut(),
                self.keys.as_mut(),
                request,
                from,
                room,
                progress,
            )
        }
    }
}
