//! Recordings of requests, played on a machine.

use std::borrow::BorrowMut;
use std::io::{self, Read, Write};

use crate::boundary::{self, PLAY_ENDED, PLAY_LIMIT, PLAY_MORE, PLAY_ROOM};
use crate::{Machine, Processor};

/// How many requests and records of a recording have been played. Both are 0 at the start.
///
/// A recording is a sequence of records: a fetch, a store, a key instruction or a prefix
/// instruction of a processor, or a remark, which is skipped. `host/include/storage_unit.h` has
/// their bytes. Each request has a line of three numbers: its ordinal among requests, the number
/// of its answer (0, or that of the [`Reason`](crate::Reason)), and the place. A bad record ends
/// the run with the line `bad record` and its ordinal among all records.
#[derive(Clone, Copy, Debug, Default, PartialEq, Eq, Hash)]
pub struct Player {
    /// The requests so far.
    pub requests: u64,
    /// The records so far, remarks and a bad record included.
    pub records: u64,
}

/// What [`Machine::play`] has done.
#[must_use = "the bytes that are not read have to be played by the next call"]
#[derive(Clone, Copy, Debug, PartialEq, Eq, Hash)]
pub struct Played {
    /// How many bytes of the piece are read. The next call is given the others first. A bad record
    /// is not read.
    pub read: usize,
    /// How many bytes of text are written at the start of the output. Those behind are kept.
    pub written: usize,
    /// Why the call has returned.
    pub status: PlayStatus,
}

/// Why [`Machine::play`] has returned.
#[derive(Clone, Copy, Debug, PartialEq, Eq, Hash)]
pub enum PlayStatus {
    /// Every whole record of the piece is played. What is not read, under 514 bytes, is the
    /// beginning of a record: the next bytes of the recording go behind it. Never where the piece
    /// is the last.
    More,
    /// The run is at its end. If all of the piece is read, the recording ends; if not, the first
    /// byte that is not read begins a bad record, whose line is the last.
    Ended,
    /// Under 64 bytes of the output are left, also behind the last record. Call again with what is
    /// not read, which may be nothing, the same `last`, and a longer output or the same after its
    /// text is taken.
    Room,
    /// An ordinal is the greatest that 64 bits can hold, and nothing more is played. This comes
    /// also where nothing is left.
    Limit,
    /// Nothing has changed, and [`Played`] has zeros. A library of this crate's
    /// [`VERSION`](crate::VERSION) never gives it here; it stands for any number that this crate
    /// does not know.
    Refused,
}

impl PlayStatus {
    /// The status with the number that the C function gives.
    pub(crate) const fn from_number(number: u32) -> PlayStatus {
        match number {
            PLAY_MORE => PlayStatus::More,
            PLAY_ENDED => PlayStatus::Ended,
            PLAY_ROOM => PlayStatus::Room,
            PLAY_LIMIT => PlayStatus::Limit,
            _ => PlayStatus::Refused,
        }
    }
}

/// What [`Machine::play_all`] has done.
#[derive(Clone, Copy, Debug, PartialEq, Eq, Hash)]
pub struct PlayedAll {
    /// The requests and records of the recording.
    pub player: Player,
    /// Whether a bad record ended the run: the last that the player counts. If not, the whole
    /// recording is played.
    pub bad_record: bool,
}

/// How many bytes of a recording, and of text, [`Machine::play_all`] holds at a time.
const BUFFER: usize = 1 << 16;

impl<B: AsMut<[u8]>, P: BorrowMut<[Processor; 2]>> Machine<B, P> {
    /// Plays the next bytes of a recording on this machine: those of `piece`, behind which nothing
    /// comes if it is the `last`. The lines go to the start of `output`, which has at least 64
    /// bytes: with fewer, each call plays nothing and gives [`PlayStatus::Room`].
    ///
    /// Each record is played, or ends the run as bad, as soon as all that its length counts is
    /// there; a length over 512 ends it at once. A record that is not whole waits for more bytes,
    /// unless the piece is the last. Any machine does: a wrong length or a wrong record is in the
    /// answers. After [`PlayStatus::Ended`] the recording is played: the player does not remember
    /// the end.
    ///
    /// ```
    /// use storage_unit::{Machine, PlayStatus, Played, Player, Refusal, Settings};
    ///
    /// let mut machine = Machine::new(Settings { four_k: false, extensions: true }, 65_536)?;
    /// // A fetch of one byte from address 0.
    /// let recording = [0x09, 0x00, 0x01, 0x00, 0x00, 0x00, 0x00, 0x00, 0x00, 0x01, 0x00];
    /// let mut player = Player::default();
    /// let mut output = [0; 256];
    /// let played = machine.play(&mut player, &recording, true, &mut output);
    /// assert_eq!(played, Played { read: 11, written: 6, status: PlayStatus::Ended });
    /// assert_eq!(&output[..played.written], b"1 0 0\n");
    /// assert_eq!(player, Player { requests: 1, records: 1 });
    /// # Ok::<(), Refusal>(())
    /// ```
    ///
    /// At the end of a run, what is not read begins with a bad record:
    ///
    /// ```
    /// # use storage_unit::{Machine, PlayStatus, Played, Player, Refusal, Settings};
    /// # let mut machine = Machine::new(Settings { four_k: false, extensions: true }, 65_536)?;
    /// // A remark of no bytes; then a record of kind 5, which there is not.
    /// let recording = [0x02, 0x00, 0xff, 0x00, 0x02, 0x00, 0x05, 0x00];
    /// let mut player = Player::default();
    /// let mut output = [0; 64];
    /// let played = machine.play(&mut player, &recording, false, &mut output);
    /// assert_eq!(played, Played { read: 4, written: 13, status: PlayStatus::Ended });
    /// assert_eq!(&output[..played.written], b"bad record 2\n");
    /// assert_eq!(player, Player { requests: 0, records: 2 });
    ///
    /// let played = machine.play(&mut player, &[], true, &mut output[..63]);
    /// assert_eq!(played, Played { read: 0, written: 0, status: PlayStatus::Room });
    /// # Ok::<(), Refusal>(())
    /// ```
    pub fn play(
        &mut self,
        player: &mut Player,
        piece: &[u8],
        last: bool,
        output: &mut [u8],
    ) -> Played {
        // SAFETY: the static library has the function with this meaning.
        unsafe {
            boundary::call_play(
                boundary::storage_unit_play,
                self.settings,
                self.storage.as_mut(),
                self.keys.as_mut(),
                self.processors.borrow_mut(),
                player,
                piece,
                last,
                output,
            )
        }
    }

    /// Plays a whole recording, of any length, on this machine, and writes the lines. They are
    /// written as soon as the bytes of their requests are read.
    ///
    /// # Errors
    ///
    /// - Reading from `recording` failed; an interrupted reading is tried again.
    /// - Writing to `lines` failed, or flushing them at the end.
    /// - [`PlayStatus::Limit`]: there are too many requests or records to be counted.
    /// - The library that is linked is not of this crate's [`VERSION`](crate::VERSION), and has
    ///   given a result that the crate does not expect.
    ///
    /// What was played before stays so, also where its lines could not be written. A bad record is
    /// no error.
    ///
    /// ```
    /// use storage_unit::{Machine, PlayedAll, Player, Settings};
    ///
    /// let mut machine = Machine::new(Settings { four_k: false, extensions: true }, 65_536)?;
    /// // A fetch of one byte from address 0; then a record that is cut short.
    /// let recording = b"\x09\x00\x01\x00\x00\x00\x00\x00\x00\x01\x00\x09\x00\x01";
    /// let mut lines = Vec::new();
    /// let played = machine.play_all(&recording[..], &mut lines)?;
    /// assert_eq!(lines, b"1 0 0\nbad record 2\n");
    /// let player = Player { requests: 1, records: 2 };
    /// assert_eq!(played, PlayedAll { player, bad_record: true });
    /// # Ok::<(), Box<dyn std::error::Error>>(())
    /// ```
    pub fn play_all(
        &mut self,
        mut recording: impl Read,
        mut lines: impl Write,
    ) -> io::Result<PlayedAll> {
        let mut player = Player::default();
        let mut input = Input::new();
        let mut output = vec![0; BUFFER];
        loop {
            let played = self.play(&mut player, input.unread(), input.last, &mut output);
            lines.write_all(&output[..played.written])?;
            input.start += played.read;
            match played.status {
                PlayStatus::More if !input.last => input.read_from(&mut recording)?,
                PlayStatus::Room => {}
                PlayStatus::Ended => break,
                PlayStatus::Limit => return Err(io::Error::other("too many requests or records")),
                PlayStatus::More | PlayStatus::Refused => {
                    let message = "the library that is linked is not of this crate's version";
                    return Err(io::Error::other(message));
                }
            }
        }
        lines.flush()?;
        let bad_record = !input.unread().is_empty();
        Ok(PlayedAll { player, bad_record })
    }
}

/// The bytes of a recording that are there and not yet played.
struct Input {
    bytes: Vec<u8>,
    start: usize,
    end: usize,
    /// The recording has no more.
    last: bool,
}

impl Input {
    fn new() -> Input {
        Input {
            bytes: vec![0; BUFFER],
            start: 0,
            end: 0,
            last: false,
        }
    }

    fn unread(&self) -> &[u8] {
        self.bytes.get(self.start..self.end).unwrap_or_default()
    }

    /// Puts what is not read to the front, and the next bytes of the recording behind it.
    fn read_from(&mut self, recording: &mut impl Read) -> io::Result<()> {
        self.bytes.copy_within(self.start..self.end, 0);
        self.end -= self.start;
        self.start = 0;
        let count = loop {
            match recording.read(&mut self.bytes[self.end..]) {
                Err(error) if error.kind() == io::ErrorKind::Interrupted => {}
                result => break result?,
            }
        };
        // A reader that counts wrongly has read no more than there is room for.
        self.end = self.bytes.len().min(self.end + count);
        self.last = count == 0;
        Ok(())
    }
}
