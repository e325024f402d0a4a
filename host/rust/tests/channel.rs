//! The types of a channel: the numbers and texts of its refusals, the bytes of its progress, and
//! answers that are not known.

use std::error::Error;

use storage_unit::boundary::{
    CHANNEL_UNDER_WAY, PROGRESS_ADDRESS_AT, PROGRESS_CHAINING_AT, PROGRESS_FETCHED_AT,
    PROGRESS_GIVEN_AT, PROGRESS_LENGTH, PROGRESS_STATUS_AT, PROGRESS_TAKEN_AT, RawChannel,
    call_channel, decode_progress, encode_progress,
};
use storage_unit::{
    Chaining, ChannelProgress, ChannelRecord, ChannelRefusal, ChannelRequest, ChannelStatus,
    Settings, UnknownChannelRefusal,
};

const REFUSALS: [(u16, ChannelRefusal); 7] = [
    (64, ChannelRefusal::Configuration),
    (65, ChannelRefusal::Key),
    (66, ChannelRefusal::Grant),
    (71, ChannelRefusal::Program),
    (72, ChannelRefusal::Protection),
    (73, ChannelRefusal::Device),
    (74, ChannelRefusal::UsedUp),
];

#[test]
fn each_number_has_its_refusal() {
    assert_eq!(REFUSALS.map(|(_, refusal)| refusal), ChannelRefusal::ALL);
    for number in 0..=u16::MAX {
        let found = REFUSALS.iter().find(|(each, _)| *each == number);
        let refusal = found
            .map(|(_, refusal)| *refusal)
            .ok_or(UnknownChannelRefusal(number));
        assert_eq!(ChannelRefusal::try_from(number), refusal);
        if let Ok(refusal) = refusal {
            assert_eq!((refusal.number(), u16::from(refusal)), (number, number));
        }
    }
}

#[test]
fn they_are_errors() {
    fn text(error: impl Error + Send + Sync + 'static) -> String {
        let error: Box<dyn Error + Send + Sync> = error.into();
        assert!(error.source().is_none());
        error.to_string()
    }
    assert_eq!(text(ChannelRefusal::Program), "program check (number 71)");
    assert_eq!(
        text(UnknownChannelRefusal(70)),
        "70 is not the number of a channel's refusal"
    );
}

/// A progress with a different number in each part.
fn progress() -> ChannelProgress {
    ChannelProgress {
        status: ChannelStatus::UnderWay,
        record: ChannelRecord {
            address: 0x0123_4567,
            chaining: Chaining::Transfer,
            fetched: 0x89AB_CDEF,
            taken: 0x1122_3344_5566_7788,
            given: 0x99AA_BBCC_DDEE_FF00,
        },
    }
}

#[test]
fn bytes_of_a_progress() {
    let bytes = [
        0x67, 0x45, 0x23, 0x01, 2, 1, 0, 0, //
        0xEF, 0xCD, 0xAB, 0x89, 0, 0, 0, 0, //
        0x88, 0x77, 0x66, 0x55, 0x44, 0x33, 0x22, 0x11, //
        0x00, 0xFF, 0xEE, 0xDD, 0xCC, 0xBB, 0xAA, 0x99,
    ];
    assert_eq!(bytes.len(), PROGRESS_LENGTH);
    assert_eq!(encode_progress(&progress()), bytes);
    assert_eq!(decode_progress(&bytes), progress());
    assert_eq!(
        encode_progress(&ChannelProgress::default()),
        [0; PROGRESS_LENGTH]
    );
    let places = [
        PROGRESS_ADDRESS_AT,
        PROGRESS_CHAINING_AT,
        PROGRESS_STATUS_AT,
        PROGRESS_FETCHED_AT,
        PROGRESS_TAKEN_AT,
        PROGRESS_GIVEN_AT,
    ];
    assert_eq!(places, [0, 4, 5, 8, 16, 24]);
}

/// Every status and every chaining comes back.
#[test]
fn every_progress_comes_back() {
    let refused = ChannelRefusal::ALL.map(|refusal| ChannelStatus::Answered(Err(refusal)));
    let others = [
        ChannelStatus::NotBegun,
        ChannelStatus::UnderWay,
        ChannelStatus::Answered(Ok(())),
    ];
    let numbers = REFUSALS.map(|(number, _)| number as u8);
    let pairs = others.into_iter().zip([0, 1, 2]);
    for (status, byte) in pairs.chain(refused.into_iter().zip(numbers)) {
        for (chaining, number) in [
            (Chaining::First, 0),
            (Chaining::Command, 1),
            (Chaining::Transfer, 2),
            (Chaining::Ended, 3),
        ] {
            let mut progress = progress();
            progress.status = status;
            progress.record.chaining = chaining;
            let bytes = encode_progress(&progress);
            assert_eq!(bytes[4..6], [number, byte]);
            assert_eq!(decode_progress(&bytes), progress);
        }
    }
}

/// The answer where a C function gives this number, and the progress that it leaves.
macro_rules! answer_where_given {
    ($number:expr, $status:expr) => {{
        unsafe extern "C" fn channel(
            _: u32,
            _: *mut u8,
            _: usize,
            _: *mut u8,
            _: usize,
            _: u32,
            _: u32,
            _: u32,
            _: *const u8,
            _: usize,
            _: *mut u8,
            _: usize,
            progress: *mut u8,
            length: usize,
        ) -> u64 {
            assert_eq!(length, PROGRESS_LENGTH);
            // SAFETY: the progress has this many bytes.
            let progress = unsafe { std::slice::from_raw_parts_mut(progress, length) };
            progress[PROGRESS_CHAINING_AT] = $status;
            progress[PROGRESS_STATUS_AT] = $status;
            ($number as u64) << 48
        }
        answer_of(channel)
    }};
}

fn answer_of(channel: RawChannel) -> (Option<Result<(), ChannelRefusal>>, ChannelProgress) {
    let mut progress = ChannelProgress::default();
    let request = ChannelRequest::default();
    let settings = Settings::default();
    // SAFETY: the function uses none of the bytes but the progress.
    let answer = unsafe {
        call_channel(
            channel,
            settings,
            &mut [],
            &mut [],
            &request,
            &[],
            &mut [],
            &mut progress,
        )
    };
    (answer, progress)
}

/// A number that this crate does not know is a refusal, and so is a status.
#[test]
fn answers_that_are_not_known() {
    let refused = Err(ChannelRefusal::Configuration);
    let (answer, progress) = answer_where_given!(70, 70);
    assert_eq!(answer, Some(refused));
    assert_eq!(progress.status, ChannelStatus::Answered(refused));
    assert_eq!(progress.record.chaining, Chaining::Ended);
    let (answer, progress) = answer_where_given!(0, 2);
    assert_eq!(answer, Some(Ok(())));
    assert_eq!(progress.status, ChannelStatus::Answered(Ok(())));
    let (answer, progress) = answer_where_given!(CHANNEL_UNDER_WAY, 1);
    assert_eq!((answer, progress.status), (None, ChannelStatus::UnderWay));
    let (answer, _) = answer_where_given!(73, 73);
    assert_eq!(answer, Some(Err(ChannelRefusal::Device)));
}
