//! Sessions: how they end, what they report meanwhile, and how a struct contains one.

mod common;

use common::*;
use icy_sixel::{
    DcsSettings, Result, SixelDcsFeedStatus, SixelDcsStreamDecoder, SixelDecoder, SixelError,
    SixelStreamDecoder,
};
use std::mem;

const STRING: &[u8] = b"\x1bPq#42;2;100;0;0!7~-#42~\x1b\\";

#[test]
fn a_session_reports_its_progress() {
    let mut decoder = SixelDecoder::new();
    let mut session = decoder.begin_dcs();
    assert!(session.feed(b"\x1b").is_ok());
    assert!(!session.in_payload());
    assert_eq!(session.size_so_far(), None);
    assert!(session.feed(b"Pq#1!100~-!50~").is_ok());
    assert!(session.in_payload());
    assert_eq!(session.size_so_far(), Some((100, 12)));
    assert_eq!(session.drawn_height(), 12);
    assert!((150..=150 + 2 * 1151).contains(&session.canvas_paints()));
    drop(session);

    let mut session = decoder.begin_frame(DcsSettings::default()).unwrap();
    assert_eq!((session.canvas_paints(), session.size_so_far()), (0, Some((1, 1))));
    assert!(session.feed(b"!100~-!50B").is_ok());
    assert_eq!(session.drawn_height(), 8);
    assert_eq!(session.finish().unwrap().dimensions(), (100, 12));
}

#[test]
fn an_error_is_kept() {
    let mut decoder = SixelDecoder::new();
    let mut session = decoder.begin_dcs();
    assert_eq!(session.feed(b"text"), Err(SixelError::NoSixelData));
    assert_eq!(session.feed(STRING), Err(invalid(DCS_STREAM_FAILED)));
    assert_eq!(session.size_so_far(), None);
    assert_eq!(session.canvas_paints(), 0);
    assert_eq!(session.finish(), Err(invalid(DCS_STREAM_FAILED)));
    let mut session = decoder.begin_frame(DcsSettings::default()).unwrap();
    assert_eq!(session.feed(b"#1;2;0;0;0~!65536~"), Err(invalid(MALFORMED)));
    assert_eq!(session.size_so_far(), None);
    assert_eq!(session.canvas_paints(), 0);
    assert_eq!(session.finish(), Err(invalid(STREAM_FAILED)));
    assert_eq!(decoder.register(1), [51, 51, 204]);
}

/// A session that is dropped, aborted or even leaked changes nothing, at whatever byte.
#[test]
fn a_session_ends_in_the_middle() {
    let mut decoder = SixelDecoder::new();
    for length in 0..=STRING.len() {
        let ends: [fn(SixelDcsStreamDecoder<'_>); 3] =
            [|session| drop(session), |session| session.abort(), |session| mem::forget(session)];
        for end in ends {
            let mut session = decoder.begin_dcs();
            assert!(session.feed(&STRING[..length]).is_ok());
            end(session);
            assert_eq!(decoder.register(42), [0, 204, 102]);
        }
        let ends: [fn(SixelStreamDecoder<'_>); 3] =
            [|session| drop(session), |session| session.abort(), |session| mem::forget(session)];
        for end in ends {
            let mut session = decoder.begin_frame(DcsSettings::default()).unwrap();
            assert!(session.feed(&STRING[3.min(length)..length]).is_ok());
            end(session);
            assert_eq!(decoder.register(42), [0, 204, 102]);
        }
    }
    assert_filled(decoder.decode(b"#42~"), (1, 6), [0, 204, 102, 255]);
}

/// A decoder with a leaked session is dropped with the memory of the session.
#[test]
fn a_session_is_leaked() {
    let mut decoder = SixelDecoder::new();
    let mut session = decoder.begin_dcs();
    assert!(session.feed(b"\x1bPq!300~").is_ok());
    mem::forget(session);
    let clone = decoder.clone();
    drop(decoder);
    assert_eq!(clone.register(42), [0, 204, 102]);
}

/// A host that keeps a session in a struct of its own, with the lifetime of its decoder.
struct Pane<'a> {
    session: SixelDcsStreamDecoder<'a>,
    read: usize,
}

impl Pane<'_> {
    fn read(&mut self, bytes: &[u8]) -> Result<bool> {
        let fed = self.session.feed(bytes)?;
        self.read += fed.consumed;
        Ok(fed.status != SixelDcsFeedStatus::NeedMoreData)
    }
}

#[test]
fn a_struct_contains_a_session() {
    let mut decoder = SixelDecoder::new();
    let bytes = b"\x1bP9;1q#1;2;100;0;0!12~\x1b\\more";
    let mut panes = vec![Pane { session: decoder.begin_dcs(), read: 0 }];
    let mut pane = loop {
        // The struct moves from place to place between the chunks.
        let mut pane = Box::new(panes.pop().unwrap());
        let next = &bytes[pane.read..pane.read + 1];
        if pane.read(next).unwrap() {
            break *pane;
        }
        panes.push(*pane);
    };
    assert_eq!(pane.read, bytes.len() - 4);
    assert_eq!(pane.read(b"~"), Ok(true));
    assert_filled(pane.session.finish(), (12, 6), RED);
}
