//! Every function with every refusal that it can give, and what is then in the lent buffers.

mod common;

use common::*;
use rufflesquash::{error_text, lossy, lossy_by_table, AuthRequest, DataRow, Lsn, Moment, Refusal, Run};
use rufflesquash::{Settings, State, Text};
use std::time::Duration;

const DAY: Duration = Duration::from_secs(86_400);

fn long_intervals() -> Vec<Settings> {
    let over = DAY + Duration::from_nanos(1);
    [over, Duration::from_secs(u64::MAX)]
        .into_iter()
        .flat_map(|long| {
            let status = Settings { status_interval: long, ..settings() };
            let idle = Settings { idle_wakeup_interval: long, ..settings() };
            [status, idle]
        })
        .collect()
}

#[test]
fn opening_refuses_an_interval_above_its_limit() {
    for s in long_intervals() {
        let mut out = [FILL; 256];
        let refused = Run::open(&s, b"s", &[Text::new(b"p")], Lsn(0), Lsn(0), &mut out);
        assert_eq!(refused, Err(Refusal::IntervalTooLong));
        assert_eq!(out, [FILL; 256]);
        assert_eq!(Run::already_open(&s, Lsn(0)), Err(Refusal::IntervalTooLong));
    }
    let longest = Settings { status_interval: DAY, idle_wakeup_interval: DAY, ..settings() };
    assert!(Run::already_open(&longest, Lsn(0)).is_ok());
}

#[test]
fn opening_refuses_long_inputs_before_a_short_output() {
    let slot = vec![b'a'; 1_048_576];
    let mut out = [FILL; 8];
    let over = Run::open(&settings(), &slot, &[Text::new(b"p")], Lsn(0), Lsn(0), &mut out);
    assert_eq!(over, Err(Refusal::InputTooLong));
    let fits = Run::open(&settings(), &slot, &[], Lsn(0), Lsn(0), &mut out);
    assert_eq!(fits, Err(Refusal::OutputTooShort));
    assert_eq!(out, [FILL; 8]);
}

#[test]
fn opening_needs_the_whole_query_as_output() {
    let mut out = [FILL; 256];
    let (_, n) = Run::open(&settings(), b"s", &[Text::new(b"p")], Lsn(0), Lsn(0), &mut out).unwrap();
    assert!(out[n..].iter().all(|&b| b == FILL));
    let mut exact = vec![FILL; n];
    assert!(Run::open(&settings(), b"s", &[Text::new(b"p")], Lsn(0), Lsn(0), &mut exact).is_ok());
    assert_eq!(exact, out[..n]);
    let mut short = vec![FILL; n - 1];
    let refused = Run::open(&settings(), b"s", &[Text::new(b"p")], Lsn(0), Lsn(0), &mut short);
    assert_eq!(refused, Err(Refusal::OutputTooShort));
    assert!(short.iter().all(|&b| b == FILL));
}

// 2 to 5 change nothing: neither the run nor a buffer.
fn refused_unchanged(fed: Fed, refusal: Refusal) {
    for call in [Run::step, Run::advance] {
        let mut other = fed.clone();
        let (payload, out) = (&mut other.payload, &mut other.out);
        let step = call(&mut other.run, &fed.input(), &fed.bytes, payload, out);
        assert_eq!(step.refusal, Some(refusal));
        assert_eq!((step.taken, step.written, step.event, step.waited), (0, 0, None, None));
        assert_eq!(other.run, fed.run);
        assert_eq!((&other.payload, &other.out), (&fed.payload, &fed.out));
    }
}

#[test]
fn a_run_that_has_ended_refuses_first() {
    let mut fed = Fed::reading(&message(b'd', b""));
    assert_eq!(fed.refused().refusal, Some(Refusal::EmptyCopyData));
    assert_eq!(fed.run.state(), State::Ended);
    fed.payload.clear();
    fed.out.clear();
    fed.moment = 0;
    refused_unchanged(fed, Refusal::RunEnded);
}

#[test]
fn a_short_payload_buffer_is_refused_before_a_short_output() {
    let mut fed = Fed::reading(b"");
    fed.payload.truncate(LIMIT - 1);
    fed.out.clear();
    fed.moment = 0;
    refused_unchanged(fed, Refusal::PayloadBufferTooShort);
    let mut fed = Fed::reading(b"");
    fed.payload.truncate(LIMIT);
    assert_eq!(fed.step().refusal, None);
}

#[test]
fn a_short_output_is_refused_before_a_bad_moment() {
    let mut fed = Fed::reading(b"");
    fed.out.truncate(38);
    fed.moment = 0;
    refused_unchanged(fed, Refusal::OutputTooShort);
    let mut fed = Fed::reading(b"");
    fed.out.truncate(39);
    assert_eq!(fed.step().refusal, None);
}

#[test]
fn moments_have_a_range_and_an_order() {
    for moment in [0, i64::MAX as u64 + 1, u64::MAX] {
        let mut fed = Fed::reading(b"");
        fed.moment = moment;
        refused_unchanged(fed, Refusal::MomentOutOfOrder);
    }
    let mut fed = Fed::reading(b"");
    fed.moment = 5000;
    assert_eq!(fed.step().refusal, None);
    fed.moment = 5999;
    refused_unchanged(fed, Refusal::MomentOutOfOrder);
}

// 6 and 7 take what the header still lacked and end the run; the payload buffer and the output stay as they were.
fn refused_header(header: &[u8], refusal: Refusal) {
    for after in [&b""[..], b"more bytes"] {
        let mut fed = Fed::reading(&[header, after].concat());
        fed.step();
        fed.out.fill(FILL);
        let answer = fed.refused();
        assert_eq!((answer.refusal, answer.taken, answer.written), (Some(refusal), 5, 0));
        assert_eq!(fed.bytes, after);
        assert!(fed.payload.iter().chain(&fed.out).all(|&b| b == FILL));
        assert_eq!(fed.run.state(), State::Ended);
    }
}

#[test]
fn a_length_below_4_is_refused() {
    refused_header(&[b'd', 0, 0, 0, 3], Refusal::InvalidLength);
    refused_header(&[b'd', 0x80, 0, 0, 0], Refusal::InvalidLength);
}

#[test]
fn a_payload_over_the_limit_is_refused() {
    refused_header(&[b'd', 0, 0, 1, 5], Refusal::MessageTooLarge);
    let mut fed = Fed::reading(&message(b'N', &[7; LIMIT]));
    assert_eq!(fed.events(), Vec::<String>::new());
}

#[test]
fn the_input_can_end_in_a_header_or_a_payload() {
    let whole = keepalive(0x20, 0, 0);
    for n in 0..whole.len() {
        let mut fed = Fed::reading(&whole[..n]);
        fed.ended = true;
        let answer = fed.refused();
        let refusal = if n < 5 { Refusal::EofInHeader } else { Refusal::EofInPayload };
        assert_eq!((answer.refusal, answer.taken, answer.written), (Some(refusal), 0, 0));
        let came = n.saturating_sub(5);
        assert_eq!(fed.payload[..came], whole[5.min(n)..n]);
        assert!(fed.payload[came..].iter().all(|&b| b == FILL));
        assert_eq!(fed.run.state(), State::Ended);
    }
}

// 10 to 19 take nothing, and leave the payload at the buffer's front and the rest untouched.
fn refused_message(tag: u8, payload: &[u8], refusal: Refusal) -> Fed {
    let mut fed = Fed::reading(&message(tag, payload));
    fed.step();
    fed.out.fill(FILL);
    let answer = fed.refused();
    assert_eq!(answer.refusal, Some(refusal), "{payload:?}");
    assert_eq!((answer.taken, answer.written, &answer.event), (0, 0, &None));
    assert_eq!(fed.payload[..payload.len()], *payload);
    assert!(fed.payload[payload.len()..].iter().chain(&fed.out).all(|&b| b == FILL));
    assert_eq!(fed.run.state(), State::Ended);
    fed
}

fn refused_boundary(data: &[u8], refusal: Refusal) {
    let whole = xlog_data(1, 2, 3, data);
    let fed = refused_message(b'd', &whole[5..], refusal);
    assert_eq!(fed.run.error(&fed.payload), None);
}

#[test]
fn malformed_copy_data_is_refused() {
    refused_message(b'd', b"", Refusal::EmptyCopyData);
    refused_message(b'd', &xlog_data(1, 2, 3, b"")[5..29], Refusal::XLogDataTooShort);
    refused_message(b'd', &keepalive(1, 2, 0)[5..22], Refusal::KeepaliveTooShort);
    refused_message(b'd', b"x", Refusal::UnknownCopyData);
}

#[test]
fn malformed_boundaries_are_refused() {
    refused_boundary(b"C", Refusal::TruncatedI8);
    refused_boundary(b"M", Refusal::TruncatedI8);
    refused_boundary(&begin(1, 2, 3)[..20], Refusal::TruncatedI32);
    refused_boundary(&logical(0, 1, b"p", 0, b"")[..14], Refusal::TruncatedI32);
    refused_boundary(&begin(1, 2, 3)[..16], Refusal::TruncatedI64);
    refused_boundary(&commit(1, 2, 3)[..25], Refusal::TruncatedI64);
    refused_boundary(&logical(0, 1, b"p", 0, b"")[..11], Refusal::UnterminatedPrefix);
    refused_boundary(&logical(0, 1, b"p", 4, b"abc"), Refusal::ContentTooShort);
    refused_boundary(&logical(0, 1, b"p", -1, b"abc"), Refusal::ContentTooShort);
}

#[test]
fn a_server_error_ends_a_run_in_the_stream() {
    let error = b"SERROR\0C42P01\0Mno slot\0\0";
    let fed = refused_message(b'E', error, Refusal::ServerError);
    assert_eq!(fed.run.error(&fed.payload), Some(&error[..]));
    let mut text = [0; 64];
    let shown = error_text(fed.run.error(&fed.payload).unwrap(), &mut text).unwrap();
    assert_eq!((&text[..shown.bytes], shown.marks), (&b"no slot (SQLSTATE 42P01)"[..], 0));
}

#[test]
fn a_garbled_server_error_has_marks() {
    let fed = refused_message(b'E', b"C\xE2\x82\0Mno \xFFslot\0D\xFF\0\0", Refusal::ServerError);
    let mut text = [0; 64];
    let shown = error_text(fed.run.error(&fed.payload).unwrap(), &mut text).unwrap();
    assert_eq!((&text[..shown.bytes], shown.marks), ("no \u{fffd}slot (SQLSTATE \u{fffd})".as_bytes(), 2));
}

#[test]
fn a_server_error_in_opening_takes_its_message() {
    let error = b"Mno slot\0\0";
    let mut fed = Fed::opening(&[message(b'E', error), b"rest".to_vec()].concat());
    let answer = fed.refused();
    assert_eq!((answer.refusal, answer.taken), (Some(Refusal::ServerError), 5 + error.len()));
    assert_eq!(fed.bytes, b"rest");
    assert_eq!(fed.run.error(&fed.payload), Some(&error[..]));
}

#[test]
fn leaves_refuse_long_inputs_before_a_short_output() {
    let long = vec![b'a'; 1_048_577];
    let mut out = [FILL; 4];
    for leaf in [lossy, lossy_by_table, error_text] {
        assert_eq!(leaf(&long, &mut out), Err(Refusal::InputTooLong));
        assert_eq!(leaf(b"Mabcdefghi\0", &mut out), Err(Refusal::OutputTooShort));
        assert_eq!(out, [FILL; 4]);
    }
    assert_eq!(Lsn(0x16_B374_D848).write(&mut out), Err(Refusal::OutputTooShort));
    assert_eq!(out, [FILL; 4]);
}

#[test]
fn position_texts_are_refused_in_order() {
    assert_eq!(Lsn::parse(b"16B374D848"), Err(Refusal::MissingSlash));
    assert_eq!(Lsn::parse(b"x/y"), Err(Refusal::InvalidHighPart));
    assert_eq!(Lsn::parse(b"/1"), Err(Refusal::InvalidHighPart));
    assert_eq!(Lsn::parse(b"1/"), Err(Refusal::InvalidLowPart));
    assert_eq!(Lsn::parse(b"1/100000000"), Err(Refusal::InvalidLowPart));
    assert_eq!(Lsn::parse(b"100000000/0"), Err(Refusal::InvalidHighPart));
    assert_eq!(Lsn::parse(b"+1/2"), Err(Refusal::InvalidHighPart));
    assert_eq!(Lsn::parse(b"FFFFFFFF/ffffffff"), Ok(Lsn(u64::MAX)));
}

#[test]
fn short_authentication_requests_are_refused() {
    for n in 0..4 {
        let refused = AuthRequest::parse(&[0; 4][..n]);
        assert_eq!(refused, Err(Refusal::AuthRequestTooShort), "{n} bytes");
    }
    assert!(AuthRequest::parse(&[0; 4]).is_ok());
}

#[test]
fn malformed_rows_are_refused() {
    let whole = row(&[Some(b"one"), None, Some(b"")]);
    for n in 0..whole.len() {
        let refused = DataRow::parse(&whole[..n]);
        assert_eq!(refused, Err(Refusal::MalformedDataRow), "{n} bytes");
    }
    assert_eq!(DataRow::parse(&whole).map(|r| r.columns()), Ok(3));
    // Of 32,767 columns none is there.
    assert_eq!(DataRow::parse(&[0x7F, 0xFF]), Err(Refusal::MalformedDataRow));
}

#[test]
fn refusals_have_numbers_and_one_line_each() {
    for number in 1..=31 {
        let refusal = Refusal::from_number(number).unwrap();
        assert_eq!(u64::from(refusal.number()), number);
        let line = refusal.to_string();
        assert!(!line.is_empty() && !line.contains('\n'));
    }
    assert_eq!((Refusal::from_number(0), Refusal::from_number(36)), (None, None));
    let error: &dyn std::error::Error = &Refusal::RunEnded;
    assert_eq!(error.to_string(), "the run has ended");
    assert_eq!(Moment(3), Moment(3));
}
