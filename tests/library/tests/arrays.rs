//! What the calls make of the lent arrays where no script can tell: messages
//! to nobody, and the bytes beside the words of a call.

use library::output::LINE_ROOM;
use library::session::Session;

/// The words of a message: kind, sender, receiver, bucket and on.
const KIND: usize = 0;
const RECEIVER: usize = 2;
const BUCKET: usize = 3;
/// Of a call's words its key has 8 bytes, then its two values have 16 each, in
/// a block of 64.
const TEXTS: usize = 64;
const KEY: usize = 8;
const VALUE: usize = 16;

/// Feeds complete lines, for which the output has room; what they print.
fn feed(session: &mut Session, lines: &[u8]) -> Vec<u8> {
    let mut out = [0; 8 * LINE_ROOM];
    assert_eq!(session.feed(lines, &mut out), lines.len());
    assert!(session.intact(), "written outside");
    out[..session.written()].to_vec()
}

/// A message in foreign memory may have a receiver that is no server: it is
/// lost, whoever it is handed to, and it cannot be cut.
#[test]
fn messages_to_nobody() {
    for servers in 2..=7 {
        for receiver in [servers, servers + 1, 7, 8, 100, u32::MAX] {
            let mut session = Session::new();
            feed(
                &mut session,
                format!("cluster {servers} 1\nelect 0\n").as_bytes(),
            );
            session.header(0)[RECEIVER] = receiver;
            session.header(1)[RECEIVER] = receiver;
            let before = session.clone();

            assert_eq!(feed(&mut session, b"cut 0 0\n"), b"line 3 refused 18\n");
            assert_eq!(feed(&mut session, b"copy 0\ndeliver 0\n"), b"");
            let tally = session.tally.value;
            assert_eq!([tally.copied, tally.delivered, tally.lost], [1, 0, 2]);
            assert_eq!(session.under_way() + 1, before.under_way());
            assert!(session.heads == before.heads, "a server has it");
            assert!(session.slots == before.slots, "a server has it");
        }
    }
}

/// One of no kind is delivered, and changes nothing but the counts.
#[test]
fn messages_of_no_kind() {
    for kind in [0, 10, 11, u32::MAX] {
        let mut session = Session::new();
        feed(&mut session, b"cluster 3 1\nelect 0\n");
        session.header(0)[KIND] = kind;
        let before = session.clone();

        assert_eq!(feed(&mut session, b"cut 0 0\n"), b"line 3 refused 18\n");
        assert_eq!(feed(&mut session, b"deliver 0\n"), b"");
        let tally = session.tally.value;
        assert_eq!([tally.sent, tally.delivered, tally.lost], [2, 1, 0]);
        assert!(session.heads == before.heads, "a server has it");
        assert!(session.slots == before.slots, "a server has it");
    }
}

/// One with a bucket above 7 is taken for bucket 7, which no call of this
/// cluster names; the reply carries the bucket as it was.
#[test]
fn messages_of_no_bucket() {
    for bucket in [7, 8, 100, u32::MAX] {
        let mut session = Session::new();
        let lines = "cluster 3 1\nelect 0\ndeliver 0\ndeliver 0\ndeliver 0\ndeliver 0\nget 0 61\n";
        assert_eq!(feed(&mut session, lines.as_bytes()), b"");
        session.header(0)[BUCKET] = bucket;

        assert_eq!(feed(&mut session, b"deliver 0\n"), b"");
        let last = session.under_way() as usize - 1;
        let (header, _) = session.message(last);
        assert_eq!([header[KIND], header[BUCKET]], [8, bucket]);
    }
}

/// Past a key's or value's length, and in place of an absent value, zeros are
/// stored whatever lay there; the rest of the block stays.
#[test]
fn words_of_a_call_are_padded() {
    let cases: [(&str, &[u8], &[u8], &[u8]); 6] = [
        ("set 0 61 62", b"a", b"", b"b"),
        ("setif 0 6162636465666768 - .", b"abcdefgh", b"", b""),
        (
            "setif 0 61 . 31323334353637383930313233343536",
            b"a",
            b"",
            b"1234567890123456",
        ),
        ("setif 0 61 7a7b 7c", b"a", b"z{", b"|"),
        ("get 0 7a7a", b"zz", b"", b""),
        ("keys 0 0", b"", b"", b""),
    ];
    for (line, key, expected, value) in cases {
        for old in [0, 1, 0xff] {
            let mut session = Session::filled(old);
            let votes = "cluster 3 1\nelect 0\ndeliver 0\ndeliver 0\ndeliver 0\ndeliver 0\n";
            assert_eq!(feed(&mut session, votes.as_bytes()), b"");
            assert_eq!(feed(&mut session, format!("{line}\n").as_bytes()), b"");

            let mut block = [old; TEXTS];
            block[..KEY + VALUE + VALUE].fill(0);
            block[..key.len()].copy_from_slice(key);
            block[KEY..][..expected.len()].copy_from_slice(expected);
            block[KEY + VALUE..][..value.len()].copy_from_slice(value);
            assert_eq!(session.texts.value[..TEXTS], block, "{line}");
        }
    }
}
