//! read of the proved library against the plain implementation, on the commands of random sheets, whole and damaged, and
//! on noise: the answers, and all the bytes of the buffers.
use plain::make::{self, Random, Setup, Tally};

const STREAMS: usize = 100_000;

fn stream(random: &mut Random) -> Vec<u8> {
    let taken = random.below(9);
    let setup = Setup::random(random, taken);
    match random.below(10) {
        0 => make::noise_stream(random),
        1..=2 => make::stream(&setup.sheet()),
        _ => make::damaged_stream(random, &setup),
    }
}

#[test]
fn read_agrees() {
    let mut random = Random(0xA24B_AED4_963E_E407);
    let (mut proved, mut plain) = (Tally::default(), Tally::default());
    for _ in 0..STREAMS {
        let stream = stream(&mut random);
        let needed = plain::read(&stream, &mut [0; plain::LONGEST_SHEET]).unwrap_or(100);
        let room = random.room(needed);
        let noise = random.bytes(room);
        let (mut a, mut b) = (noise.clone(), noise);
        let got = voltamar::read(&stream, &mut a).map_err(|refusal| (refusal.number, refusal.place));
        let want = plain::read(&stream, &mut b).map_err(|refusal| (refusal.number, refusal.place));
        assert_eq!(got, want, "room {room}, stream {stream:02X?}");
        assert!(a == b, "the buffer after room {room}, stream {stream:02X?}");
        proved.count(got.err().map_or(0, |refusal| refusal.0));
        plain.count(want.err().map_or(0, |refusal| refusal.0));
    }
    proved.expect(&[12..=16], STREAMS / 10, STREAMS / 50);
    plain.expect(&[12..=16], STREAMS / 10, STREAMS / 50);
}

/// Every table in the low and the high half of a word of an edge, the other tables as some edge has them.
#[test]
fn every_table_of_an_edge_agrees() {
    let mut random = Random(0xBF58_476D_1CE4_E5B9);
    const LENGTH: usize = plain::SECTIONS + plain::SIZE[2];
    let mut read = 0;
    for all in 0..2 * 0x1_0000 {
        let (table, half) = (all as u16, 1 + 2 * (all >> 16));
        let [rise, fall, neither] = make::edge(&mut random);
        let words =
            plain::edge_words(rise, fall, neither).map(|word| [vec![0x9F], word.to_le_bytes().to_vec()].concat());
        let mut stream = [&[0x9E, 0x34, 0, 0, 0][..], &words.concat()].concat();
        stream[5 * (1 + random.below(8)) + half..][..2].copy_from_slice(&table.to_le_bytes());
        let (mut a, mut b) = ([0x77; LENGTH], [0x77; LENGTH]);
        let got = voltamar::read(&stream, &mut a).map_err(|refusal| (refusal.number, refusal.place));
        let want = plain::read(&stream, &mut b).map_err(|refusal| (refusal.number, refusal.place));
        assert_eq!((got, a), (want, b), "stream {stream:02X?}");
        assert!(matches!(got, Ok(LENGTH) | Err((16, 0))), "{got:?}");
        read += usize::from(got.is_ok());
    }
    assert_eq!(read, 2 * 49);
}

/// Sheet to commands and back, all by the proved library: labels of section and slot, which make an accepted sheet.
#[test]
fn reading_back_gives_the_sheet() {
    let mut random = Random(0x94D0_49BB_1331_11EB);
    for _ in 0..STREAMS / 10 {
        let taken = random.below(9);
        let sheet = Setup::random(&mut random, taken).sheet();
        let mut commands = [0; voltamar::LONGEST_STREAM];
        let length = voltamar::compile(&sheet, &mut commands).expect("accepted, with room");
        let mut back = vec![0; sheet.len()];
        assert_eq!(voltamar::read(&commands[..length], &mut back), Ok(sheet.len()));
        assert!(back == make::read_back(&sheet), "sheet {sheet:02X?}");
        let mut again = [0; voltamar::LONGEST_STREAM];
        assert_eq!(voltamar::compile(&back, &mut again), Ok(length));
        assert!(commands == again, "sheet {sheet:02X?}");
    }
}
