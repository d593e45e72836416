//! Document 01's examples.

use super::{Question, Subject};

/// Document 01's examples.
pub fn check_examples<S: Subject>() {
    fn packed<S: Subject>(width: u64, batch: &[u8]) -> Result<Vec<u8>, u64> {
        let mut out = vec![0; 68_695];
        let n = S::pack(width, batch, &mut out)?.unwrap();
        out.truncate(n as usize);
        Ok(out)
    }
    let numbers = |bytes: &[u8]| S::open(bytes).map(|(_, numbers)| numbers);
    let p1 = packed::<S>(3, &[]).unwrap();
    assert_eq!((p1.len(), numbers(&p1)), (36, Ok([3, 0, 0])));
    let p2 = packed::<S>(3, &[0x00, 0x60, 0xC0]).unwrap();
    assert_eq!(p2, P2);
    assert_eq!(numbers(&p2), Ok([3, 3, 12]));
    // P3, P4
    assert_eq!(S::ask(&p2, &Question::Rank(10), &mut []), Ok(Some(7)));
    assert_eq!(S::ask(&p2, &Question::IndexOf(vec![0x60]), &mut []), Ok(Some(1)));
    assert_eq!(S::ask(&p2, &Question::Contains(vec![0xA0]), &mut []), Ok(None));
    assert_eq!(S::ask(&p2, &Question::Contains(vec![0xC0]), &mut []), Ok(Some(1)));
    // P5
    let both = packed::<S>(1, &[0x00, 0x80]).unwrap();
    assert_eq!((numbers(&both), both[22]), (Ok([1, 2, 2]), 0xC0));
    assert_eq!(packed::<S>(1, &[0x80]).unwrap()[22], 0x40);
    // P6, P7
    let (a, b) = (packed::<S>(3, &[0x00, 0x60]).unwrap(), packed::<S>(3, &[0x60, 0xC0]).unwrap());
    let mut out = [0xEE; 50];
    assert_eq!(S::union(&a, &b, &mut out), Ok(Some(48)));
    assert_eq!((&out[..48], &out[48..]), (&P2[..], &[0xEE; 2][..]));
    assert_eq!(S::difference(&p2, &p2, &mut out), Ok(Some(36)));
    assert_eq!((&out[..36], &out[36..48]), (&p1[..], &P2[36..]));
    // P8, P9, P10
    assert_eq!(packed::<S>(3, &[0x00, 0x00, 0x60]), Ok(a));
    assert_eq!(packed::<S>(3, &[0x60, 0x00]), Err(12));
    assert_eq!(S::ask(&p2, &Question::IndexOf(vec![0x61]), &mut []), Err(8));
    let mut key = [0xEE; 2];
    assert_eq!(S::ask(&p2, &Question::KeyAt(2), &mut key), Ok(Some(1)));
    assert_eq!(key, [0xC0, 0xEE]);
    assert_eq!(S::ask(&p2, &Question::KeyAt(3), &mut key), Err(9));
    let all = packed::<S>(3, &[0x00, 0x20, 0x40, 0x60, 0x80, 0xA0, 0xC0, 0xE0]).unwrap();
    assert_eq!((numbers(&all), &all[30..32]), (Ok([3, 8, 14]), &[0xFF, 0xFC][..]));
    // others
    let rank = |bytes: &[u8], offset| S::ask(bytes, &Question::Rank(offset), &mut []);
    assert_eq!((rank(&p2, 0), rank(&p2, 12), rank(&p2, 13), rank(&p1, 0)), (Ok(Some(0)), Ok(Some(8)), Err(9), Ok(Some(0))));
    for (width, answer) in [(0, Err(4)), (257, Err(4)), (1, Ok([1, 0, 0])), (256, Ok([256, 0, 0]))] {
        assert_eq!(packed::<S>(width, &[]).and_then(|bytes| numbers(&bytes)), answer);
    }
    assert_eq!(S::pack(3, &[0x00, 0x60, 0xC0], &mut [0; 47]), Err(14));
    assert_eq!(S::pack(3, &[0x00, 0x60, 0xC0], &mut [0; 48]), Ok(Some(48)));
    let mut last = p2.clone();
    last[23..27].copy_from_slice(&524_281u32.to_be_bytes());
    assert_eq!(numbers(&last), Err(5));
    last[23..27].copy_from_slice(&524_280u32.to_be_bytes());
    assert_eq!(numbers(&last), Err(3));
}

#[rustfmt::skip]
pub const P2: [u8; 48] = [
    0x01, 0x00, 0x02, 0x00, 0x03, 0x02, 0x00, 0x04, 0x00, 0x00, 0x00, 0x03, 0x03, 0x00, 0x0C, 0x00,
    0x00, 0x00, 0x02, 0x00, 0x00, 0x00, 0x06, 0x00, 0x00, 0x00, 0x0C, 0x04, 0x00, 0x02, 0xF6, 0x60,
    0x05, 0x00, 0x08, 0x00, 0x00, 0x00, 0x00, 0x00, 0x00, 0x00, 0x00, 0x06, 0x00, 0x02, 0x00, 0x00,
];
