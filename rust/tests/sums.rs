//! sum_telling of the proved library against the scan of all patterns, and on more sums against the plain way by
//! halves: the answer, and the pattern, which the library promises to be the least. Also on what is not two sums.
use plain::make::{self, Random};

// The call as it is: the wrapper does not hand out what is left behind the pointer where no pattern tells.
extern "C" {
    fn voltamar_sum_telling(old_ops: *const u8, n: usize, new_ops: *const u8, k: usize, sources: *mut u16) -> u8;
}

/// What the call returns, and what it leaves behind its pointer, where each bit was the opposite before. The wrapper
/// agrees.
fn telling(old: &[u8], new: &[u8]) -> (u8, u16) {
    let call = |mut sources: u16| {
        // SAFETY: the slices' own pointers and lengths, and a local.
        let answer = unsafe { voltamar_sum_telling(old.as_ptr(), old.len(), new.as_ptr(), new.len(), &mut sources) };
        (answer, sources)
    };
    let (answer, sources) = call(0xFFFF);
    assert_eq!(call(!sources), (answer, sources), "{old:?} {new:?}");
    let wrapped = match answer {
        0 => Ok(None),
        1 => Ok(Some(sources)),
        number => Err(voltamar::Refusal { number, place: 0 }),
    };
    assert_eq!(voltamar::sum_telling(old, new), wrapped, "{old:?} {new:?}");
    (answer, sources)
}

/// What the call owes for two sums of which this is the least pattern that tells.
fn owed(least: Option<u16>) -> (u8, u16) {
    least.map_or((0, 0), |sources| (1, sources))
}

/// By the scan. Answers whether the two are told apart.
fn scanned(old: &[u8; 11], new: &[u8; 11]) -> bool {
    let least = plain::scan_telling_sum(old, new);
    assert_eq!(telling(old, new), owed(least), "{old:?} {new:?}");
    least.is_some()
}

#[test]
fn sum_telling_agrees_with_the_scan() {
    let mut random = Random(0xD1B5_4A32_D192_ED03);
    let mut told = [0; 2]; // of any two, and of two that differ in one operation
    for _ in 0..3_000 {
        let (old, new) = (make::sum(&mut random), make::sum(&mut random));
        told[0] += usize::from(scanned(&old, &new));
        told[1] += usize::from(scanned(&old, &make::near_sum(&mut random, old)));
    }
    assert!((2_400..2_900).contains(&told[0]) && (900..2_100).contains(&told[1]), "{told:?}");
    for round in 0..100 * make::ALIKE_WAYS {
        let (old, new) = make::alike_sums(&mut random, round % make::ALIKE_WAYS);
        assert!(!scanned(&old, &new), "{old:?} {new:?}");
    }
}

/// Every two operations at every place.
#[test]
fn sum_telling_agrees_on_every_operation() {
    let mut random = Random(0xC2B2_AE3D_27D4_EB4F);
    let mut told = 0;
    for all in 0..11 * 10 * 10 {
        let [mut old, mut new] = [make::sum(&mut random); 2];
        (old[all / 100], new[all / 100]) = ((all / 10 % 10) as u8, (all % 10) as u8);
        told += usize::from(scanned(&old, &new));
    }
    assert!((300..700).contains(&told), "{told}");
}

#[test]
fn sum_telling_agrees_by_halves() {
    let mut random = Random(0x1656_67B1_9E37_79F9);
    let mut told = 0;
    for round in 0..500_000 {
        let old = make::sum(&mut random);
        let new = if round % 2 == 0 { make::sum(&mut random) } else { make::near_sum(&mut random, old) };
        let least = plain::telling_sum(&old, &new);
        assert_eq!(telling(&old, &new), owed(least), "{old:?} {new:?}");
        told += usize::from(least.is_some());
    }
    assert!((250_000..450_000).contains(&told), "{told}");
}

/// Up to twice as many bytes, and every code above 9 at every place, of one of the two or of both.
#[test]
fn what_is_not_two_sums_is_refused() {
    let mut random = Random(0x27D4_EB2F_1656_67C5);
    for lengths in 0..23 * 23 {
        let (n, k) = (lengths / 23, lengths % 23);
        let bytes: [u8; 44] = std::array::from_fn(|_| random.below(10) as u8);
        let answer = telling(&bytes[..n], &bytes[22..][..k]);
        assert_eq!(answer.0 == 10, (n, k) != (11, 11), "{n} and {k} bytes");
        assert!(answer.0 < 10 || answer.1 == 0);
    }
    for code in 10..=u8::MAX {
        for place in 0..11 {
            let (good, mut bad) = (make::sum(&mut random), make::sum(&mut random));
            bad[place] = code;
            let answers = [telling(&good, &bad), telling(&bad, &good), telling(&bad, &bad)];
            assert_eq!(answers, [(10, 0); 3], "{good:?} {bad:?}");
        }
    }
}
