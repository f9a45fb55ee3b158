//! Records, good and spoilt, in pieces cut at random, against the verdict on the whole and that of the program.
mod common;

use castgroup::{judge, Judge, Verdict};
use common::{program, random_group, Numbers};

fn in_pieces(record: &[u8], numbers: &mut Numbers) -> Verdict {
    let mut judge = Judge::new().expect("memory");
    let mut rest = record;
    while !rest.is_empty() {
        let cut = numbers.below(rest.len().min(90) as u64 + 1) as usize;
        judge.feed(&rest[..cut]).expect("memory");
        rest = &rest[cut..];
    }
    judge.finish().expect("memory")
}

fn spoil(record: &mut Vec<u8>, numbers: &mut Numbers) {
    let place = numbers.below(record.len() as u64) as usize;
    match numbers.below(4) {
        0 => record[place] = b"0123456789 \nbdvxr:"[numbers.below(18) as usize],
        1 => drop(record.remove(place)),
        2 => record.truncate(place),
        _ => {}
    }
}

#[test]
fn pieces_give_the_verdict_of_the_whole() {
    let mut numbers = Numbers(0x2545_f491_4f6c_dd1d);
    let mut bad = 0;
    for round in 0..1_000 {
        let mut record = random_group(&mut numbers).record.into_bytes();
        spoil(&mut record, &mut numbers);
        let verdict = judge(&record).expect("memory");
        assert_eq!(in_pieces(&record, &mut numbers), verdict);
        let line = match verdict {
            Verdict::Good => "good\n".to_string(),
            Verdict::Bad { line, rule } => {
                bad += 1;
                format!("bad {line} {rule}\n")
            }
        };
        if round % 10 == 0 {
            if let Some(said) = program(&["judge"], &record) {
                assert_eq!(String::from_utf8_lossy(&said), line);
            }
        }
    }
    assert!(bad > 100, "{bad} records were spoilt");
}
