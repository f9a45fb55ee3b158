//! A thousand random scripts, event by event, against the records that the library's `run` and the program write. What a group
//! says of its frames, of what may happen next and of a round is compared with what the definitions say.
mod common;

use common::{program, random_group, Numbers};

#[test]
fn scripts_give_the_record_of_run() {
    let mut numbers = Numbers(0x9e37_79b9_7f4a_7c15);
    for round in 0..1_000 {
        let group = random_group(&mut numbers);
        group.look_ahead();
        let script = group.script();
        let record = castgroup::run(script.as_bytes()).expect("a script");
        assert_eq!(String::from_utf8_lossy(&record), group.record, "script {round}: {script}");
        assert_eq!(format!("{}end\n", group.written), group.record);
        assert_eq!(castgroup::judge(&record), Ok(castgroup::Verdict::Good));
        if let Some(written) = program(&["run"], script.as_bytes()) {
            assert_eq!(written, record, "script {round}: {script}");
        }
    }
}
