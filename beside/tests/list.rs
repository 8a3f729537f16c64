//! The list that crates/replay replays is what the Rust answers, in either build.
#[test]
fn the_list_is_the_rusts() {
    let kept = include_str!("../../crates/replay/data/answers");
    let made = beside::replay::list();
    let differs = kept.lines().zip(made.lines()).position(|(kept, made)| kept != made);
    assert_eq!(differs, None, "line, counted from 0: scripts/replay-list makes the list anew");
    assert_eq!(kept.len(), made.len());
}
