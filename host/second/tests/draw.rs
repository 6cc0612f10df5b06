//! "The draw": the walk and its count.

use second::draw::draw;
use second::Refusal;

const LOW: u64 = 1;

/// Thresholds that every even word below 2^63 passes and every other word fails.
fn half() -> Vec<u64> {
    vec![1 << 63; 31]
}

const PASS: u64 = 0;
const PASS_ODD: u64 = 1;
const FAIL: u64 = u64::MAX;

#[test]
fn a_trial_of_zero_takes_no_word() {
    assert_eq!(draw(0, 0, &[0; 31], &[]), (Ok(()), 0));
}

#[test]
fn each_set_place_takes_one_word_from_the_top() {
    // 6 has the places 2 and 1: only their thresholds are looked at, 2 first.
    let mut thresholds = vec![0; 31];
    thresholds[2] = 10;
    thresholds[1] = 5;
    assert_eq!(draw(6, 0, &thresholds, &[9, 4, 7]), (Ok(()), 2));
    assert_eq!(draw(6, 0, &thresholds, &[10, 4]), (Err(Refusal::DRAW), 1));
    assert_eq!(draw(6, 0, &thresholds, &[9, 5]), (Err(Refusal::DRAW), 2));
    assert_eq!(draw(6, 0, &thresholds, &[9]), (Err(Refusal::WORDS), 1));
}

#[test]
fn place_thirty_is_visited() {
    let mut thresholds = vec![0; 31];
    thresholds[30] = LOW;
    assert_eq!(draw(1 << 30, 0, &thresholds, &[0]), (Ok(()), 1));
    assert_eq!(draw(1 << 30, 0, &thresholds, &[1]), (Err(Refusal::DRAW), 1));
}

#[test]
fn a_failed_second_trial_takes_a_word_for_step_three() {
    // Odd at step 3: back to step 2, which succeeds.
    assert_eq!(draw(0, 1, &half(), &[FAIL, PASS_ODD, PASS]), (Ok(()), 3));
    // The largest word is odd too: step 3 looks at nothing else.
    assert_eq!(draw(0, 1, &half(), &[FAIL, FAIL, PASS]), (Ok(()), 3));
    // Even: step 4 fails and rejects, its word counted.
    assert_eq!(
        draw(0, 1, &half(), &[FAIL, PASS, FAIL]),
        (Err(Refusal::DRAW), 3)
    );
    // Even: step 4 succeeds, back to step 2.
    assert_eq!(draw(0, 1, &half(), &[FAIL, PASS, PASS, PASS]), (Ok(()), 4));
}

#[test]
fn a_missing_word_is_nine_at_every_step() {
    let words = [FAIL, PASS, PASS, FAIL, PASS_ODD, PASS];
    assert_eq!(draw(0, 1, &half(), &words), (Ok(()), 6));
    for count in 0..words.len() {
        assert_eq!(
            draw(0, 1, &half(), &words[..count]),
            (Err(Refusal::WORDS), count as u64)
        );
    }
    assert_eq!(draw(1, 0, &[0; 31], &[]), (Err(Refusal::WORDS), 0));
}
