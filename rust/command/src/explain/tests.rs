//! Each example earns the number that it stands for, and the texts are made as they should be.

use super::*;

#[test]
fn each_example_earns_its_number() {
    for (place, explanation) in EXPLANATIONS.iter().enumerate() {
        let refusal = explanation.example.refusal().expect("it is refused");
        assert_eq!(usize::from(refusal.number()), place + 1);
    }
}

#[test]
fn a_short_buffer_is_explained_with_the_sizes_that_are_enough() {
    let sizes = format!("{} bytes for the name and {} for the file", qewaris::NAME_MAX, qewaris::FILE_MAX);
    let short_buffer = &EXPLANATIONS[usize::from(qewaris::Reason::ShortBuffer.number()) - 1];
    assert!(short_buffer.remedy.contains(&sizes), "{}", short_buffer.remedy);
}

#[test]
fn each_explanation_is_made_of_sentences() {
    for explanation in &EXPLANATIONS {
        for text in [explanation.meaning, explanation.remedy] {
            assert!(text.ends_with('.') && !text.contains('!'), "{text}");
            assert!(wrapped(text).lines().all(|line| line.len() <= 80), "{text}");
            assert_eq!(wrapped(text).replace('\n', " "), text);
        }
    }
}
