//! What a question gets: the answer of whoever is asked for accepted hands, or a refusal.

use super::Hand;
use super::question::Question;
use crate::answer::Answer;
use crate::refusal::{Refusal, refusal};

/// Who is asked for the answer of an accepted hand.
pub type Asked = fn(&Hand) -> Answer;

/// The hand and its answer, or the reason there is none.
pub fn answered(question: &Question, asked: Asked) -> Result<(Hand, Answer), Refusal> {
    if let Some(reason) = refusal(question) {
        return Err(reason);
    }
    let hand = question.hand().expect("another length is refused");
    Ok((hand, asked(&hand)))
}
