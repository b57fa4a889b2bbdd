//! Where the constructor of the Rust source accepts other hands than document 01.

use crate::bingpai::{Bingpai, BingpaiError, FourPlayer, PlayerRule, ThreePlayer};
use crate::hand::question::Question;
use crate::notation::counts;
use crate::refusal::{Refusal, refusal};

fn original<R: PlayerRule>(text: &str) -> Result<u8, BingpaiError> {
    let counts = counts(text);
    let bingpai = Bingpai::<R>::new(&counts)?;
    Ok(bingpai.num_required_bingpai_mianzi())
}

fn document_01(text: &str, k: u8, game: u8) -> Option<Refusal> {
    let counts = counts(text);
    refusal(&Question::new(&counts, k, game))
}

#[test]
fn a_total_divisible_by_three() {
    let four = original::<FourPlayer>("");
    let three = original::<ThreePlayer>("123p");
    assert!(matches!(four, Err(BingpaiError::InvalidTileCount(0))));
    assert!(matches!(three, Err(BingpaiError::InvalidTileCount(3))));
    assert_eq!(document_01("", 0, 4), None);
    assert_eq!(document_01("123p", 0, 3), None);
}

#[test]
fn k_is_given() {
    assert!(matches!(original::<FourPlayer>("11119999m"), Ok(2)));
    assert!(matches!(original::<ThreePlayer>("11119999m"), Ok(2)));
    assert_eq!(document_01("11119999m", 4, 3), None);
    assert_eq!(document_01("11119999m", 4, 4), None);
}

#[test]
fn the_order_of_the_tests() {
    let five = original::<ThreePlayer>("22222m");
    let fifteen = original::<ThreePlayer>("2m11112222p333344s");
    assert!(matches!(
        five,
        Err(BingpaiError::InvalidTileForThreePlayer(1))
    ));
    assert!(matches!(
        fifteen,
        Err(BingpaiError::InvalidTileForThreePlayer(1))
    ));
    assert_eq!(document_01("22222m", 4, 3), Some(Refusal::Copies(1)));
    assert_eq!(
        document_01("2m11112222p333344s", 4, 3),
        Some(Refusal::Total)
    );
}
