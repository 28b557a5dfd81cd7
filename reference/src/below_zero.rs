//! Net rows below zero: "row 0 has nothing deducted, and a later row below zero
//! would have fallen and been refused as 9" (E6). No refusal is for them; this is
//! for counting how often they were tried.

use crate::counted::counted;
use crate::gross::Tank;
use crate::table::{first_fall, net_rows};

counted! {
    /// A tank with a net row below zero, which refusal 9 has to find.
    pub enum BelowZero {
        FallsFirst => "the first row that falls is below zero",
        FellBefore => "a row that is not fell before one below zero",
    }
}

impl BelowZero {
    /// Which of the two a tank is, if either.
    pub fn of_tank(tank: &Tank) -> Option<BelowZero> {
        let net = net_rows(tank);
        let below = net.iter().position(|&row| row < 0)?;
        match first_fall(&net) {
            Some(fall) if fall == below => Some(BelowZero::FallsFirst),
            Some(fall) if fall < below => Some(BelowZero::FellBefore),
            fall => panic!("row {below} is below zero, the first fall is {fall:?}"),
        }
    }
}
