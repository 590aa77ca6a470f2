//! The departure of one state as it is shown, and its mark.

use crate::{refusal, Refusal, HOUSE_LIMIT, SUM_LIMIT};

/// The thousandths of a per cent in one whole: a departure shown as so many is 100 per cent.
pub const SHOWN_SCALE: i64 = 100_000;

/// How far a departure is from what the Venice Commission recommends.
#[derive(Clone, Copy, Debug, PartialEq, Eq)]
pub enum Mark {
    In,
    High,
    Over,
}

/// The departure of population p with a seats from the average P / H as it is shown, in
/// thousandths of a per cent, the nearest and halves away from zero, and its mark; none with 0
/// seats.
pub fn departure(p: u64, a: u64, total: u64, house: u64) -> Result<Option<(i64, Mark)>, Refusal> {
    let sound = (1..=SUM_LIMIT).contains(&total)
        && (1..=HOUSE_LIMIT).contains(&house)
        && (1..=total).contains(&p)
        && a <= house;
    if !sound {
        return Err(refusal(30));
    }
    if a == 0 {
        return Ok(None);
    }
    let share = p as i128 * house as i128;
    let seated = a as i128 * total as i128;
    let size = (share - seated).abs();
    let rounded = (2 * SHOWN_SCALE as i128 * size + seated) / (2 * seated);
    let mark = if 100 * size <= 10 * seated {
        Mark::In
    } else if 100 * size <= 15 * seated {
        Mark::High
    } else {
        Mark::Over
    };
    let signed = if share < seated { -rounded } else { rounded };
    Ok(Some((signed as i64, mark)))
}

/// A shown departure as a listing writes it: per cent, with three digits after the point.
pub fn shown_text(shown: Option<i64>) -> String {
    match shown {
        None => "none".to_string(),
        Some(shown) => {
            let sign = if shown < 0 { "-" } else { "" };
            format!("{sign}{}.{:03}", shown.abs() / 1_000, shown.abs() % 1_000)
        }
    }
}

/// A mark as a listing writes it.
pub fn mark_name(mark: Option<Mark>) -> &'static str {
    match mark {
        Some(Mark::In) => "in",
        Some(Mark::High) => "high",
        Some(Mark::Over) => "over",
        None => "none",
    }
}
