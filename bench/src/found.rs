//! The worst cases that searches found by instructions; data/ has their bytes.

use crate::take;
use reference::message::writer::Run;
use reference::negotiation::decode;
use reference::negotiation::shapes::Shaped;
use reference::reply::large::Giving;

const NAME: &str = "the worst that a search found";
const EARLIER: &str = "the worst that an earlier search found";

pub fn worst_take() -> Run {
    let tables = include_bytes!("../data/take/tables").to_vec();
    let negotiation = include_bytes!("../data/take/negotiation").to_vec();
    take::run(NAME.into(), tables, negotiation, include_bytes!("../data/take/message").to_vec())
}

/// The worst of an earlier search, before the nodes of an edge were read once.
pub fn earlier_take() -> Run {
    let tables = include_bytes!("../data/earlier-take/tables").to_vec();
    let negotiation = include_bytes!("../data/earlier-take/negotiation").to_vec();
    take::run(EARLIER.into(), tables, negotiation, include_bytes!("../data/earlier-take/message").to_vec())
}

pub fn worst_reply() -> Giving {
    let tables = include_bytes!("../data/reply/tables").to_vec();
    Giving { name: NAME.into(), tables, negotiation: include_bytes!("../data/reply/negotiation").to_vec() }
}

/// The worst of an earlier search, before own credentials not yet shown were kept as flags.
pub fn earlier_reply() -> Giving {
    let tables = include_bytes!("../data/earlier-reply/tables").to_vec();
    let negotiation = include_bytes!("../data/earlier-reply/negotiation").to_vec();
    Giving { name: EARLIER.into(), tables, negotiation }
}

pub fn worst_report() -> Shaped {
    let tables = include_bytes!("../data/report/tables").to_vec();
    let negotiation = decode(include_bytes!("../data/report/negotiation")).unwrap();
    Shaped { name: NAME.into(), tables, negotiation }
}
