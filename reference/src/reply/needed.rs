//! The credentials that go before a kind 1 edge.

use crate::rules::expression::*;
use crate::rules::relation::Asked;
use crate::tables::Tables;

/// Whether it is our direct credential of a sensitive role, which no move but rule (3) looks at.
pub fn is_hidden(tables: &Tables, credential: &Credential) -> bool {
    credential.body == Expression::Entity(tables.own) && tables.is_sensitive(credential.head)
}

/// The credentials of a storage but the hidden ones, in table order.
pub fn without_hidden(tables: &Tables, storage: &[Credential]) -> Vec<Credential> {
    storage.iter().filter(|credential| !is_hidden(tables, credential)).cloned().collect()
}

/// Of these credentials, less those already shown, each is dropped, first to last, without which "f from e" still holds
/// over the ones shown and the ones still kept.
pub fn needed(credentials: &[Credential], shown: &[Credential], f: &Expression, e: &Expression) -> Vec<Credential> {
    let asked = Asked::new(&[shown, credentials].concat(), f, e);
    let mut kept: Vec<&Credential> = credentials.iter().filter(|one| !shown.contains(one)).collect();
    let mut at = 0;
    while at < kept.len() {
        let dropped = kept.remove(at);
        if !asked.over(shown.iter().chain(kept.iter().copied())) {
            kept.insert(at, dropped);
            at += 1;
        }
    }
    kept.into_iter().cloned().collect()
}

#[cfg(test)]
mod tests {
    use super::*;

    fn role(name: u16) -> Role {
        Role { entity: 1, name }
    }

    fn credential(name: u16, body: Expression) -> Credential {
        Credential { head: role(name), body }
    }

    fn to_role(name: u16, body: u16) -> Credential {
        credential(name, Expression::Role(role(body)))
    }

    /// Two chains from 1.1 to 1.4, by 1.2 and by 1.3.
    #[test]
    fn first_to_last() {
        let all = [to_role(1, 2), to_role(1, 3), to_role(2, 4), to_role(3, 4), credential(4, Expression::Entity(9))];
        let (f, e) = (Expression::Role(role(1)), Expression::Role(role(4)));
        assert_eq!(needed(&all, &[], &f, &e), [to_role(1, 3), to_role(3, 4)]);
        assert_eq!(needed(&all, &[to_role(2, 4)], &f, &e), [to_role(1, 3), to_role(3, 4)]);
        assert_eq!(needed(&all[..3], &[to_role(2, 4)], &f, &e), [to_role(1, 2)]);
        assert_eq!(needed(&all, &[to_role(3, 4), to_role(1, 3)], &f, &e), []);
        assert_eq!(needed(&all, &[], &f, &Expression::Entity(9)), [to_role(1, 3), to_role(3, 4), all[4].clone()]);
    }
}
