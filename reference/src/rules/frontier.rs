//! Section 5.3's frontier of an expression over a set of credentials.

use crate::rules::expression::*;

/// The expressions at which the search stops, reached from the start by replacing a role by the body of a credential
/// that defines it. This is the least solution of the printed equations.
pub fn frontier(
    credentials: &[Credential],
    stops: impl Fn(&Expression) -> bool,
    start: &Expression,
) -> Vec<Expression> {
    let mut reached = vec![start.clone()];
    let mut next = 0;
    while next < reached.len() {
        let e = reached[next].clone();
        next += 1;
        if stops(&e) {
            continue;
        }
        for credential in credentials {
            if Expression::Role(credential.head) == e && !reached.contains(&credential.body) {
                reached.push(credential.body.clone());
            }
        }
    }
    reached.into_iter().filter(|e| stops(e)).collect()
}

pub fn is_entity(expression: &Expression) -> bool {
    matches!(expression, Expression::Entity(_))
}

#[cfg(test)]
mod tests {
    use super::*;
    use crate::random::Random;
    use crate::rules::sample::World;

    fn role(entity: u16) -> Expression {
        Expression::Role(Role { entity, name: 1 })
    }

    fn credential(entity: u16, body: Expression) -> Credential {
        Credential { head: Role { entity, name: 1 }, body }
    }

    /// Role 1 leads to roles 2 and 3, these to each other, 2 to role 4 and to an entity, 4 to another entity.
    #[test]
    fn ends_of_all_paths() {
        let credentials = [
            credential(1, role(2)),
            credential(1, role(3)),
            credential(2, role(3)),
            credential(3, role(2)),
            credential(2, role(4)),
            credential(2, Expression::Entity(8)),
            credential(4, Expression::Entity(9)),
        ];
        let plain = |e: &Expression| !matches!(e, Expression::Role(_));
        assert_eq!(frontier(&credentials, plain, &role(1)), [Expression::Entity(8), Expression::Entity(9)]);
        let at_four = |e: &Expression| plain(e) || *e == role(4);
        assert_eq!(frontier(&credentials, at_four, &role(3)), [role(4), Expression::Entity(8)]);
        assert_eq!(frontier(&credentials, at_four, &role(4)), [role(4)]);
        assert_eq!(frontier(&credentials, plain, &Expression::Entity(7)), [Expression::Entity(7)]);
        assert_eq!(frontier(&credentials, plain, &role(5)), []);
    }

    /// The printed equations, from nothing, until they add no more.
    fn least_solution(
        credentials: &[Credential],
        stops: impl Fn(&Expression) -> bool,
    ) -> Vec<(Expression, Expression)> {
        let all: Vec<Expression> =
            credentials.iter().flat_map(|one| [Expression::Role(one.head), one.body.clone()]).collect();
        let mut pairs: Vec<(Expression, Expression)> = vec![];
        loop {
            let before = pairs.len();
            let stopped = all.iter().filter(|e| stops(e)).map(|e| (e.clone(), e.clone()));
            let mut more: Vec<(Expression, Expression)> = stopped.collect();
            for Credential { head, body } in credentials {
                let head = Expression::Role(*head);
                if !stops(&head) {
                    more.extend(pairs.iter().filter(|(e, _)| e == body).map(|(_, x)| (head.clone(), x.clone())));
                }
            }
            for pair in more {
                if !pairs.contains(&pair) {
                    pairs.push(pair);
                }
            }
            if pairs.len() == before {
                return pairs;
            }
        }
    }

    #[test]
    fn the_least_solution() {
        let mut random = Random::new(2);
        for _ in 0..300 {
            let credentials: Vec<Credential> = (0..10).map(|_| random.credential(World::new(3, 3))).collect();
            let name = 1 + random.below(3) as u16;
            let stops = |e: &Expression| !matches!(e, Expression::Role(role) if role.name != name);
            let expected = least_solution(&credentials, stops);
            for Credential { head, .. } in &credentials {
                let head = Expression::Role(*head);
                let mut found = frontier(&credentials, stops, &head);
                let mut wanted: Vec<Expression> =
                    expected.iter().filter(|(e, _)| *e == head).map(|(_, x)| x.clone()).collect();
                found.sort();
                wanted.sort();
                assert_eq!(found, wanted);
            }
        }
    }
}
