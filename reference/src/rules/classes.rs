//! The classes of role names, and what follows for expressions and credentials.

use crate::rules::expression::Expression;

#[derive(Clone, Copy, Debug, PartialEq, Eq)]
pub enum Class {
    IssuerDef = 1,
    IssuerAll = 2,
    SubjectAll = 3,
}

use Class::*;

pub fn decode_class(byte: u8) -> Option<Class> {
    [IssuerDef, IssuerAll, SubjectAll].into_iter().find(|&class| class as u8 == byte)
}

/// The class of a linked role by those of its two names; None: it is ill-typed.
fn linked(first: Class, second: Class) -> Option<Class> {
    match (first, second) {
        (SubjectAll, SubjectAll) => Some(SubjectAll),
        (IssuerAll, IssuerAll) => Some(IssuerAll),
        (IssuerDef, SubjectAll) | (IssuerAll, SubjectAll) => Some(IssuerDef),
        (IssuerAll, IssuerDef) => Some(IssuerDef),
        _ => None,
    }
}

/// The class of an intersection by those of its parts.
fn intersection(parts: &[Class]) -> Class {
    let all = |class| parts.iter().all(|&part| part == class);
    if all(IssuerAll) {
        IssuerAll
    } else if all(SubjectAll) {
        SubjectAll
    } else {
        IssuerDef
    }
}

/// Whether a head of this class takes this body.
pub fn takes(head: Class, body: &Expression, class_of: impl Fn(u16) -> Class) -> bool {
    let class = match body {
        // An entity suits every class.
        Expression::Entity(_) => return true,
        Expression::Role(role) => Some(class_of(role.name)),
        Expression::Linked(base, second) => linked(class_of(base.name), class_of(*second)),
        Expression::Intersection(parts) => {
            let classes: Vec<Class> = parts.iter().map(|part| class_of(part.name)).collect();
            Some(intersection(&classes))
        }
    };
    match class {
        None => false,
        Some(class) => head == IssuerDef || head == class,
    }
}

#[cfg(test)]
mod tests {
    use super::*;
    use crate::rules::expression::Role;

    #[test]
    fn class_bytes() {
        let read: Vec<Option<Class>> = (0..=4).map(decode_class).collect();
        assert_eq!(read, [None, Some(IssuerDef), Some(IssuerAll), Some(SubjectAll), None]);
        assert!((5..=255).all(|byte| decode_class(byte).is_none()));
    }

    /// Which of the classes 1 to 3 a head may have over this body; each name is its own class.
    fn heads(body: &Expression) -> Vec<u8> {
        let class_of = |name: u16| decode_class(name as u8).unwrap();
        (1..=3).filter(|&head| takes(decode_class(head).unwrap(), body, class_of)).collect()
    }

    fn role(name: u16) -> Role {
        Role { entity: 7, name }
    }

    #[test]
    fn bodies() {
        assert_eq!(heads(&Expression::Entity(9)), [1, 2, 3]);
        assert_eq!(heads(&Expression::Role(role(1))), [1]);
        assert_eq!(heads(&Expression::Role(role(2))), [1, 2]);
        assert_eq!(heads(&Expression::Role(role(3))), [1, 3]);
    }

    #[test]
    fn linked_bodies() {
        let table: [(u16, u16, &[u8]); 9] = [
            (1, 1, &[]),
            (1, 2, &[]),
            (1, 3, &[1]),
            (2, 1, &[1]),
            (2, 2, &[1, 2]),
            (2, 3, &[1]),
            (3, 1, &[]),
            (3, 2, &[]),
            (3, 3, &[1, 3]),
        ];
        for (first, second, expected) in table {
            assert_eq!(heads(&Expression::Linked(role(first), second)), expected, "{first} {second}");
        }
    }

    #[test]
    fn intersections() {
        let table: [(&[u16], &[u8]); 10] = [
            (&[1, 1], &[1]),
            (&[2, 2], &[1, 2]),
            (&[3, 3], &[1, 3]),
            (&[2, 3], &[1]),
            (&[1, 2], &[1]),
            (&[3, 1], &[1]),
            (&[2, 2, 2], &[1, 2]),
            (&[3, 3, 3, 3], &[1, 3]),
            (&[2, 2, 2, 1], &[1]),
            (&[3, 3, 3, 2], &[1]),
        ];
        for (parts, expected) in table {
            let parts: Vec<Role> = (1..).zip(parts).map(|(entity, &name)| Role { entity, name }).collect();
            assert_eq!(heads(&Expression::Intersection(parts.clone())), expected, "{parts:?}");
        }
    }
}
