//! Roles, expressions and credentials, and their bytes.

/// entity.name. The order is by entity, then by name.
#[derive(Clone, Copy, Debug, PartialEq, Eq, PartialOrd, Ord, Hash)]
pub struct Role {
    pub entity: u16,
    pub name: u16,
}

#[derive(Clone, Debug, PartialEq, Eq, PartialOrd, Ord, Hash)]
pub enum Expression {
    Entity(u16),
    Role(Role),
    /// entity.name.name: the members of B.name for each member B of the role.
    Linked(Role, u16),
    /// Two to four roles, strictly ascending.
    Intersection(Vec<Role>),
}

impl Expression {
    /// Every name in it.
    pub fn names(&self) -> Vec<u16> {
        match self {
            Expression::Entity(_) => vec![],
            Expression::Role(role) => vec![role.name],
            Expression::Linked(base, second) => vec![base.name, *second],
            Expression::Intersection(parts) => parts.iter().map(|part| part.name).collect(),
        }
    }
}

/// head <- body
#[derive(Clone, Debug, PartialEq, Eq)]
pub struct Credential {
    pub head: Role,
    pub body: Expression,
}

impl Credential {
    /// Every name in it.
    pub fn names(&self) -> Vec<u16> {
        [vec![self.head.name], self.body.names()].concat()
    }
}

pub const EXPRESSION_BYTES: usize = 18;
/// Issuer, name and body.
pub const CREDENTIAL_BYTES: usize = 4 + EXPRESSION_BYTES;

/// Two bytes, high byte first.
fn number(bytes: &[u8], at: usize) -> u16 {
    u16::from_be_bytes([bytes[at], bytes[at + 1]])
}

/// The expression of kind 1 to 4 that these 18 bytes stand for, or None if their form is wrong.
pub fn decode_expression(bytes: &[u8]) -> Option<Expression> {
    assert_eq!(bytes.len(), EXPRESSION_BYTES);
    let kind = bytes[0];
    let part_count = bytes[1] as usize;
    let numbers: Vec<u16> = (0..8).map(|i| number(bytes, 2 + 2 * i)).collect();

    // How many of the eight numbers the kind uses, and whether it allows the part count.
    let (used, count_allowed) = match kind {
        1 => (1, part_count == 0),
        2 => (2, part_count == 0),
        3 => (3, part_count == 0),
        4 => (2 * part_count, (2..=4).contains(&part_count)),
        _ => return None,
    };
    if !count_allowed {
        return None;
    }
    // Entities and names run from 1, and zero marks an unused field.
    if numbers[..used].contains(&0) || numbers[used..].iter().any(|&n| n != 0) {
        return None;
    }

    let role = |at: usize| Role { entity: numbers[at], name: numbers[at + 1] };
    match kind {
        1 => Some(Expression::Entity(numbers[0])),
        2 => Some(Expression::Role(role(0))),
        3 => Some(Expression::Linked(role(0), numbers[2])),
        _ => {
            let parts: Vec<Role> = (0..part_count).map(|i| role(2 * i)).collect();
            let ascending = parts.windows(2).all(|pair| pair[0] < pair[1]);
            ascending.then_some(Expression::Intersection(parts))
        }
    }
}

/// The credential that these 22 bytes stand for, or None if their form is wrong.
pub fn decode_credential(bytes: &[u8]) -> Option<Credential> {
    assert_eq!(bytes.len(), CREDENTIAL_BYTES);
    let head = Role { entity: number(bytes, 0), name: number(bytes, 2) };
    if head.entity == 0 || head.name == 0 {
        return None;
    }
    let body = decode_expression(&bytes[4..])?;
    // A linked body begins with the issuer.
    if let Expression::Linked(base, _) = &body {
        if base.entity != head.entity {
            return None;
        }
    }
    Some(Credential { head, body })
}

/// The 18 bytes of an expression.
pub fn encode_expression(expression: &Expression) -> Vec<u8> {
    let (kind, part_count, numbers) = match expression {
        Expression::Entity(entity) => (1, 0, vec![*entity]),
        Expression::Role(role) => (2, 0, vec![role.entity, role.name]),
        Expression::Linked(base, name) => (3, 0, vec![base.entity, base.name, *name]),
        Expression::Intersection(parts) => {
            (4, parts.len() as u8, parts.iter().flat_map(|part| [part.entity, part.name]).collect())
        }
    };
    let mut bytes = vec![kind, part_count];
    for n in numbers {
        bytes.extend(n.to_be_bytes());
    }
    bytes.resize(EXPRESSION_BYTES, 0);
    bytes
}

/// The 22 bytes of a credential.
pub fn encode_credential(credential: &Credential) -> Vec<u8> {
    let mut bytes = Vec::new();
    bytes.extend(credential.head.entity.to_be_bytes());
    bytes.extend(credential.head.name.to_be_bytes());
    bytes.extend(encode_expression(&credential.body));
    bytes
}

#[cfg(test)]
mod tests {
    use super::*;

    fn role(entity: u16, name: u16) -> Role {
        Role { entity, name }
    }

    fn bytes(kind: u8, part_count: u8, numbers: [u16; 8]) -> Vec<u8> {
        let mut bytes = vec![kind, part_count];
        for n in numbers {
            bytes.extend(n.to_be_bytes());
        }
        bytes
    }

    #[test]
    fn expressions_of_each_kind() {
        let table = [
            (bytes(1, 0, [65535, 0, 0, 0, 0, 0, 0, 0]), Expression::Entity(65535)),
            (bytes(2, 0, [1, 256, 0, 0, 0, 0, 0, 0]), Expression::Role(role(1, 256))),
            (bytes(3, 0, [1, 2, 3, 0, 0, 0, 0, 0]), Expression::Linked(role(1, 2), 3)),
            (bytes(4, 2, [1, 2, 1, 3, 0, 0, 0, 0]), Expression::Intersection(vec![role(1, 2), role(1, 3)])),
            (
                bytes(4, 4, [1, 9, 2, 1, 2, 2, 300, 1]),
                Expression::Intersection(vec![role(1, 9), role(2, 1), role(2, 2), role(300, 1)]),
            ),
        ];
        for (bytes, expression) in table {
            assert_eq!(decode_expression(&bytes), Some(expression.clone()));
            assert_eq!(encode_expression(&expression), bytes);
        }
    }

    #[test]
    fn wrong_forms() {
        let table = [
            bytes(0, 0, [1, 0, 0, 0, 0, 0, 0, 0]),
            bytes(5, 0, [1, 0, 0, 0, 0, 0, 0, 0]),
            bytes(6, 0, [1, 0, 0, 0, 0, 0, 0, 0]),
            bytes(1, 0, [0, 0, 0, 0, 0, 0, 0, 0]),
            bytes(1, 1, [1, 0, 0, 0, 0, 0, 0, 0]),
            bytes(1, 0, [1, 0, 0, 0, 0, 0, 0, 1]),
            bytes(2, 0, [1, 0, 0, 0, 0, 0, 0, 0]),
            bytes(2, 0, [1, 2, 3, 0, 0, 0, 0, 0]),
            bytes(3, 0, [1, 2, 0, 0, 0, 0, 0, 0]),
            bytes(3, 0, [1, 2, 3, 4, 0, 0, 0, 0]),
            bytes(4, 0, [0, 0, 0, 0, 0, 0, 0, 0]),
            bytes(4, 1, [1, 2, 0, 0, 0, 0, 0, 0]),
            bytes(4, 2, [1, 2, 1, 2, 0, 0, 0, 0]),
            bytes(4, 2, [1, 3, 1, 2, 0, 0, 0, 0]),
            bytes(4, 2, [2, 1, 1, 2, 0, 0, 0, 0]),
            bytes(4, 2, [1, 2, 3, 0, 0, 0, 0, 0]),
            bytes(4, 2, [1, 2, 3, 4, 5, 6, 0, 0]),
            bytes(4, 3, [1, 2, 3, 4, 0, 0, 0, 0]),
            bytes(4, 5, [1, 2, 3, 4, 5, 6, 7, 8]),
        ];
        for bytes in table {
            assert_eq!(decode_expression(&bytes), None, "{bytes:?}");
        }
    }
}
