//! A question's bytes: up to 64 credential commands and an end, and the two expressions of "f from e".

use crate::refusal::Refusal;
use crate::rules::expression::*;
use crate::rules::relation;

pub const MOST_CREDENTIALS: usize = 64;
/// A credential command: its first byte and its operands.
pub const COMMAND_BYTES: usize = 1 + CREDENTIAL_BYTES;
pub const MOST_BYTES: usize = MOST_CREDENTIALS * COMMAND_BYTES + 1;

pub const CREDENTIAL: u8 = 0x01;
pub const END: u8 = 0x06;

#[derive(Clone, Debug, PartialEq, Eq)]
pub struct Question {
    pub credentials: Vec<Credential>,
    pub f: Expression,
    pub e: Expression,
}

/// The three lent buffers.
#[derive(Clone, Debug, PartialEq, Eq)]
pub struct Lent {
    pub credentials: Vec<u8>,
    pub f: Vec<u8>,
    pub e: Vec<u8>,
}

/// The commands, left to right; the first that cannot be taken settles the refusal.
fn decode_credentials(bytes: &[u8]) -> Result<Vec<Credential>, Refusal> {
    let mut credentials = Vec::new();
    let mut at = 0;
    loop {
        match bytes.get(at) {
            Some(&CREDENTIAL) => {
                let operands = bytes.get(at + 1..at + COMMAND_BYTES).ok_or(Refusal::Command)?;
                credentials.push(decode_credential(operands).ok_or(Refusal::Operand)?);
                at += COMMAND_BYTES;
            }
            Some(&END) if at + 1 == bytes.len() => return Ok(credentials),
            // Bytes after the end, an unknown command, or no end.
            _ => return Err(Refusal::Command),
        }
    }
}

/// The lengths first, then the commands, then f, then e.
pub fn decode(credentials: &[u8], f: &[u8], e: &[u8]) -> Result<Question, Refusal> {
    let lengths_fit =
        (1..=MOST_BYTES).contains(&credentials.len()) && f.len() == EXPRESSION_BYTES && e.len() == EXPRESSION_BYTES;
    if !lengths_fit {
        return Err(Refusal::Length);
    }
    Ok(Question {
        credentials: decode_credentials(credentials)?,
        f: decode_expression(f).ok_or(Refusal::Operand)?,
        e: decode_expression(e).ok_or(Refusal::Operand)?,
    })
}

pub fn encode(question: &Question) -> Lent {
    let mut credentials = Vec::new();
    for credential in &question.credentials {
        credentials.push(CREDENTIAL);
        credentials.extend(encode_credential(credential));
    }
    credentials.push(END);
    Lent { credentials, f: encode_expression(&question.f), e: encode_expression(&question.e) }
}

/// The answer of the call: a refusal's number, or 256 for yes and 0 for no.
pub fn answer(credentials: &[u8], f: &[u8], e: &[u8]) -> u64 {
    match decode(credentials, f, e) {
        Err(refusal) => refusal as u64,
        Ok(question) => 256 * relation::from(&question.credentials, &question.f, &question.e) as u64,
    }
}

#[cfg(test)]
mod tests {
    use super::*;

    fn credential(entity: u16, name: u16, body: Expression) -> Vec<u8> {
        let mut bytes = vec![CREDENTIAL];
        bytes.extend(encode_credential(&Credential { head: Role { entity, name }, body }));
        bytes
    }

    fn asked(credentials: &[u8]) -> u64 {
        let f = encode_expression(&Expression::Role(Role { entity: 1, name: 1 }));
        answer(credentials, &f, &f)
    }

    #[test]
    fn lengths() {
        let f = encode_expression(&Expression::Entity(1));
        assert_eq!(answer(&[], &f, &f), 1);
        assert_eq!(answer(&[END], &f, &f), 256);
        assert_eq!(answer(&[END], &f[..17], &f), 1);
        assert_eq!(answer(&[END], &f, &[0; 19]), 1);
        let mut full = credential(1, 1, Expression::Entity(2)).repeat(MOST_CREDENTIALS);
        full.push(END);
        assert_eq!(full.len(), 1473);
        assert_eq!(answer(&full, &f, &f), 256);
        full.push(END);
        assert_eq!(answer(&full, &f, &f), 1);
    }

    #[test]
    fn commands() {
        let good = credential(1, 1, Expression::Entity(2));
        let wrong = credential(0, 1, Expression::Entity(2));
        assert_eq!(asked(&good), 2);
        assert_eq!(asked(&[END, END]), 2);
        for first in [0x00, 0x02, 0x03, 0x04, 0x05, 0x07, 0x10, 0xff] {
            assert_eq!(asked(&[first]), 2);
        }
        assert_eq!(asked(&good[..22]), 2);
        assert_eq!(asked(&wrong[..22]), 2);
        assert_eq!(asked(&wrong), 3);
        assert_eq!(asked(&[wrong.clone(), vec![0x02]].concat()), 3);
        assert_eq!(asked(&[good.clone(), vec![0x02], wrong.clone()].concat()), 2);
        assert_eq!(asked(&[vec![END], wrong].concat()), 2);
        assert_eq!(asked(&[good, vec![END]].concat()), 256);
    }

    #[test]
    fn operands() {
        let linked = |entity| Expression::Linked(Role { entity, name: 2 }, 3);
        assert_eq!(asked(&[credential(1, 1, linked(1)), vec![END]].concat()), 256);
        assert_eq!(asked(&[credential(1, 1, linked(2)), vec![END]].concat()), 3);
        assert_eq!(asked(&[credential(1, 0, linked(1)), vec![END]].concat()), 3);
        // The linked role of a question may have any entity; a goal is no expression of a question.
        let goal = [vec![5, 0, 0, 1], vec![0; 14]].concat();
        let fine = encode_expression(&linked(7));
        assert_eq!(answer(&[END], &fine, &fine), 256);
        assert_eq!(answer(&[END], &goal, &fine), 3);
        assert_eq!(answer(&[END], &fine, &goal), 3);
        assert_eq!(answer(&[0x02], &goal, &goal), 2);
    }
}
