//! Takes that last long: messages of 4,096 bytes onto a small graph, short ones onto full graphs, and the full
//! negotiations of `negotiation::large` built again by one message.

use crate::message::plan::without_mark;
use crate::message::shapes::*;
use crate::message::writer::{Run, Writer};
use crate::message::*;
use crate::negotiation::graph::is_standard;
use crate::negotiation::large::large;
use crate::negotiation::report;
use crate::negotiation::shapes::Shaped;
use crate::negotiation::*;
use crate::refusal::Refusal;
use crate::rules::expression::*;

fn role(entity: u16, name: u16) -> Role {
    Role { entity, name }
}

fn credential(head: Role, body: Expression) -> Command {
    Command::Credential(Credential { head, body })
}

fn target(expression: Expression) -> Form {
    Form::Target(expression)
}

/// The requester takes messages onto 1.1 and these credentials.
fn one_node(shown: impl IntoIterator<Item = Command>) -> Writer {
    let mut writer = opening();
    shown.into_iter().for_each(|command| writer.must(command));
    go_on(writer)
}

/// What the writer has written was an earlier message.
fn go_on(writer: Writer) -> Writer {
    Writer::new(plain_tables(REQUESTER), Negotiation { messages: Messages::in_turn(2), ..writer.now })
}

/// Writes a command if it is legal and fits within the most bytes of a message.
fn add_within(writer: &mut Writer, command: &Command) -> Result<(), Refusal> {
    if writer.length() + encode_command(command).len() > MOST_MESSAGE_BYTES {
        return Err(Refusal::Size);
    }
    writer.add(command.clone())
}

/// Those of the commands that are legal and fit.
fn fill(writer: &mut Writer, commands: impl IntoIterator<Item = Command>) {
    for command in commands {
        let _ = add_within(writer, &command);
    }
}

/// Control edges to new targets, control edges back to the primary, and all marks.
fn fill_with_others(writer: &mut Writer) {
    fill(writer, (0..MOST_NODES as u16).map(|i| control(role(2000 + i, 1))));
    fill(writer, (1..MOST_NODES).map(|parent| Command::Join(Edge { kind: CONTROL, parent, child: 0 })));
    fill(writer, (0..MOST_NODES).map(Command::Mark));
}

fn control(role: Role) -> Command {
    control_to(Expression::Role(role))
}

/// A target of the requester under the primary.
fn control_to(expression: Expression) -> Command {
    Command::Child(NewChild { kind: CONTROL, parent: 0, form: target(expression), subject: MEDIATOR, state: 0 })
}

fn imply(parent: usize, expression: Expression, subject: u16) -> Command {
    let state = if matches!(expression, Expression::Role(_) | Expression::Linked(..)) { 0 } else { 3 };
    Command::Child(NewChild { kind: IMPLICATION, parent, form: target(expression), subject, state })
}

/// 1.2 from 63 entities B was shown: 1.2.3 and 1.2.4 from each B.3 and B.4.
fn implications() -> Run {
    let members = 2000..2063;
    let mut writer = one_node(members.clone().map(|member| credential(role(1, 2), Expression::Entity(member))));
    for second in [3, 4] {
        writer.must(control_to(Expression::Linked(role(1, 2), second)));
        let parent = writer.now.nodes.len() - 1;
        fill(
            &mut writer,
            members.clone().map(|member| imply(parent, Expression::Role(role(member, second)), MEDIATOR)),
        );
    }
    fill_with_others(&mut writer);
    writer.finish("kind 1 edges to distinct children")
}

/// i.1 <- (i + 1).1, each credential with an edge from the primary, or from the node before.
fn alternating(from_primary: bool) -> Run {
    let mut writer = one_node([]);
    for i in 1..=64 {
        let next = Expression::Role(role(i + 1, 1));
        let parent = if from_primary { 0 } else { writer.now.nodes.len() - 1 };
        writer.must(credential(role(i, 1), next.clone()));
        writer.must(imply(parent, next, REQUESTER));
    }
    fill_with_others(&mut writer);
    let parent = if from_primary { "the primary" } else { "the node before" };
    writer.finish(format!("credentials and kind 1 edges in turn, into {parent}"))
}

/// The linked roles 1.2.s of four names s, and 15 entities B whose roles B.s the requester has; then a linking
/// implication for each.
fn linking_implications() -> Run {
    let (seconds, members) = (10..14, 20..35);
    let mut writer = opening();
    for second in seconds.clone() {
        writer.must(credential(role(1, 1), Expression::Linked(role(1, 2), second)));
        for member in members.clone() {
            writer.must(credential(role(member, second), Expression::Entity(REQUESTER)));
        }
    }
    let mut linked = Vec::new();
    for second in seconds {
        let parent = writer.now.nodes.len();
        writer.must(imply(0, Expression::Linked(role(1, 2), second), REQUESTER));
        writer.child(MONITOR, parent, Form::Goal(second), REQUESTER, 1);
        // The mediator cannot add solutions of its own goal, so these come from the requester.
        writer.now.nodes[parent + 1].state = 1;
        for member in members.clone() {
            let Negotiation { nodes, edges, .. } = &mut writer.now;
            edges.push(Edge { kind: SOLUTION, parent: parent + 1, child: nodes.len() });
            let form = target(Expression::Role(role(member, second)));
            nodes.push(Node { form, subject: REQUESTER, verifier: Side::Mediator, state: 0 });
            linked.push((parent, member));
            let proof = imply(nodes.len() - 1, Expression::Entity(REQUESTER), REQUESTER);
            join_or_add(&mut writer, proof);
        }
    }
    let mut writer = go_on(writer);
    for (parent, subject) in linked {
        let form = target(Expression::Role(role(1, 2)));
        join_or_add(
            &mut writer,
            Command::Child(NewChild { kind: LINKING_IMPLICATION, parent, form, subject, state: 0 }),
        );
    }
    fill_with_others(&mut writer);
    writer.finish("linking implications")
}

/// The edge to a new child, or to the node where that stands. Its verifier is the mediator.
fn join_or_add(writer: &mut Writer, command: Command) {
    let Command::Child(child) = &command else { unreachable!("no child") };
    let stands =
        |node: &Node| (&node.form, node.subject, node.verifier) == (&child.form, child.subject, Side::Mediator);
    match writer.now.nodes.iter().position(stands) {
        Some(number) => writer.must(Command::Join(Edge { kind: child.kind, parent: child.parent, child: number })),
        None => writer.must(command),
    }
}

/// 127 control edges in the message before, then all marks.
fn marks() -> Run {
    let mut writer = one_node([]);
    fill(&mut writer, (1..MOST_NODES as u16).map(|i| control(role(2000 + i, 1))));
    let mut writer = go_on(writer);
    fill(&mut writer, (0..MOST_NODES).map(Command::Mark));
    writer.finish("all marks, 128 nodes")
}

/// Messages of 4,096 bytes or near, and one of marks.
pub fn long_messages() -> Vec<Run> {
    vec![implications(), alternating(true), alternating(false), linking_implications(), marks()]
}

/// The primary, and a target of the requester under it.
fn top(old: &Negotiation) -> Vec<Node> {
    let node = |form, side: Side| {
        let subject = old.entity(side.opposite());
        Node { form, subject, verifier: side, state: 0 }
    };
    let form = |entity| target(Expression::Role(role(entity, 1)));
    vec![node(form(5000), Side::Mediator), node(form(5001), Side::Requester)]
}

/// The negotiation under two control edges, by which it has not ended, up to the sizes of nodes and edges.
fn under_controls(shaped: &Shaped) -> Shaped {
    let old = &shaped.negotiation;
    let mut nodes = [top(old), old.nodes.clone()].concat();
    let mut edges: Vec<Edge> = (0..2).map(|parent| Edge { kind: CONTROL, parent, child: parent + 1 }).collect();
    let shifted = old.edges.iter().map(|edge| Edge { kind: edge.kind, parent: edge.parent + 2, child: edge.child + 2 });
    edges.extend(shifted.filter(|edge| edge.parent < MOST_NODES && edge.child < MOST_NODES));
    edges.truncate(MOST_EDGES);
    nodes.truncate(1 + edges.iter().map(|edge| edge.child).max().unwrap());
    fill_up(&mut nodes, &mut edges);
    let negotiation = Negotiation { wanted: role(5000, 1), nodes, edges, end: 0, ..old.clone() };
    Shaped { name: shaped.name.clone(), tables: shaped.tables.clone(), negotiation }
}

/// More targets under the primary, and control edges to the primary.
fn fill_up(nodes: &mut Vec<Node>, edges: &mut Vec<Edge>) {
    while nodes.len() < MOST_NODES && edges.len() < MOST_EDGES {
        edges.push(Edge { kind: CONTROL, parent: 0, child: nodes.len() });
        let form = target(Expression::Role(role(6000 + nodes.len() as u16, 1)));
        nodes.push(Node { form, ..nodes[1].clone() });
    }
    let of_requester = (1..nodes.len()).filter(|&node| nodes[node].verifier == Side::Requester);
    let standard = of_requester.filter(|&node| is_standard(&nodes[node]));
    let back = standard.flat_map(|parent| [0, 2].map(|child| Edge { kind: CONTROL, parent, child }));
    let fresh: Vec<Edge> = back.filter(|edge| !edges.contains(edge)).collect();
    edges.extend(fresh.into_iter().take(MOST_EDGES - edges.len()));
}

/// The large negotiations up to the sizes of nodes and edges that are sound and have not ended.
pub fn full() -> Vec<Shaped> {
    let is_sound = |shaped: &Shaped| report::judge(&shaped.tables, &encode(&shaped.negotiation)).is_ok();
    large().iter().map(under_controls).filter(is_sound).collect()
}

/// The message onto the shaped negotiation.
pub fn onto(shaped: &Shaped, what: &str, commands: &[Command]) -> Run {
    let mut writer = Writer::new(shaped.tables.clone(), shaped.negotiation.clone());
    commands.iter().for_each(|command| writer.must(command.clone()));
    writer.finish(format!("{what}: {}", shaped.name))
}

/// A lone end and the mark of the last node that the sender has not processed, onto each full negotiation.
pub fn onto_full() -> Vec<Run> {
    let mut runs = Vec::new();
    for shaped in full() {
        let sender = shaped.negotiation.side.opposite();
        let bit = |node: &Node| if node.verifier == sender { 1 } else { 2 };
        let open = shaped.negotiation.nodes.iter().rposition(|node| node.state & bit(node) == 0);
        runs.push(onto(&shaped, "lone end", &[]));
        runs.extend(open.map(|node| onto(&shaped, "mark", &[Command::Mark(node)])));
    }
    runs
}

/// When a message that builds a negotiation again shows its credentials.
#[derive(Clone, Copy)]
pub enum Credentials {
    Before,
    First,
    /// In their order, none before an edge lacks it or one after it; the others last.
    Late,
}

/// The command for an edge of the whole; None: its parent does not stand.
fn edge_again(whole: &Negotiation, now: &Negotiation, edge: &Edge) -> Option<Command> {
    let number = |node: usize| now.nodes.iter().position(|old| old.same_target(&whole.nodes[node]));
    let parent = number(edge.parent)?;
    Some(match number(edge.child) {
        Some(child) => Command::Join(Edge { kind: edge.kind, parent, child }),
        None => {
            let node = &whole.nodes[edge.child];
            let state = without_mark(node, now.side.opposite());
            Command::Child(NewChild { kind: edge.kind, parent, form: node.form.clone(), subject: node.subject, state })
        }
    })
}

/// The negotiation from its primary on, by one message, as far as the sender may and the bytes go.
pub fn again(shaped: &Shaped, credentials: Credentials) -> Run {
    let whole = &shaped.negotiation;
    let mut start = Negotiation { nodes: whole.nodes[..1].to_vec(), edges: vec![], shown: vec![], ..whole.clone() };
    (start.end, start.idle) = (0, false);
    start.nodes[0].state = without_mark(&start.nodes[0], start.side.opposite());
    let shown: Vec<Command> = whole.shown.iter().cloned().map(Command::Credential).collect();
    if matches!(credentials, Credentials::Before) {
        start.shown = whole.shown.clone();
    }
    let mut writer = Writer::new(shaped.tables.clone(), start);
    if matches!(credentials, Credentials::First) {
        fill(&mut writer, shown.clone());
    }
    for edge in &whole.edges {
        let Some(command) = edge_again(whole, &writer.now, edge) else { continue };
        let late = matches!(credentials, Credentials::Late);
        if add_within(&mut writer, &command) == Err(Refusal::Unjustified) && late {
            let _ = shown.iter().any(|credential| {
                add_within(&mut writer, credential).is_ok() && add_within(&mut writer, &command).is_ok()
            });
        }
    }
    fill(&mut writer, shown);
    let when = match credentials {
        Credentials::Before => "credentials before",
        Credentials::First => "credentials first",
        Credentials::Late => "credentials late",
    };
    writer.finish(format!("{}, {when}", shaped.name))
}

/// Every large negotiation, ended or not, in each way.
pub fn all_again() -> Vec<Run> {
    let ways = [Credentials::Before, Credentials::First, Credentials::Late];
    large().iter().flat_map(|shaped| ways.map(|way| again(shaped, way))).collect()
}

#[cfg(test)]
mod tests {
    use super::*;
    use crate::message::take::{judge, Lent};

    fn answer(run: &Run) -> u64 {
        let Lent { tables, negotiation, message, scratch } = &run.lent;
        judge(tables, negotiation, message, scratch).map_or_else(|refused| refused.refusal as u64, |_| 0)
    }

    #[test]
    fn long_messages_are_accepted() {
        for run in long_messages() {
            assert_eq!(answer(&run), 0, "{}", run.name);
        }
        let lengths: Vec<usize> = long_messages().iter().map(|run| run.lent.message.len()).collect();
        assert!(lengths[..3].iter().all(|length| *length > 3800), "{lengths:?}");
    }

    #[test]
    fn some_built_again_are_accepted() {
        let shaped = &large()[3];
        for way in [Credentials::Before, Credentials::First, Credentials::Late] {
            let run = again(shaped, way);
            assert_eq!(answer(&run), 0, "{}", run.name);
            assert!(run.lent.message.len() > 2000, "{}: {} bytes", run.name, run.lent.message.len());
        }
    }

    #[test]
    fn short_ones_onto_full_graphs_are_accepted() {
        let runs = onto_full();
        let sizes = |run: &Run| {
            let negotiation = decode(&run.lent.negotiation).unwrap();
            (negotiation.nodes.len(), negotiation.edges.len(), negotiation.shown.len())
        };
        let full = runs.iter().filter(|run| sizes(run) == (MOST_NODES, MOST_EDGES, MOST_SHOWN)).count();
        assert!(full > 20, "{full} runs of {}", runs.len());
        for run in runs {
            assert_eq!(answer(&run), 0, "{}", run.name);
        }
    }
}
