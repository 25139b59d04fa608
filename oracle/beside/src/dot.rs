//! Graphviz as a judge of maps (M-109): `dot -Tcanon` reads a map and prints the graph that it understood, of which
//! nodes and edges are taken and compared with those of the model's tree.

use model::map::{quote, Block};
use std::collections::BTreeSet;
use std::io::{ErrorKind, Write};
use std::process::{Command, Stdio};

pub type Name = Vec<u8>;

/// A graph as Graphviz has it: one node for each name, edges in any order with repeats.
#[derive(Clone, Debug, PartialEq, Eq)]
pub struct Graph {
    pub nodes: BTreeSet<Name>,
    pub edges: Vec<(Name, Name)>,
}

impl Graph {
    /// Edges in an order of their own; their ends are nodes too.
    fn new(nodes: impl IntoIterator<Item = Name>, mut edges: Vec<(Name, Name)>) -> Graph {
        edges.sort_unstable();
        let ends = edges.iter().flat_map(|(from, to)| [from.clone(), to.clone()]);
        let nodes = nodes.into_iter().chain(ends).collect();
        Graph { nodes, edges }
    }

    /// What Graphviz must make of a map. A name there is what stands between the quotes: it leaves `\\` as it is.
    pub fn of(blocks: &[Block]) -> Graph {
        let nodes = blocks.iter().map(|block| inside(&block.name));
        let jumps = |block: &Block| {
            let from = inside(&block.name);
            block.targets.iter().map(|to| (from.clone(), inside(to))).collect::<Vec<_>>()
        };
        Graph::new(nodes, blocks.iter().flat_map(jumps).collect())
    }

    /// Whether there is a name that begins with `%`.
    pub fn has_own_names(&self) -> bool {
        self.nodes.iter().any(is_own)
    }

    /// Graphviz takes a name that begins with `%` for one of its own and prints `%` and a number: so all of these are
    /// one name, and how many nodes there are is told beside.
    fn without_own_names(&self) -> (usize, Graph) {
        let name = |name: &Name| if is_own(name) { b"%".to_vec() } else { name.clone() };
        let edges = self.edges.iter().map(|(from, to)| (name(from), name(to))).collect();
        (self.nodes.len(), Graph::new(self.nodes.iter().map(name), edges))
    }

    /// The same nodes and edges, but for what names of its own are called.
    pub fn same(&self, other: &Graph) -> bool {
        self.without_own_names() == other.without_own_names()
    }
}

fn is_own(name: &Name) -> bool {
    name.starts_with(b"%")
}

fn inside(name: &[u16]) -> Name {
    let mut quoted = vec![];
    quote(&mut quoted, name);
    quoted[1..quoted.len() - 1].to_vec()
}

/// What Graphviz prints of some maps, one behind the other; none if it is not installed.
pub fn canon(program: &str, maps: &[u8]) -> Result<Option<Vec<u8>>, String> {
    let start = Command::new(program)
        .arg("-Tcanon")
        .stdin(Stdio::piped())
        .stdout(Stdio::piped())
        .stderr(Stdio::piped())
        .spawn();
    let mut child = match start {
        Err(e) if e.kind() == ErrorKind::NotFound => return Ok(None),
        other => other.map_err(|e| format!("{program}: {e}"))?,
    };
    let mut given = child.stdin.take().ok_or("no pipe")?;
    let output = std::thread::scope(|scope| {
        // It prints before it has read all.
        let writer = scope.spawn(move || given.write_all(maps));
        let output = child.wait_with_output();
        (writer.join(), output)
    });
    let (written, output) =
        (output.0.map_err(|_| "the writer panicked")?, output.1.map_err(|e| e.to_string())?);
    if !output.status.success() || !output.stderr.is_empty() {
        let said = String::from_utf8_lossy(&output.stderr);
        return Err(format!("{program} ended with {} and said: {said}", output.status));
    }
    written.map_err(|e| format!("{program}: {e}"))?;
    Ok(Some(output.stdout))
}

#[derive(Clone, Debug, PartialEq, Eq)]
enum Token {
    Word(Name),
    Quoted(Name),
    Sign(u8),
    Arrow,
}

/// The tokens of what Graphviz prints.
fn tokens(mut rest: &[u8]) -> Result<Vec<Token>, String> {
    let mut out = vec![];
    while let [first, behind @ ..] = rest {
        rest = behind;
        match *first {
            b' ' | b'\t' | b'\n' => {}
            b'-' if behind.starts_with(b">") => {
                out.push(Token::Arrow);
                rest = &behind[1..];
            }
            b'"' => {
                let (name, behind) = quoted(behind)?;
                out.push(Token::Quoted(name));
                rest = behind;
            }
            // So it prints some names of its own.
            b'<' if behind.starts_with(b"%") => {
                let end = behind.iter().position(|&b| b == b'>').ok_or("an open name")?;
                out.push(Token::Word(behind[..end].to_vec()));
                rest = &behind[end + 1..];
            }
            sign @ (b'{' | b'}' | b'[' | b']' | b';' | b',' | b'=') => out.push(Token::Sign(sign)),
            _ => {
                let is_word = |b: &u8| b.is_ascii_alphanumeric() || b"_.-".contains(b);
                let more = behind.iter().take_while(|b| is_word(b)).count();
                out.push(Token::Word([&[*first], &behind[..more]].concat()));
                rest = &behind[more..];
            }
        }
    }
    Ok(out)
}

/// A name behind its opening quote, and what stands behind the closing one. A backslash and a line feed only break a
/// long line; in front of a quote the backslash is Graphviz's; any other stays, with the byte behind it.
fn quoted(mut rest: &[u8]) -> Result<(Name, &[u8]), String> {
    let mut name = vec![];
    loop {
        match rest {
            [b'"', behind @ ..] => return Ok((name, behind)),
            [b'\\', b'\n', behind @ ..] => rest = behind,
            [b'\\', b'"', behind @ ..] => {
                name.push(b'"');
                rest = behind;
            }
            [b'\\', other, behind @ ..] => {
                name.extend_from_slice(&[b'\\', *other]);
                rest = behind;
            }
            [other, behind @ ..] => {
                name.push(*other);
                rest = behind;
            }
            [] => return Err("an open quote".to_string()),
        }
    }
}

/// The graphs that were printed, in order.
pub fn graphs(canon: &[u8]) -> Result<Vec<Graph>, String> {
    let tokens = tokens(canon)?;
    let mut found = vec![];
    let mut rest = &tokens[..];
    while !rest.is_empty() {
        let [Token::Word(word), Token::Sign(b'{'), behind @ ..] = rest else {
            return Err(format!("no graph begins at {:?}", &rest[..rest.len().min(4)]));
        };
        if word != b"digraph" {
            return Err("no digraph".to_string());
        }
        let end = behind.iter().position(|token| *token == Token::Sign(b'}')).ok_or("an open graph")?;
        found.push(graph(&behind[..end])?);
        rest = &behind[end + 1..];
    }
    Ok(found)
}

/// One graph: statements, each with its semicolon.
fn graph(tokens: &[Token]) -> Result<Graph, String> {
    let (mut nodes, mut edges) = (vec![], vec![]);
    let mut statements: Vec<&[Token]> = tokens.split(|token| *token == Token::Sign(b';')).collect();
    if statements.pop().is_some_and(|last| !last.is_empty()) {
        return Err("no semicolon at the end".to_string());
    }
    for statement in statements {
        match statement {
            // What holds for every node.
            [Token::Word(word), Token::Sign(b'['), ..] if word == b"node" => {}
            [Token::Word(name) | Token::Quoted(name)] => nodes.push(name.clone()),
            [Token::Word(from) | Token::Quoted(from), Token::Arrow, Token::Word(to) | Token::Quoted(to)] => {
                edges.push((from.clone(), to.clone()));
            }
            other => return Err(format!("no node and no edge: {other:?}")),
        }
    }
    Ok(Graph::new(nodes, edges))
}

#[cfg(test)]
mod tests {
    use super::*;

    #[test]
    fn reads_what_graphviz_prints() {
        let printed = "digraph {\n\tnode [label=\"\\N\"];\n\t0 -> \"a b\";\n\t0 -> \"a b\";\n\t\"node\";\n\t-1.5;\n\t\"\\\\22\\\n\
                       x\\\"\" -> -.5;\n\t<%7> -> \"%12\";\n}\ndigraph {\n\tnode [label=\"\\N\"];\n}\n";
        let all = graphs(printed.as_bytes()).expect("two graphs");
        let name = |name: &str| name.as_bytes().to_vec();
        let edge = |from: &str, to: &str| (name(from), name(to));
        assert_eq!(all.len(), 2);
        let edges = [edge("%7", "%12"), edge("0", "a b"), edge("0", "a b"), edge("\\\\22x\"", "-.5")];
        assert_eq!(all[0].edges, edges);
        let nodes = ["%12", "%7", "-.5", "-1.5", "0", "\\\\22x\"", "a b", "node"];
        assert_eq!(all[0].nodes, nodes.map(name).into());
        assert_eq!(all[1], Graph::new([], vec![]));
        for wrong in ["graph {\n}\n", "digraph {\n\ta\n}\n", "digraph {\n", "digraph {\n\t\"a;\n}\n", "x"] {
            assert!(graphs(wrong.as_bytes()).is_err(), "{wrong:?}");
        }
    }

    #[test]
    fn names_of_its_own() {
        let name = |name: &str| name.as_bytes().to_vec();
        let graph = |from: &str, to: &str| Graph::new([name("a")], vec![(name(from), name(to))]);
        assert!(graph("%x", "b").same(&graph("%5", "b")));
        assert!(!graph("%x", "%x").same(&graph("%5", "%6")), "one node less");
        assert!(!graph("%x", "b").same(&graph("b", "%5")));
        assert!(!graph("x", "b").same(&graph("y", "b")));
    }
}
