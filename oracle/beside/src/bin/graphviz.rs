//! Has Graphviz read the maps of accepted functions (M-109): `graphviz SEED COUNT` takes the static library,
//! `graphviz --model SEED COUNT` the model. Graphviz is the program that DOT names, or `dot`. Of each map it must
//! have just the nodes and the edges of the model's tree. Where it is not installed that is said, and nothing more.

use beside::check::parse;
use beside::dot::{canon, graphs, Graph};
use beside::library;
use beside::port::{Function, Model, Port};
use judge::answer::on_big_stack;
use judge::files;
use model::full::records;
use model::map::{of_text, Block, LENGTH};
use std::process::ExitCode;
use texts::rng::Rng;
use texts::{clang, cover, jumps, Texts};

const USAGE: &str = "usage: graphviz [--model] SEED COUNT";

/// So many maps are given to Graphviz at once.
const BATCH: usize = 500;

/// So many differences are shown.
const SHOWN: usize = 20;

#[derive(Default)]
struct Report {
    maps: u64,
    bytes: u64,
    nodes: u64,
    edges: u64,
    /// Maps with a name that begins with `%`.
    own_names: u64,
    wrong: Vec<String>,
}

impl Report {
    fn show(&self) -> String {
        let Report { maps, bytes, nodes, edges, own_names, wrong } = self;
        let mut out: String = wrong.iter().take(SHOWN).map(|w| format!("{w}\n")).collect();
        out.push_str(&format!(
            "{maps} maps of {bytes} bytes read by Graphviz, with {nodes} nodes and {edges} edges; in {own_names} a name \
             begins with %, which Graphviz calls otherwise\n{} differences\n",
            wrong.len()
        ));
        out
    }
}

/// The map that a reader makes of a text, in records that it left itself.
fn map_of(port: &dyn Port, text: &[u8]) -> Result<Vec<u8>, String> {
    let r = records(text).map_err(|r| format!("refused {}", r.number))?;
    let left = parse(port, text, r.words.len(), r.directory.len());
    let of = Function {
        text,
        words: left.words.words(),
        directory: left.directory.words(),
        entries: left.answer.entries,
    };
    for room in [1 << 16, LENGTH] {
        let (mut map, mut place, mut length) = (vec![0; room], 0, 0);
        if port.block_map(of, &mut map, &mut place, &mut length) == 0 {
            map.truncate(length as usize);
            return Ok(map);
        }
    }
    Err("refused 27".to_string())
}

/// Some texts at once; false if Graphviz is not installed.
fn batch(
    port: &dyn Port,
    program: &str,
    report: &mut Report,
    texts: &[(Vec<u8>, Vec<Block>)],
) -> Result<bool, String> {
    let maps: Vec<Vec<u8>> = texts.iter().map(|(text, _)| map_of(port, text)).collect::<Result<_, _>>()?;
    let Some(printed) = canon(program, &maps.concat())? else { return Ok(false) };
    let graphs = graphs(&printed)?;
    if graphs.len() != maps.len() {
        return Err(format!("{} maps, but Graphviz read {} graphs", maps.len(), graphs.len()));
    }
    for ((map, (_, blocks)), graph) in maps.iter().zip(texts).zip(&graphs) {
        let right = Graph::of(blocks);
        if !graph.same(&right) {
            let shown = String::from_utf8_lossy(&map[..map.len().min(2000)]);
            report.wrong.push(format!("{shown}  Graphviz has {graph:?}\n  expected {right:?}"));
        }
        report.maps += 1;
        report.bytes += map.len() as u64;
        report.nodes += graph.nodes.len() as u64;
        report.edges += graph.edges.len() as u64;
        report.own_names += u64::from(right.has_own_names());
    }
    Ok(true)
}

/// Functions that every run has, then so many of a seed: every other one with labels as the point, one in eight of
/// the rest of clang.
fn texts(seed: u64, count: usize) -> impl Iterator<Item = (Vec<u8>, Vec<Block>)> {
    let (mut stream, mut rng) = (Texts::new(seed), Rng::new(seed ^ 0x5bd1_e995));
    let fixed = [jumps::every_byte(), jumps::every_escape()];
    let fixed = fixed.into_iter().chain(cover::texts()).chain(clang::functions());
    let drawn = (0u64..).map(move |i| match i % 16 {
        15 => stream.real().1,
        odd if odd % 2 == 1 => stream.draw().1,
        _ => jumps::function(&mut rng),
    });
    let blocks = |text: Vec<u8>| of_text(&text).map(|blocks| (text, blocks));
    fixed.filter_map(blocks).chain(drawn.filter_map(blocks).take(count))
}

fn compare(port: &'static dyn Port, program: &str, seed: u64, count: usize) -> Result<bool, String> {
    let mut report = Report::default();
    let mut texts = texts(seed, count).peekable();
    while texts.peek().is_some() && report.wrong.len() < SHOWN {
        let some: Vec<_> = texts.by_ref().take(BATCH).collect();
        if !batch(port, program, &mut report, &some)? {
            files::print(&format!("{program} is not installed: maps are not read by Graphviz\n"))?;
            return Ok(true);
        }
    }
    files::print(&report.show())?;
    Ok(report.wrong.is_empty())
}

fn start(args: &[&str]) -> Result<bool, String> {
    let number = |a: &str| a.parse::<u64>().map_err(|_| format!("`{a}` is no number"));
    let (port, args): (&'static dyn Port, _) = match args {
        ["--model", rest @ ..] => (&Model, rest),
        _ => (library()?, args),
    };
    let [seed, count] = args else { return Err(USAGE.to_string()) };
    let (seed, count) = (number(seed)?, number(count)? as usize);
    let program = std::env::var("DOT").unwrap_or_else(|_| "dot".to_string());
    on_big_stack(move || compare(port, &program, seed, count))
}

fn main() -> ExitCode {
    let args: Vec<String> = std::env::args().skip(1).collect();
    let args: Vec<&str> = args.iter().map(String::as_str).collect();
    files::finish(start(&args))
}
