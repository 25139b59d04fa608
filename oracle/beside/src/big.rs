//! Long texts: question 19 in each kind of node, many parameters, many blocks, the longest text.

use texts::numbers::{behind_all, moved, named};

/// At the limit of children and one beyond, in each kind of node.
pub fn children() -> Vec<Vec<u8>> {
    let list = |n: usize, item: &str| vec![item; n].join(",");
    let body = |s: String| format!("void @f(){{{s}}}");
    let mut out = vec![];
    for more in 0..3 {
        let n = 65_533 + more;
        let half = n / 2;
        out.push(body("fence ".repeat(n) + "ret void ; c\n"));
        out.push(body("fence ".repeat(n + 1)));
        out.push(body("fence ".repeat(n + 1) + "x"));
        out.push(body(format!("%x=alloca {{{}}}", list(n + 1, "i8"))));
        out.push(body(format!("%x=alloca {{{},i8   (i1) 1}}", list(n, "i8"))));
        out.push(format!("void @f({}){{}}", list(n, "i8  noundef ")));
        out.push(format!("void @f({}){{}}", list(n, "i8 %x ")));
        out.push(format!("void ({})* @f(){{}}", list(n, "i8  noundef ")));
        out.push(body(format!("call void ({}) @g() ret void", list(n, "i8"))));
        out.push(body(format!("ret i8 [{}]", list(half + more, "i8  1 "))));
        out.push(body(format!("ret i8 <{{{}}}>", list(half + more, "i8  1 "))));
        out.push(body(format!("ret i8 getelementptr(i8,{})", list(half - 1 + more, "ptr  @g "))));
        out.push(body(format!("%x=getelementptr i8,ptr @g,{} ret void", list(half - 1 + more, "i8  1 "))));
        out.push(body(format!("call void @g({}) ret void", list(half - 1 + more, "i8  noundef 1 "))));
        out.push(body(format!("call void() @g({}) ret void", list(half - 1 + more, "i8  noundef 1 "))));
        out.push(body(format!("%x=phi i8{} ret void", list(half + more, "[1 , %a ] "))));
        out.push(body(format!("switch i8 1,label %a[{}]", "i8 1,label %b ".repeat(n - 2))));
    }
    out.into_iter().map(String::into_bytes).collect()
}

/// At question 1's limit and one beyond, with question 2 behind it or not.
pub fn longest() -> Vec<Vec<u8>> {
    const LIMIT: usize = 16_777_216;
    let spaced = |length: usize, function: &str| {
        let mut text = vec![b' '; length - function.len()];
        text.extend_from_slice(function.as_bytes());
        text
    };
    let mut out =
        vec![spaced(LIMIT, "void @f(){}"), spaced(LIMIT + 1, "void @f(){}"), spaced(LIMIT, "void @f(){}\0x")];
    out.push(spaced(LIMIT, "void @f(){"));
    for place in [0, LIMIT - 1, LIMIT] {
        let mut text = spaced(LIMIT + 1, "void @f(){}");
        text[place] = 0x80;
        out.push(text.clone());
        text.truncate(LIMIT);
        out.push(text);
    }
    out
}

/// A function of so many parameters.
pub fn parameters(n: usize) -> Vec<u8> {
    let list: Vec<String> = (0..n).map(|i| format!("i32 noundef %a{i}")).collect();
    format!(" i32 @f({}) {{\n  ret i32 %a0\n}}\n", list.join(", ")).into_bytes()
}

/// The blocks of real functions one after the other, about so many bytes; their numbers go on (M-106).
pub fn blocks(functions: &[Vec<u8>], bytes: usize) -> Vec<u8> {
    let mut next = 1;
    joined(functions, bytes, |i, body| {
        let own = moved(body, 0, next);
        next += behind_all(body);
        [format!("l{i}:\n").as_bytes(), &own].concat()
    })
}

/// The same with names in place of the numbers; the first block of each has no label and takes a number
/// by itself. So whoever takes one more in front moves the counter at every piece, and no text but that.
pub fn unlabelled(functions: &[Vec<u8>], bytes: usize) -> Vec<u8> {
    joined(functions, bytes, |_, body| named(body))
}

fn joined(functions: &[Vec<u8>], bytes: usize, mut written: impl FnMut(usize, &[u8]) -> Vec<u8>) -> Vec<u8> {
    let mut out = b" dso_local i32 @f(i32 noundef %0) #0 {\n".to_vec();
    let bodies: Vec<&[u8]> = functions.iter().filter_map(|f| body(f)).collect();
    for (i, body) in bodies.iter().cycle().enumerate() {
        if out.len() >= bytes {
            break;
        }
        out.extend_from_slice(&written(i, body));
    }
    out.extend_from_slice(b"}\n");
    out
}

/// What stands between the first line and the closing brace of an accepted function.
fn body(function: &[u8]) -> Option<&[u8]> {
    model::full::records(function).ok()?;
    let start = function.windows(2).position(|w| w == b"{\n")? + 2;
    Some(&function[start..function.len() - 1])
}
