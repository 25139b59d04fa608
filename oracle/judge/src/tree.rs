//! The canonical form of the Rust's tree.

use crate::form::{header, Form, Token};
use uvclang::ast::*;

/// The words of a function as 01 lays them out, names by their bytes.
pub fn canonical_from_tree(function: &Function) -> Form {
    let mut form = Form::default();
    let varargs = if function.varargs { 128 } else { 0 };
    let detail = linkage(&function.linkage) | varargs;
    node(&mut form, 60, detail, 1 + function.params.len(), |form| {
        form.name(bytes(&function.name));
        ty(form, &function.ret_ty);
        for p in &function.params {
            param(form, p);
        }
    });
    for b in &function.blocks {
        block(&mut form, b);
    }
    form
}

/// A node whose payload and children `inner` writes.
fn node(form: &mut Form, kind: u64, detail: u64, children: usize, inner: impl FnOnce(&mut Form)) {
    let at = form.0.len();
    form.word(0);
    inner(form);
    form.0[at] = Token::Word(header(kind, detail, children, form.0.len() - at));
}

fn leaf(form: &mut Form, kind: u64) {
    node(form, kind, 0, 0, |_| {});
}

/// The Rust holds an escaped byte as the character of that number.
fn bytes(name: &str) -> Vec<u8> {
    name.chars().map(|c| c as u32 as u8).collect()
}

/// A name that is a child of its own.
fn name(form: &mut Form, name: &str) {
    node(form, 63, 0, 0, |form| form.name(bytes(name)));
}

fn param(form: &mut Form, param: &Param) {
    node(form, 62, u64::from(param.name.is_some()), 1, |form| {
        optional(form, param.name.as_deref());
        ty(form, &param.ty);
    });
}

/// A name or, when absent, zero.
fn optional(form: &mut Form, name: Option<&str>) {
    match name {
        Some(name) => form.name(bytes(name)),
        None => form.word(0),
    }
}

fn block(form: &mut Form, block: &BasicBlock) {
    node(form, 61, 0, block.insts.len() + 1, |form| {
        form.name(bytes(&block.label));
        for i in &block.insts {
            inst(form, i);
        }
        terminator(form, &block.term);
    });
}

fn linkage(linkage: &Linkage) -> u64 {
    match linkage {
        Linkage::Private => 0,
        Linkage::Internal => 1,
        Linkage::AvailExternally => 2,
        Linkage::Linkonce => 3,
        Linkage::Weak => 4,
        Linkage::Common => 5,
        Linkage::Appending => 6,
        Linkage::ExternWeak => 7,
        Linkage::LinkonceOdr => 8,
        Linkage::WeakOdr => 9,
        Linkage::External => 10,
    }
}

fn ty(form: &mut Form, t: &Type) {
    match t {
        Type::Void => leaf(form, 1),
        Type::Int(width) => node(form, 2, 0, 0, |form| form.word(u64::from(*width))),
        Type::Float => leaf(form, 3),
        Type::Double => leaf(form, 4),
        Type::Ptr => leaf(form, 5),
        Type::Array { packed, len, elem } => node(form, 6, u64::from(*packed), 1, |form| {
            form.word(*len);
            ty(form, elem);
        }),
        Type::NamedStruct(name) => node(form, 7, 0, 0, |form| form.name(bytes(name))),
        Type::Struct(body) => {
            node(form, 8, u64::from(body.packed), body.fields.len(), |form| {
                body.fields.iter().for_each(|f| ty(form, f));
            });
        }
        Type::Label => leaf(form, 9),
        Type::Metadata => leaf(form, 10),
        Type::Func(f) => func_type(form, f),
    }
}

fn func_type(form: &mut Form, f: &FuncType) {
    node(form, 11, u64::from(f.varargs), 1 + f.params.len(), |form| {
        ty(form, &f.ret);
        f.params.iter().for_each(|p| ty(form, p));
    });
}

fn typed(form: &mut Form, tv: &TypedVal) {
    ty(form, &tv.ty);
    value(form, &tv.val);
}

fn all_typed(form: &mut Form, list: &[TypedVal]) {
    list.iter().for_each(|tv| typed(form, tv));
}

fn value(form: &mut Form, v: &Value) {
    match v {
        Value::Local(name) => node(form, 16, 0, 0, |form| form.name(bytes(name))),
        Value::Global(name) => node(form, 17, 0, 0, |form| form.name(bytes(name))),
        Value::Int(n) => node(form, 18, 0, 0, |form| form.int(*n)),
        Value::Float(x) => node(form, 19, 0, 0, |form| form.float(x.to_bits())),
        Value::Null => leaf(form, 20),
        Value::Undef => leaf(form, 21),
        Value::Poison => leaf(form, 22),
        Value::ZeroInit => leaf(form, 23),
        Value::CStr(bytes) => node(form, 24, 0, 0, |form| form.name(bytes.clone())),
        Value::Array(list) => node(form, 25, 0, 2 * list.len(), |form| all_typed(form, list)),
        Value::Struct(list) => node(form, 26, 0, 2 * list.len(), |form| all_typed(form, list)),
        Value::ConstExpr(e) => const_expr(form, e),
    }
}

fn const_expr(form: &mut Form, e: &ConstExpr) {
    match e {
        ConstExpr::GetElementPtr { inbounds, base_ty, base, indices } => {
            node(form, 27, u64::from(*inbounds), 3 + 2 * indices.len(), |form| {
                ty(form, base_ty);
                typed(form, base);
                all_typed(form, indices);
            });
        }
        ConstExpr::Conv { op, val, to } => node(form, 28, *op as u64, 3, |form| {
            typed(form, val);
            ty(form, to);
        }),
        ConstExpr::Bin { op, lhs, rhs } => node(form, 29, *op as u64, 4, |form| {
            typed(form, lhs);
            typed(form, rhs);
        }),
    }
}

fn inst(form: &mut Form, i: &Inst) {
    let (kind, detail, children) = shape(&i.kind);
    node(form, kind, detail, children, |form| {
        optional(form, i.dest.as_deref());
        operands(form, &i.kind);
    });
}

/// Kind, detail and number of direct children of an instruction.
fn shape(kind: &InstKind) -> (u64, u64, usize) {
    use InstKind::*;
    match kind {
        Bin { op, .. } => (32, *op as u64, 3),
        FBin { op, .. } => (33, *op as u64, 3),
        FNeg { .. } => (34, 0, 2),
        Conv { op, .. } => (35, *op as u64, 3),
        ICmp { pred, .. } => (36, *pred as u64, 3),
        FCmp { pred, .. } => (37, *pred as u64, 3),
        Select { .. } => (38, 0, 4),
        Load { align, .. } => (39, u64::from(align.is_some()), 2),
        Store { align, .. } => (40, u64::from(align.is_some()), 3),
        Alloca { count, align, .. } => {
            let detail = u64::from(count.is_some()) | u64::from(align.is_some()) << 1;
            (41, detail, if count.is_some() { 3 } else { 1 })
        }
        GetElementPtr { inbounds, indices, .. } => (42, u64::from(*inbounds), 2 + 2 * indices.len()),
        Phi { incoming, .. } => (43, 0, 1 + 2 * incoming.len()),
        Call { fn_ty, args, .. } => {
            let typed = usize::from(fn_ty.is_some());
            (44, typed as u64, 2 + typed + 2 * args.len())
        }
        Freeze { .. } => (45, 0, 2),
        AtomicLoad { .. } => (46, 0, 2),
        AtomicStore { .. } => (47, 0, 3),
        AtomicRmw { op, .. } => (48, *op as u64, 3),
        Cmpxchg { .. } => (49, 0, 4),
        ExtractValue { .. } => (50, 0, 1),
        Fence => (51, 0, 0),
    }
}

/// The payload behind the destination, and the children.
fn operands(form: &mut Form, kind: &InstKind) {
    use InstKind::*;
    match kind {
        Bin { ty: t, lhs, rhs, .. }
        | FBin { ty: t, lhs, rhs, .. }
        | ICmp { ty: t, lhs, rhs, .. }
        | FCmp { ty: t, lhs, rhs, .. } => {
            ty(form, t);
            value(form, lhs);
            value(form, rhs);
        }
        FNeg { ty: t, val } | Freeze { ty: t, val } => {
            ty(form, t);
            value(form, val);
        }
        Conv { from_ty, val, to_ty, .. } => {
            ty(form, from_ty);
            value(form, val);
            ty(form, to_ty);
        }
        Select { cond, ty: t, tval, fval } => {
            value(form, cond);
            ty(form, t);
            value(form, tval);
            value(form, fval);
        }
        Load { ty: t, ptr, align } => {
            number(form, *align);
            ty(form, t);
            value(form, ptr);
        }
        Store { ty: t, val, ptr, align } => {
            number(form, *align);
            ty(form, t);
            value(form, val);
            value(form, ptr);
        }
        Alloca { ty: t, count, align } => {
            number(form, *align);
            ty(form, t);
            if let Some(tv) = count {
                typed(form, tv);
            }
        }
        GetElementPtr { base_ty, ptr, indices, .. } => {
            ty(form, base_ty);
            value(form, ptr);
            all_typed(form, indices);
        }
        Phi { ty: t, incoming } => {
            ty(form, t);
            for (val, label) in incoming {
                value(form, val);
                name(form, label);
            }
        }
        Call { ret_ty, fn_ty, callee, args } => {
            ty(form, ret_ty);
            if let Some(f) = fn_ty {
                func_type(form, f);
            }
            value(form, callee);
            all_typed(form, args);
        }
        AtomicLoad { ty: t, ptr } => {
            ty(form, t);
            value(form, ptr);
        }
        AtomicStore { ty: t, val, ptr } => {
            ty(form, t);
            value(form, val);
            value(form, ptr);
        }
        AtomicRmw { ty: t, ptr, val, .. } => {
            ty(form, t);
            value(form, ptr);
            value(form, val);
        }
        Cmpxchg { ty: t, ptr, cmp, new } => {
            ty(form, t);
            value(form, ptr);
            value(form, cmp);
            value(form, new);
        }
        ExtractValue { agg, index } => {
            form.word(u64::from(*index));
            value(form, agg);
        }
        Fence => {}
    }
}

/// An absent optional number takes no word.
fn number(form: &mut Form, n: Option<u64>) {
    if let Some(n) = n {
        form.word(n);
    }
}

fn terminator(form: &mut Form, t: &Terminator) {
    match t {
        Terminator::Ret { val: None } => leaf(form, 52),
        Terminator::Ret { val: Some(tv) } => node(form, 52, 1, 2, |form| typed(form, tv)),
        Terminator::Br { cond, if_true, if_false } => {
            let detail = u64::from(cond.is_some()) | u64::from(if_false.is_some()) << 1;
            let children = 1 + usize::from(cond.is_some()) + usize::from(if_false.is_some());
            node(form, 53, detail, children, |form| {
                cond.iter().for_each(|v| value(form, v));
                name(form, if_true);
                if_false.iter().for_each(|l| name(form, l));
            });
        }
        Terminator::Switch { ty: t, val, default, cases } => {
            node(form, 54, 0, 3 + cases.len(), |form| {
                cases.iter().for_each(|(n, _)| form.int(*n));
                ty(form, t);
                value(form, val);
                name(form, default);
                cases.iter().for_each(|(_, l)| name(form, l));
            });
        }
        Terminator::Unreachable => leaf(form, 55),
    }
}
