//! Keywords, each list in the order that gives its ranks.

pub const LINKAGES: &[&str] = &[
    "private", "internal", "available_externally", "linkonce", "weak", "common", "appending", "extern_weak",
    "linkonce_odr", "weak_odr", "external",
];

pub const FLAG_ATTRS: &[&str] = &[
    "private", "internal", "available_externally", "linkonce", "linkonce_odr", "weak", "weak_odr",
    "appending", "common", "extern_weak", "external", "hidden", "protected", "default", "dso_local",
    "dso_preemptable", "unnamed_addr", "local_unnamed_addr", "comdat", "noundef", "nonnull", "signext",
    "zeroext", "inreg", "noalias", "nocapture", "readonly", "readnone", "writeonly", "immarg", "returned",
    "nest", "writable", "dead_on_unwind", "dead_on_return", "nounwind", "nofree", "mustprogress",
    "willreturn", "norecurse", "nosync", "nocallback", "uwtable", "noreturn", "noinline", "alwaysinline",
    "inlinehint", "optsize", "optnone", "minsize", "cold", "hot", "convergent", "speculatable", "nobuiltin",
    "noimplicitfloat", "noredzone", "strictfp", "ssp", "sspstrong", "sspreq", "sanitize_address",
    "sanitize_memory", "sanitize_thread",
];

/// `dead_on_return` stands in both lists.
pub const PAREN_ATTRS: &[&str] = &[
    "captures", "memory", "range", "dereferenceable", "dereferenceable_or_null", "byval", "byref", "sret",
    "inalloca", "preallocated", "elementtype", "alignstack", "allocsize", "allockind", "vscale_range",
    "nofpclass", "addrspace", "initializes", "dead_on_return",
];

pub const CCONVS: &[&str] = &[
    "ccc", "fastcc", "coldcc", "tailcc", "swiftcc", "swifttailcc", "anyregcc", "preserve_mostcc",
    "preserve_allcc", "cxx_fast_tlscc",
];

pub const BIN_OPS: &[&str] =
    &["add", "sub", "mul", "udiv", "sdiv", "urem", "srem", "and", "or", "xor", "shl", "lshr", "ashr"];

pub const FBIN_OPS: &[&str] = &["fadd", "fsub", "fmul", "fdiv", "frem"];

/// The first six are constant expressions too.
pub const CONV_OPS: &[&str] = &[
    "trunc", "zext", "sext", "ptrtoint", "inttoptr", "bitcast", "sitofp", "uitofp", "fptosi", "fptoui",
    "fpext", "fptrunc",
];

pub const CONST_CONV_OPS: usize = 6;

pub const ICMP_PREDS: &[&str] = &["eq", "ne", "ugt", "uge", "ult", "ule", "sgt", "sge", "slt", "sle"];

pub const FCMP_PREDS: &[&str] = &[
    "false", "oeq", "ogt", "oge", "olt", "ole", "one", "ord", "ueq", "ugt", "uge", "ult", "ule", "une",
    "uno", "true",
];

/// `RmwOp` in ast.rs order.
pub const RMW_OPS: &[&str] = &["xchg", "add", "sub", "and", "or", "xor", "nand"];

pub const ARITH_FLAGS: &[&str] = &["nuw", "nsw", "exact", "disjoint"];
pub const FAST_FLAGS: &[&str] = &["fast", "nnan", "ninf", "nsz", "arcp", "contract", "afn", "reassoc"];
pub const CONV_FLAGS: &[&str] = &["nneg", "nuw", "nsw"];
pub const ORDERINGS: &[&str] = &["seq_cst", "acq_rel", "acquire", "release", "monotonic", "unordered"];
