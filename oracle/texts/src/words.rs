//! The words of the language that the reader knows, and some that it does not.

pub const LINKAGES: &[&str] = &[
    "private", "internal", "available_externally", "linkonce", "weak", "common", "appending", "extern_weak",
    "linkonce_odr", "weak_odr", "external",
];

/// Attributes without an argument, the linkage words among them.
pub const FLAG_ATTRS: &[&str] = &[
    "private", "internal", "available_externally", "linkonce", "linkonce_odr", "weak", "weak_odr",
    "appending", "common", "extern_weak", "external", "hidden", "protected", "default", "dso_local",
    "dso_preemptable", "unnamed_addr", "local_unnamed_addr", "comdat", "noundef", "nonnull", "signext",
    "zeroext", "inreg", "noalias", "nocapture", "readonly", "readnone", "writeonly", "immarg", "returned",
    "nest", "writable", "dead_on_unwind", "dead_on_return", "nounwind", "nofree", "mustprogress",
    "willreturn", "norecurse", "nosync", "nocallback", "uwtable", "noreturn", "noinline", "alwaysinline",
    "inlinehint", "optsize", "optnone", "minsize", "cold", "hot", "convergent", "speculatable", "nobuiltin",
    "noimplicitfloat", "noredzone", "strictfp", "ssp", "sspstrong", "sspreq", "sanitize_address",
    "sanitize_memory", "sanitize_thread",
];

/// Attributes with parentheses; `dead_on_return` is in both lists.
pub const PAREN_ATTRS: &[&str] = &[
    "captures", "memory", "range", "dereferenceable", "dereferenceable_or_null", "byval", "byref", "sret",
    "inalloca", "preallocated", "elementtype", "alignstack", "allocsize", "allockind", "vscale_range",
    "nofpclass", "addrspace", "initializes", "dead_on_return",
];

pub const CCONVS: &[&str] = &[
    "ccc", "fastcc", "coldcc", "tailcc", "swiftcc", "swifttailcc", "anyregcc", "preserve_mostcc",
    "preserve_allcc", "cxx_fast_tlscc",
];

pub const BIN_OPS: &[&str] =
    &["add", "sub", "mul", "udiv", "sdiv", "urem", "srem", "and", "or", "xor", "shl", "lshr", "ashr"];

pub const FBIN_OPS: &[&str] = &["fadd", "fsub", "fmul", "fdiv", "frem"];

/// Conversions; the first six are constant expressions too.
pub const CONV_OPS: &[&str] = &[
    "trunc", "zext", "sext", "ptrtoint", "inttoptr", "bitcast", "sitofp", "uitofp", "fptosi", "fptoui",
    "fpext", "fptrunc",
];

pub const ICMP_PREDS: &[&str] = &["eq", "ne", "ugt", "uge", "ult", "ule", "sgt", "sge", "slt", "sle"];

pub const FCMP_PREDS: &[&str] = &[
    "false", "oeq", "ogt", "oge", "olt", "ole", "one", "ord", "ueq", "ugt", "uge", "ult", "ule", "une",
    "uno", "true",
];

pub const RMW_OPS: &[&str] = &["xchg", "add", "sub", "and", "or", "xor", "nand"];

/// Words in an operation's place that are none: the manual's others, and some of other places.
pub const NO_RMW_OPS: &[&str] = &[
    "max", "min", "umax", "umin", "fadd", "fsub", "fmax", "fmin", "fmaximum", "uinc_wrap", "udec_wrap",
    "usub_cond", "usub_sat", "mul", "addx", "nan", "volatile", "volatilex", "ptr",
];

pub const ARITH_FLAGS: &[&str] = &["nuw", "nsw", "exact", "disjoint"];
pub const FAST_FLAGS: &[&str] = &["fast", "nnan", "ninf", "nsz", "arcp", "contract", "afn", "reassoc"];
pub const CONV_FLAGS: &[&str] = &["nneg", "nuw", "nsw"];
pub const ORDERINGS: &[&str] = &["seq_cst", "acq_rel", "acquire", "release", "monotonic", "unordered"];

/// Names behind a sigil: bare, numbered, keywords, quoted, with escapes.
pub const NAMES: &[&str] = &[
    "0", "1", "12", "a", "x", "entry", "if.then", "for.body", "call", "struct.foo", "struct.t", "tmp.0_1",
    "a-b", "$x", "-1", ".x", "_", "i32", "void", "label", "align", "ret", "addrspace", "addrspace2", "1a",
    "\"q\"", "\"a b\"", "\"ret\"", "\"\\72et\"", "\"\\00\"", "\"\\ff\"", "\"x\\0ay\"", "\"\\\\\"", "\"a;b\"",
    "\"}\"", "\"new\nline\"", "\"0\"", "\"%\"",
];

/// Names that refuse or end early.
pub const BAD_NAMES: &[&str] =
    &["", "\"\"", "\"\\g\"", "\"\\4g\"", "\"open", "\"\\", "\"\\4", " x", "\"a\0b\"", "é"];

/// Labels in front of `:`.
pub const LABELS: &[&str] = &[
    "0", "1", "7", "a", "b", "entry", "if.then", "for.body", "ret", "call", "addrspace", "addrspacex",
    "void", "\"q\"", "\"a b\"", "\"0\"", "\"\\72et\"", "store.x", "-", "$", "br",
];

pub const GLUE: &[&str] = &[
    "(", ")", "[", "]", "{", "}", "<", ">", "<{", "}>", ",", "*", "=", ":", "!", "%", "@", "#", "\"", "c\"",
    "\\", "...", "x", "to", "label", "-", "+", ".", ";", "\n", " ", "\t", "\r", "\x0b", "\x0c", "\0",
    "\u{7f}", "_", "0", "9", "e", "E", "f0x", "0x", "0X", "inf", "+inf", "+qnan", "-inf",
];

/// Every keyword once, to put where another stood.
pub const KEYWORDS: &[&str] = &[
    "void", "float", "double", "ptr", "label", "metadata", "i1", "i8", "i32", "i64", "half", "true", "false",
    "null", "undef", "poison", "zeroinitializer", "getelementptr", "inbounds", "nuw", "nusw", "inrange",
    "to", "x", "ret", "br", "switch", "unreachable", "store", "fence", "call", "tail", "musttail", "notail",
    "fneg", "icmp", "fcmp", "select", "load", "phi", "alloca", "freeze", "cmpxchg", "atomicrmw", "xchg",
    "nand", "extractvalue", "atomic", "volatile", "weak", "samesign", "syncscope", "align", "addrspace",
    "inalloca", "cc", "c\"\"", "c\"a\\00b\"", "invoke", "insertvalue", "none", "token", "dead_on_return",
    "...",
];

/// White space and comments, tame to odd.
pub const SPACES: &[&str] = &[
    " ", " ", " ", "  ", "\n", "\n  ", "\t", "\r\n", "\x0c", ";\n", "; c } %x \"\n", " \x0c;\n;;\n ",
    "\t \r\n", ";(\n",
];
