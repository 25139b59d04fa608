//! A text for each form of the reader and for each way to refuse: the fixed part of the sample.

use crate::words::*;
use judge::domain::DEPTH;

/// Types, each by itself.
pub const TYPES: &[&str] = &[
    "void", "i1", "i8", "i16", "i32", "i64", "i128", "i8388608", "i3_2", "i032", "float", "double", "ptr",
    "ptr addrspace(1)", "ptr ; c\n addrspace ( (2) )", "ptr addrspace(1) *", "label", "metadata", "[0 x i8]",
    "[3 x [4 x i32]]", "[18446744073709551615 x i8]", "<4 x float>", "< 4 x i1 >", "<2 x <2 x ptr>>", "{}",
    "{ }", "{i8}", "{i8, {i16, [2 x ptr]}, float}", "<{}>", "<{i8, i32}>", "%t", "%struct.foo", "%\"a b\"",
    "%\"\\72et\"", "%12", "i8*", "i8**", "i8 * *", "%t*", "[2 x i8]*", "{i8*}*", "i8 addrspace(1)*",
    "i8 addrspace (1 (2)) *", "i8 addrspace(1)", "ptr addrspace(1) addrspace(2)*", "void ()*", "void (...)*",
    "i32 (i8, ptr, ...)*", "i32 (i8 noundef, ptr align 8)*", "void (void (i8)*)*", "i8 (i8)* (i8)*",
    "i8 ()**", "void.x", "i8 ; c\n ( ; c\n i8 ; c\n ) ; c\n *",
];

/// Types that refuse.
pub const NO_TYPES: &[&str] = &[
    "", "x", "half", "int", "i", "i_8", "void_", "ptr0", "[", "[x", "[1", "[1 i8]", "[1 x", "[1 x i8",
    "[1xi8]", "<", "< {i8}>", "<{i8}", "<{i8} x", "<1 x i8", "<vscale x 1 x i8>", "{i8", "{i8,", "{i8 i8}",
    "{,}", "%", "%\"\"", "%\"a", "%\"\\4g\"", "i8 (", "i8 (i8", "i8 (i8,", "i8 (i8,)*", "i8 (x)*", "i8 (...",
    "i8 (..., i8)*", "ptr addrspace", "ptr addrspace(", "i8 addrspace(1", "i8 addrspace x", "i8 ()",
    "i8 (i8)", "i8 addrspace(1) ()*",
];

/// Values, each by itself.
pub const VALUES: &[&str] = &[
    "%x", "%0", "%\"q\"", "%\"\\\\\\7d\"", "%a-b.$_9", "@g", "@\"g\"", "@.str", "0", "-0", "+5", "7",
    "1_000", "-128", "170141183460469231731687303715884105727", "-170141183460469231731687303715884105728",
    "18446744073709551616", "true", "false", "null", "undef", "poison", "zeroinitializer", "1.5", "-1.5",
    "1.", "-.5", "+.5e1", "1e5", "1E5", "1e+5", "1.3", "0.1", "1e22", "1e-22", "123456789012345e22",
    "123456789012345.e-22", "9007199254740993.", "900719925474099.3", "-0.0", "0.0",
    "0e99999999999999999999", "-0e5", "1_0.0_1e1_0", "000001.5000000", "100000000000000000000.", "4.35",
    "2.5e-3", "0x0", "0x3FF0000000000000", "0X3ff", "0x7FF0000000000000", "0x7FF8000000000001",
    "0xFFF0000000000001", "0x8000000000000000", "f0x3F800000", "f0x00000001", "f0x80000001", "f0x007fffff",
    "f0x00400000", "f0x00800000", "f0x7f7fffff", "f0x7f800000", "f0xff800000", "f0x7fc00000", "f0x7f800001",
    "f0x80000000", "f0x00000000", "f0x3ff0000000000000", "+inf", "-inf", "+qnan", "+infx:", "-0x10:",
    "c\"\"", "c\"abc\"", "c\"a\\00\\ff\"", "c\"\\\\\\\"\\g\"", "c\"\n;}\0\"", "[]", "[ ]", "[i8 1]",
    "[i8 1, i8 2]", "[i8 [i8 1], ptr @g]", "{}", "{i8 1, {i8} {i8 2}}", "<{}>", "<{i8 1, ptr null}>",
    "<{i8 1} >",
];

/// Values that refuse.
pub const NO_VALUES: &[&str] = &[
    "", "x", "nul", "nullx", "true_", "-", "+", "-.", "1e", "1.e", "1e-", "1.5e+", "-_1", "0x", "0xg",
    "0x11112222333344445", "0xK1", "f0x", "f0x3F80000", "f0x3F8000000", "F0x00000000",
    "170141183460469231731687303715884105728", "-170141183460469231731687303715884105729", "+-5", "c\"",
    "c\"a", "c\"\\", "c\"\\4", "c\"\\4g\"", "c\"\\\"", "c", "%", "%\"", "%\"\\", "%\"\\g\"", "%\"a\0\"", "@",
    "@\"\"", "[", "[i8", "[i8 1", "[i8 1,", "[i8 1,]", "[1]", "{i8 1", "{i8}", "<i8 1>", "< {}>", "<{i8 1}",
    "blockaddress(@f, %a)", "asm \"\"", "!0", "none", "token", "splat (i8 1)", "sitofp (i8 1 to float)",
    "icmp eq (i8 1, i8 2)", "fadd (float 1.0, float 1.0)",
];

/// Constant expressions with a part left out or wrong.
const NO_EXPRESSIONS: &[&str] = &[
    "getelementptr i8, ptr @g", "getelementptr (", "getelementptr (i8", "getelementptr (i8,",
    "getelementptr (i8, ptr", "getelementptr (i8, ptr @g", "getelementptr (i8 ptr @g)",
    "getelementptr inrange (i8, ptr @g)", "getelementptr (i8, ptr @g, i8)", "getelementptr inrange x",
    "trunc i8 1 to i8", "trunc (i8 1 i8)", "trunc (i8 1 to)", "trunc (i8 1 to i8", "trunc (i8 to i8)",
    "trunc nuw (i8 1 to i8)", "add i8 1, i8 2", "add (i8 1)", "add (i8 1,", "add (i8 1, i8 2",
    "add (i8 1 i8 2)", "add (1, 2)", "add fast (i8 1, i8 2)",
];

/// Statements of every form.
const STATEMENTS: &[&str] = &[
    "%x = fneg float %a", "%x = fneg double -1.5, !fpmath !0", "%x = icmp samesign eq i8 %a, 1",
    "%x = select i1 %c, i8 1, i8 2", "%x = select {i1} %c, {i8} {i8 1}, ptr null, !prof !{}",
    "%x = load i8, ptr %p", "%x = load i8, ptr %p, align 1",
    "%x = load volatile i8, i8* %p, align 4, align 8", "%x = load atomic i64, ptr %p seq_cst, align 8",
    "%x = load atomic volatile i64, ptr %p syncscope(\"x\") acquire", "%x = load atomic i64, ptr %p",
    "store i8 1, ptr %p", "store i8 1, ptr %p, align 0",
    "store volatile {i8} {i8 1}, {i8}* %p, align 1, !tbaa !5", "store atomic i8 1, ptr %p release, align 1",
    "store atomic volatile i8 1, ptr %p syncscope ( \"a\" ) unordered", "store atomic i8 1, ptr %p",
    "%x = alloca i8", "%x = alloca inalloca i8", "%x = alloca i8, align 4", "%x = alloca i8, i32 3",
    "%x = alloca i8, i32 %n, align 16", "%x = alloca i8, align 16, i32 %n", "%x = alloca i8, i32 1, i32 2",
    "%x = alloca i8, align 1, align 2", "%x = alloca i8, !x !0, align 3, !y",
    "%x = alloca [4 x i8], ptr null", "%x = getelementptr i8, ptr %p",
    "%x = getelementptr inbounds i8, ptr %p, i64 1",
    "%x = getelementptr inbounds nuw nusw i8, ptr %p, i64 1, i32 2, i8 %c",
    "%x = getelementptr nuw inrange(0, 1) {i8}, {i8}* @g, i64 0, !dbg !1, i32 0, !x",
    "%x = phi i8 [ 1, %a ]", "%x = phi ptr [ null, %a ], [ %p, %\"b c\" ], [ @g, %0 ]", "%x = freeze i8 %a",
    "%x = freeze i8 %a, !dbg !0", "call void @g()", "call i8 @g(i8 1, ptr null)", "%x = call i8 @g(i8 1)",
    "%x = call void @g()", "%x = tail call i8 %p(i8 1, ptr nonnull %q)", "tail call void @g()",
    "musttail call void @g()", "notail call void @g()", "%x = musttail call i8 @g()",
    "%x = notail call i8 @g()", "call void () @g()", "call void (...) %p()",
    "call i32 (ptr, ...) @printf(ptr @s, i32 1)", "call i32 (i8 signext, ptr align 4) @g(i8 1, ptr @s)",
    "call {i8, ptr} @g(...)", "call void @g(i8 1, ...)", "call void (i8)* @g(i8 1)",
    "call %t (%t, %t*) @g(%t zeroinitializer)", "call void null()",
    "call void inttoptr (i64 1 to ptr)(i8 1)", "call i8 addrspace(1) (i8) @g()",
    "call ptr addrspace(1) ()* @g()", "call void @g() #1, !srcloc !2, align 4",
    "call void @g(i8 [i8 1], {} {})", "call [2 x i8] ([2 x i8], ...) @g()",
    "%x = cmpxchg ptr %p, i8 1, i8 2 seq_cst seq_cst",
    "%x = cmpxchg weak volatile ptr %p, i8 1, ptr %q acq_rel monotonic, align 8",
    "%x = cmpxchg i8* %p, i8 1, i8 2",
    "%x = cmpxchg ptr %p, i8 1, i8 2 syncscope(\"s\") acquire syncscope(\"t\") unordered",
    "%x = extractvalue {i8, i1} %a, 0", "%x = extractvalue [2 x i8] zeroinitializer, 4294967295, !dbg !0",
    "fence", "fence seq_cst", "fence syncscope(\"singlethread\") release, !dbg !0", "a:", "a: b:",
    "\"a b\":", "0:", "ret:", "%x = \"add\" i8 1, 2", "%x = \"\\61dd\" i8 1, 2", "\"store\" i8 1, ptr %p",
    "\"\\66ence\"", "%x = \"load\" i8, ptr %p",
];

/// Terminators of every form.
const TERMINATORS: &[&str] = &[
    "ret void", "ret void, align 3, !dbg !1", "ret i8 1", "ret {i8, ptr} {i8 1, ptr null}, !x !{!1, {}}", "ret voidx:ret void",
    "br label %a", "br label %\"a b\", !llvm.loop !{}", "br i1 %c, label %a, label %b", "br i8 1, label %a, label %0, !prof !1",
    "switch i8 %a, label %d []", "switch i8 %a, label %d [ i8 1, label %a ]", "switch i8 3, label %\"d\" [i8 1, label %a i16 -2, label %\"b c\" i1 true, label %a], !x",
    "switch i128 %a, label %d [i128 -170141183460469231731687303715884105728, label %a i128 18446744073709551616, label %b]",
    "unreachable", "unreachable, !dbg !0", "\"ret\" void", "\"\\62r\" label %a", "\"switch\" i8 1, label %a []", "\"unreachable\"", "ret label %a",
    "ret i8 1 ; c\n ; d\n", "ret i8 %x, !x", "ret i8 %x, !\"q\" !\"r\"", "ret i8 %x, ! !", "ret i8 c\"a\"",
];

/// Statements and terminators with a part left out or wrong.
const NO_STATEMENTS: &[&str] = &[
    "%x", "%x =", "%x = }", "%x = foo", "%x = add.x i8 1, 2", "%x = store i8 1, ptr %p", "%x = \"\"",
    "%x = ret void", "foo", "add i8 1, 2", "load i8, ptr %p", "atomicrmw add ptr %p, i8 1 seq_cst", "?",
    "#dbg_value()", "\"\":", "\"a", "\"\\4g\":", ":", "@g", "%x = add i8", "%x = add i8 1", "%x = add i8 1,",
    "%x = add i8 1 2", "%x = add i8, 2", "%x = add fast i8 1, 2", "%x = add i8 1, 2,",
    "%x = add i8 1, 2, foo", "%x = add i8 1, 2, align", "%x = add i8 1, 2, align x",
    "%x = add i8 1, 2, alignx 3", "%x = add i8 1, 2, !x !{", "%x = add i8 1, 2, !\"x",
    "%x = fadd nsw float 1.0, 2.0", "%x = fneg", "%x = trunc i8 1 i4", "%x = trunc i8 1 to",
    "%x = trunc exact i8 1 to i4", "%x = trunc i8 1 toi4", "%x = icmp", "%x = icmp foo i8 1, 2",
    "%x = icmp oeq i8 1, 2", "%x = icmp eqi8 1, 2", "%x = icmp eq samesign i8 1, 2", "%x = fcmp",
    "%x = fcmp eq float 1.0, 2.0", "%x = fcmp nsw oeq float 1.0, 2.0", "%x = select i1 1",
    "%x = select i1 1, i8 1", "%x = select i1 1, i8 1, 2", "%x = load", "%x = load i8",
    "%x = load i8 ptr %p", "%x = load i8, %p", "%x = load volatile atomic i8, ptr %p",
    "%x = load atomic i8, ptr %p syncscope seq_cst", "%x = load atomic i8, ptr %p syncscope(\"",
    "%x = load atomic i8, ptr %p seq_cst acquire", "store i8, ptr %p", "store i8 1 ptr %p", "store i8 1, %p",
    "%x = alloca", "%x = alloca i8,", "%x = alloca i8, align", "%x = alloca i8, addrspace(5)",
    "%x = alloca i8, i32", "%x = getelementptr", "%x = getelementptr i8", "%x = getelementptr i8, ptr %p,",
    "%x = getelementptr i8, ptr %p, 1", "%x = phi i8", "%x = phi i8 [", "%x = phi i8 [1",
    "%x = phi i8 [1 %a]", "%x = phi i8 [1, a]", "%x = phi i8 [1, %a", "%x = phi i8 [1, %a],",
    "%x = phi i8 [1, %a], !dbg !0", "%x = freeze i8", "%x = freeze 1", "call", "call void", "call void @g",
    "call void @g(", "call void @g(i8", "call void @g(i8)", "call void @g(i8 1", "call void @g(i8 1,",
    "call void @g(i8 1,)", "call void @g(1)", "call void @g(metadata !0)", "call void g()",
    "call void (i8 @g()", "call void (x) @g()", "call void @g()()", "call void @g(), foo",
    "call void @g() [\"x\"()]", "tail void @g()", "%x = tail i8 @g()", "call fast float @g()",
    "call cc void @g()", "call cc10 void @g()", "%x = cmpxchg ptr %p", "%x = cmpxchg ptr %p, i8 1",
    "%x = cmpxchg ptr %p, i8 1, 2", "%x = cmpxchg volatile weak ptr %p, i8 1, i8 2",
    "%x = extractvalue i8 1", "%x = extractvalue i8 1,", "%x = extractvalue i8 1, x",
    "%x = extractvalue i8 1, 0, 1", "fence foo", "fence syncscope", "%x = insertvalue {i8} undef, i8 1, 0",
    "invoke void @g()", "%", "%\"\" = add i8 1, 2", "%x : ", "ret", "ret ?", "ret i8", "ret i8 ,",
    "ret void ()* @g", "ret 1", "ret i8 1, x", "br", "br label", "br label a", "br i1", "br i1 1",
    "br i1 1,", "br i1 1, %a", "br i1 1, label a", "br i1 1, label %a", "br i1 1, label %a,",
    "br i1 1, label %a, %b", "switch", "switch i8 1", "switch i8 1, %d", "switch i8 1, label %d",
    "switch i8 1, label %d [", "switch i8 1, label %d [i8 1", "switch i8 1, label %d [i8 1, %a]",
    "switch i8 1, label %d [i8 1, label a]", "switch i8 1, label %d [i8 %x, label %a]",
    "switch i8 1, label %d [i8 null, label %a]", "switch i8 1, label %d [i8 1.5, label %a]",
    "switch i8 1, label %d [1, label %a]", "unreachable, x", "unreachable !dbg !0",
];

/// What may stand behind `atomicrmw` (M-100).
const RMW: &[&str] = &[
    "add ptr %p, i32 1", "add ptr %p, i32 1 seq_cst", "add ptr %p, i32 1 seq_cst, align 4",
    "volatile xchg ptr %p, i32 1 seq_cst", "volatile;c\n and i8* %p, i8 -1", "volatile\"or\"ptr %p,i8 1",
    "\"add\" ptr %p, i32 1", "\"\\61dd\" ptr %p, i32 1", ";c\n nand ptr @g, i1 true",
    "xor i32* %p, i32 1 acq_rel", "sub ptr addrspace(1) %p, i32 %v", "add i8 (i8)* %p, i32 1",
    "add i8 addrspace(1)* %p, i32 1", "xchg ptr %p, ptr null seq_cst", "xchg ptr %p, float 1.5",
    "add ptr %p, float 1.0 monotonic", "add {i8} {i8 1}, [2 x i8] [i8 1, i8 2]",
    "and%t%p,%t zeroinitializer", "add ptr %p, i32 1 syncscope(\"x\")",
    "add ptr %p, i32 1 syncscope ( \"x\" ) release, align 8, !dbg !0, align 2", "add ptr %p, i32 1, align 4",
    "add ptr %p, i32 1, !x", "add ptr getelementptr (i8, ptr @g), i32 1",
];

/// What may not: no operation, another word, a part left out or in another place.
const NO_RMW: &[&str] = &[
    "", ",", ", ptr %p, i32 1", "?", "\"\" ptr %p, i32 1", "\"add", "\"\\4g\"", "\"max\" ptr %p, i32 1",
    "add.x ptr %p, i32 1", "addptr %p, i32 1", "Add ptr %p, i32 1", "add- ptr %p, i32 1", "volatile",
    "volatile volatile add ptr %p, i32 1", "volatile.x add ptr %p, i32 1", "volatile_ add ptr %p, i32 1",
    "\"volatile\" add ptr %p, i32 1", "volatileadd ptr %p, i32 1", "volatile , ptr %p, i32 1",
    "volatile\"\" ptr %p, i32 1", "add volatile ptr %p, i32 1", "seq_cst add ptr %p, i32 1", "ptr %p, i32 1",
    "add", "add nuw ptr %p, i32 1", "add ptr", "add ptr, i32 1", "add %p, i32 1", "add i8 (i8) %p, i32 1",
    "add ptr %p", "add ptr %p i32 1", "add ptr %p,", "add ptr %p, 1", "add ptr %p, i32",
    "add ptr %p, i32 1, i32 2", "add ptr %p, i32 1,", "add ptr %p, i32 1, align",
    "add ptr %p, i32 1, align 18446744073709551616", "add ptr %p, i32 1 seq_cst syncscope(\"x\")",
    "add ptr %p, i32 1 syncscope seq_cst", "add ptr %p, i32 1 syncscope(\"x\"",
    "add ptr %p, i32 1 seq_cst acquire", "add ptr %p, i0 1",
];

/// `atomicrmw` as a word: without a `=`, in quotes, with more behind it, at the end.
const RMW_WORDS: &[&str] = &[
    "void @f(){atomicrmw add ptr %p, i32 1}", "void @f(){\"atomicrmw\" add ptr %p, i32 1}",
    "void @f(){%x = \"atomicrmw\" add ptr %p, i32 1 ret void}",
    "void @f(){%x = \"\\61tomicrmw\" add ptr %p, i32 1 ret void}", "void @f(){%x = \"\\61tomicrmw\" }",
    "void @f(){%x=\"atomicrmw\"\"add\"ptr %p,i32 1 ret void}", "void @f(){%x = atomicrmw.x}",
    "void @f(){%x = atomicrmwadd ptr %p, i32 1}", "void @f(){%x = atomicrmw", "void @f(){%x = atomicrmw ;c",
    "void @f(){ret void %x = atomicrmw max ptr %p, i32 1}",
    "void @f(){%x = atomicrmw add ptr %p, i32 1 a: ret void}",
    "void @f(ptr dead_on_return %p){%x = atomicrmw add ptr %p, i32 1 ret void}",
];

/// Heads, whole texts.
const HEADS: &[&str] = &[
    "void @f(){}", "void @f(){ret void}", "  void\n@f ( ) { }", "void @\"f g\"(){}", "void @0(){}",
    "void @f(...){}", "void @f(i8,...){}", "void @f(i8){}", "void @f(i8 %x, ptr %1, %t* %\"q\"){}",
    "void @f(i8 noundef %x, ptr byval(%t) align 8){}", "i8 (i8)* @f(void (i8)* %p){}",
    "void @f(i8)#0 align 3{}", "void @f(){}x", "void @f(){} }", "void @f(){ret void}ret void}",
    "; c\nvoid @f(){; }\n}", "weak weak void @f(){}", "dso_local weak void @f(){}", "void @f(){a:}",
    "void @f(){fence}", "void @f(){%x = add i8 1, 2}", "void @f(){a: fence b:}",
    "void @f(){ret void a: fence}", "void @f(){a: ret void b: ret void}", "void @f(){a: b: ret void}",
    "void @f(){a: fence b: ret void}", "void @f(){ret void ret void}", "void @f(){\"\":ret void}",
    "void @f(){ret void 0:ret void}", "# # #1_ void @f(){}", "##12 void @f(){}", "externalx void @f(){}", "",
    " ", ";", "; c", "void", "void ", "void f", "void @", "void @\"", "void @\"\"", "void @\"\\g\"(){}",
    "void @f", "void @f{", "void @f(", "void @f(i8", "void @f(i8 %", "void @f(i8,", "void @f(i8,)",
    "void @f(i8 x)", "void @f(i8 %x", "void @f(..., i8){}", "void @f()", "void @f()x{", "void @f(){",
    "void @f(){ret", "void @f(){ret void", "void @f(){ret void,", "void @f() !dbg !0 {",
    "void @f() section \"x\" {", "foo void @f(){}", "cc void @f(){}", "cc 1", "cc 1 void @f(){}",
    "cc10 void @f(){}", "align void @f(){}", "align 4 void @f(){}", "align(4) void @f(){}",
    "captures void @f(){}", "captures(none void @f(){}", "captures((x) void @f(){}",
    "dead_on_return void @f(){}", "dead_on_return(1) void @f(){}", "void @f()dead_on_return{}",
    "void @f() dead_on_return ( {}", "void @f(ptr dead_on_return ; (\n (8)){ret void}",
    "void @f(ptr dead_on_return ; (\n %x){ret void}", "void @f(ptr dead_on_return_){}",
    "void @f(ptr dead_on_return.x){}", "void @f(ptr dead_on_return", "void @f(ptr dead_on_return ;",
    "void @f(ptr dead_on_return(", "void @f(ptr dead_on_return dead_on_return(8) dead_on_return %x){}",
    "void @f(ptr dead_on_return() ()){}", "void @f(ptr dead_on_return\"x\"){}",
    "void @f(ptr dead_on_return#1 align 8 %x){}", "void @f(ptr dead_on_unwind(1) %x){}",
    "void @f(i8(ptr dead_on_return, ...) %x){call void(ptr dead_on_return)@g(ptr dead_on_return %p) ret void}",
    "uwtable(sync) void @f(){}", "void @f()comdat($c){}", "noundef", "fastcc fastcc void @f(){}",
    "fastcc weak void @f(){}", "private private", "void@f(){}", "i32@f(i32%x){ret i32%x}", "void()@f(){}",
    "void()*@f(){}", "void @f(){}\0", "\0", "void @f(){\0}", "void\0@f(){}", "void @f\0(){}",
    "void @f(){ret i8 c\"\0\"}", "void\x0b@f(){}", "void\x0c@f(){}", "void\r\n@f(){}",
    "void @f(){%x=alloca i8 addrspace: ret void}", "void @f(){ret void addrspace: ret void}",
];

/// Edits, older and newer text: a number out of its range in each piece; the parentheses of
/// `dead_on_return` put in, taken out, left open; an `atomicrmw` made, altered, made wrong, in a tail;
/// numbers (M-106) moved up to a label that catches up, to the end, out of sequence, and not at all.
const EDITS: &[(&str, &str)] = &[
    ("void @f(i8 %x){ret void}", "void @f(i0 %x){ret void}"),
    ("void @f(){br label %a a: ret i8 1}", "void @f(){br label %a a: ret i008388609_ 1}"),
    ("void @f(){ret void}", "void @f(){ret void %x = load i8, ptr %p, align 0018446744073709551616}"),
    ("void @f(ptr dead_on_return %x){ret void}", "void @f(ptr dead_on_return (8) %x){ret void}"),
    ("void @f(ptr dead_on_return(8) %x){ret void}", "void @f(ptr dead_on_return;(8)\n %x){ret void}"),
    (
        "void @f(){call void @g() dead_on_return ret void}",
        "void @f(){call void @g() dead_on_return(ret void}",
    ),
    (
        "void @f(){ret void a: ret void}",
        "void @f(){ret void a: call void @g(ptr dead_on_return %p) ret void}",
    ),
    (
        "void @f(){%x = cmpxchg ptr %p, i8 1, i8 2 ret void}",
        "void @f(){%x = atomicrmw add ptr %p, i8 2 ret void}",
    ),
    (
        "void @f(){%x = atomicrmw add ptr %p, i8 1 ret void a: ret i8 %x}",
        "void @f(){%x = atomicrmw volatile nand ptr %p, i8 1 ret void a: ret i8 %x}",
    ),
    (
        "void @f(){ret void a: %x = atomicrmw add ptr %p, i8 1 ret void}",
        "void @f(){ret void a: %x = atomicrmw max ptr %p, i8 1 ret void}",
    ),
    (
        "void @f(){ret void %x = atomicrmw add ptr %p, i8 1}",
        "void @f(){ret void %x = atomicrmw xor ptr %p, i8 1 acquire}",
    ),
    ("void @f(){ ret i8 1 ret void 9:ret void}", "void @f(){ call i8 @g() ret i8 1 ret void 9:ret void}"),
    ("void @f(){ ret i8 1 ret void x:ret void}", "void @f(){ call i8 @g() ret i8 1 ret void x:ret void}"),
    ("void @f(){ ret i8 1 ret void x:ret void}", "void @f(){ call void @g() ret i8 1 ret void x:ret void}"),
    (
        "void @f(){ ret void %2=alloca i8 ret void ret i8 %2}",
        "void @f(){ call i8 @g() ret void %2=alloca i8 ret void ret i8 %2}",
    ),
    ("void @f(){%1=call i8 @g()ret void ret void}", "void @f(){call i8 @g()ret void ret void}"),
    ("void @f(i8){ret void 5:ret void}", "void @f(i8,i8){ret void 5:ret void}"),
    ("void @f(){ret void 5:ret void}", "void @f(){ret void 7:ret void}"),
    ("void @f(){ret void 7:ret void}", "void @f(){ret void 0:ret void}"),
    ("void @f(){ret void a:ret void}", "void @f(){ret void 4294967296:ret void}"),
    ("void @f(){ret void 4294967295:ret void}", "void @f(){ret void 4294967295:call i8 @g()ret void}"),
];

/// Numbers (M-106): what takes one, in which order, which names are numbers, labels, tails, none left.
const NUMBERS: &[&str] = &[
    // In order.
    "void @f(){%0=freeze i8 1}", "void @f(){%1=freeze i8 1 ret void}", "void @f(i8,i8 %0){}",
    "void @f(i8 %0,i8,i8 %2){}", "void @f(i8){ret void ret void}", "void @f(i8){0:ret void}",
    "void @f(i8){1:ret void 2:ret void}", "void @f(){call i8 @g() %1=freeze i8 1 ret void}",
    "void @f(i8 %3,i8){%5=call i8 @g(i8 %4) call i8 @g() %7=alloca i8 ret void 9:ret void ret void 11:}",
    // Calls, void and not.
    "void @f(){call void (i8) @g(i8 1) 0:ret void}", "void @f(){call void @g() %1=alloca i8 ret void}",
    "void @f(){call i8 (i8) @g(i8 1) %1=alloca i8 ret void}",
    "void @f(){call void (i8)* @g(i8 1) %2=alloca i8 ret void}",
    "void @f(){call void (i8)* @g(i8 1) %1=alloca i8 ret void}", "void @f(){call {} @g() %1=alloca i8 ret void}",
    "void @f(){call label @g() %2=alloca i8 ret void}", "void @f(){musttail call void @g() %1=alloca i8 ret void}",
    "void @f(){notail call ptr @g() %1=alloca i8 ret void}", "void @f(){%9 = call void @g() %9=alloca i8}",
    "void @f(){%9 = call void @g() %10=alloca i8 ret void ret void}",
    // Uses, types and globals.
    "void @0(%0 %5){%7=phi %0[%0,%1],[@0,%2]br label %3 x:switch i8 %4,label %0[i8 1,label %1]}",
    // Which names are numbers.
    "void @f(){%007=alloca i8 %7=alloca i8}", "void @f(){%007=alloca i8 %8=alloca i8 ret void}",
    "void @f(i8 %3){%\"1\"=alloca i8 %\"\\31\"=alloca i8 %1_0=alloca i8 %1a=alloca i8 %-1=alloca i8 ret void}",
    "void @f(i8 %3){1.:ret void 1_0:ret void \"0\":ret void \"\\30\":ret void 0a:ret void -1:ret void}",
    "void @f(i8 %4294967295){}", "void @f(i8 %4294967296){}", "void @f(i8 %4294967297){}",
    "void @f(i8 %18446744073709551616){}", "void @f(i8 %123456789012345678901234567890){}",
    "void @f(i8 %000000000000000000000000000000007,i8 %8){}", "void @f(){%4294967295=alloca i8 ret void x:ret void}",
    "void @f(){%4294967296=alloca i8", "void @f(){4294967295:ret void x:ret void}", "void @f(){4294967296:ret void}",
    // Labels.
    "void @f(){1:2:ret void 3:ret void}", "void @f(){2:1:ret void}", "void @f(){1:1:ret void}",
    "void @f(){7:x:call i8 @g() ret i8 %8 8:ret void}", "void @f(){7:x:call i8 @g() ret i8 %8 9:ret void}",
    "void @f(){fence a:ret void}", "void @f(){a:fence \"b c\":ret void}", "void @f(){ret void fence x:}",
    "void @f(){fence 9:ret void}", "void @f(){call i8 @g() a:ret void}", "void @f(){call i8 @g() \"a\":ret void}",
    "void @f(){call i8 @g() cold:ret void}", "void @f(){5 :ret void}", "void @f(){%x=alloca i8 x:}",
    // The tail.
    "void @f(){ret void 0:}", "void @f(){ret void 5:}", "void @f(){ret void x:}",
    "void @f(){ret void %1=alloca i8}", "void @f(){ret void %2=alloca i8}", "void @f(){ret void 1:%1=alloca i8}",
    "void @f(){ret void x:call i8 @g() %1=alloca i8}", "void @f(i8 %4294967295){fence}",
    "void @f(i8 %4294967295){x:fence}", "void @f(i8 %4294967295){ }",
    // No number left, and other questions at the same place.
    "void @f(i8 %4294967295,i8 noundef ;c\n?", "void @f(i8 %4294967295,i8 noundef ;c\n){}",
    "void @f(i8 %4294967295,i8){}", "void @f(i8 %4294967294,i8){}", "void @f(i8 %4294967295,i8 (i1) %x){}",
    "void @f(i8 %4294967294,i8 (i1) %x){}", "void @f(i8 %4294967295,i8 %x,...){}",
    "void @f(i8 %4294967294){call i8 @g() noundef, !x ret void}", "void @f(i8 %4294967294){call i8 @g()",
    "void @f(i8 %4294967294){call void @g() ret void}", "void @f(i8 %4294967293){call i8 @g() ret void}",
    "void @f(i8 %4294967295){ ;c\n ret void}", "void @f(i8 %4294967295){?", "void @f(i8 %4294967295){",
    "void @f(i8 %4294967295){\"\":", "void @f(i8 %4294967295){\"\\q\"", "void @f(i8 %4294967295){\"a",
    "void @f(i8 %4294967295){bogus", "void @f(i8 %4294967295){%", "void @f(i8 %4294967295){\"ret\" void}",
    "void @f(i8 %4294967295){x:ret void}", "void @f(i8 %4294967295){x:ret void ret void}",
    "void @f(i8 %4294967295){x:%\"0\"=alloca i8 ret void}", "void @f(i8 %4294967295){x:%4294967295=alloca i8",
    // Before anything behind the name.
    "void @f(i8){%0 ?", "void @f(i8){%2 ?", "void @f(i8,i8 %0 ?",
];

/// Questions 2, 15, 17 and 18, which the Rust does not ask.
const OUTSIDE: &[&str] = &[
    "void @f(){}é", "void @é(){}", "i0 @f(){}", "i0_ @f(){}", "i8388609 @f(){}", "i4294967297 @f(){}",
    "i340282366920938463463374607431768211457 @f(){}", "void (i0)* @f(){}", "void @f(i0){}", "i00 @f(){}",
    "i_0 @f(){}", "i 0 @f(){}", "i0__0 @f(){}", "i0008388609 @f(){}", "[ 18446744073709551616_ x i8] @f(){}",
    "< ;\n018446744073709551616 x i8> @f(){}", "cc 0_18446744073709551616 void @f(){}",
    "#0018446744073709551616 void @f(){}", "void @f() align 0018446744073709551616 {}",
    "void @f(){%x = extractvalue i8 1, 0_4294967296_}",
    "void @f(){call void @g(i8 align 018446744073709551616 1)}",
    "void @f(){call void (i8 align 18446744073709551616) @g()}",
    "void @f(){store i8 1, ptr %p, align 1, align 0018446744073709551616}",
    "[18446744073709551616 x i8] @f(){}", "<18446744073709551616 x i8> @f(){}",
    "cc 18446744073709551615 void @f(){}", "cc 18446744073709551616 void @f(){}",
    "align 18446744073709551616 void @f(){}", "#18446744073709551616 void @f(){}",
    "void @f(i8 align 18446744073709551616 %x){}", "void @f(){%x = extractvalue i8 1, 4294967296}",
    "void @f(){%x = alloca i8, align 18446744073709551616}",
    "void @f(){%x = load i8, ptr %p, align 18446744073709551616}",
    "void @f(){ret void, align 18446744073709551616}", "void @f(){ret void, align 18446744073709551615}",
    "void @f(){call void @g(i0 1)}", "void @f(){switch i8 1, label %a [i0 1, label %b]}",
    "void @f(){ret double 1e23}", "void @f(){ret double 10e22}", "void @f(){ret double 1e-23}",
    "void @f(){ret double 1234567890123456.}", "void @f(){ret double 1230e-24}",
    "void @f(){ret double 1e99999999999999999999}", "void @f(){ret double 1e-99999999999999999999}",
    "void @f(){ret double 1.000000000000001}", "void @f(){ret double 100000000000000000000000.}",
    "\"a\" void @f(){}", "fastcc \"a\" void @f(){}", "void @f(i8 \"a\"=\"b\" %x){}", "void @f() \"a\"{}",
    "void @f(){call \"a\" void @g()}", "void @f(){call void @g(i8 \"a\" 1)}",
    "void @f(){call void @g() \"a\"}", "void @f(){call void (i8 \"a\") @g()}",
];

/// Stored runs of `pieces` on texts that are refused: a list of vectors holds their answers too.
const RUNS: &[&[u8]] = &[
    include_bytes!("../../../runs/pieces/refused-02.in"),
    include_bytes!("../../../runs/pieces/refused-03.in"),
    include_bytes!("../../../runs/pieces/refused-04.in"),
    include_bytes!("../../../runs/pieces/refused-05.in"),
    include_bytes!("../../../runs/pieces/refused-06.in"),
    include_bytes!("../../../runs/pieces/refused-07.in"),
    include_bytes!("../../../runs/pieces/refused-08.in"),
    include_bytes!("../../../runs/pieces/refused-09.in"),
    include_bytes!("../../../runs/pieces/refused-10.in"),
    include_bytes!("../../../runs/pieces/refused-11.in"),
    include_bytes!("../../../runs/pieces/refused-12.in"),
    include_bytes!("../../../runs/pieces/refused-13.in"),
    include_bytes!("../../../runs/pieces/refused-14.in"),
    include_bytes!("../../../runs/pieces/refused-15.in"),
    include_bytes!("../../../runs/pieces/refused-16.in"),
    include_bytes!("../../../runs/pieces/refused-17.in"),
    include_bytes!("../../../runs/pieces/refused-18.in"),
    include_bytes!("../../../runs/pieces/refused-26.in"),
];

/// Nested to the limit and one deeper, in a type and in a value.
fn nested(out: &mut Vec<String>) {
    for n in [DEPTH - 1, DEPTH] {
        let (open, close) = ("{".repeat(n), "}".repeat(n));
        out.push(format!("{open}i8{close} @f(){{}}"));
        out.push(format!("{open}{close} @f(){{}}"));
        out.push(format!("void @f(){{ret i8 {}1{}}}", "[i8 ".repeat(n), "]".repeat(n)));
        out.push(format!("void @f(){{ret i8 {} ?", "add(i8 ".repeat(n)));
        out.push(format!("void @f(){{call {open}{close}(i8) @g(i8 1) ret void}}"));
        out.push(format!(
            "void @f(){{call i8 addrspace(1) ({}i8{}) @g()}}",
            "[1 x ".repeat(n - 1),
            "]".repeat(n - 1)
        ));
    }
}

/// Edits around the deepest level in each piece: to it, behind it, one deeper.
fn nested_edits(out: &mut Vec<(String, String)>) {
    let ty = |n: usize| format!("{}i8{}", "{".repeat(n), "}".repeat(n));
    let value = |n: usize| format!("{}1{}", "[i8 ".repeat(n), "]".repeat(n));
    let head = |n| format!("void @f({} %x){{ret void}}", ty(n));
    let block = |n, digit| format!("void @f(){{ret {} undef a: ret i8 {digit}}}", ty(n));
    let last = |n, digit| format!("void @f(){{ret i8 {digit} a: ret i8 {}}}", value(n));
    let tail = |n| format!("void @f(){{ret void %x = alloca {}}}", ty(n));
    let most = DEPTH - 1;
    for n in [most, most + 1] {
        out.push((head(most - 1), head(n)));
        out.push((block(most - 1, 1), block(n, 1)));
        out.push((last(most - 1, 1), last(n, 1)));
        out.push((tail(most - 1), tail(n)));
    }
    out.push((block(most, 1), block(most, 2)));
    out.push((last(most, 1), last(most, 2)));
}

/// Fixed edits, older and newer text.
pub fn edits() -> Vec<(String, String)> {
    let mut out = EDITS.iter().map(|(older, newer)| (older.to_string(), newer.to_string())).collect();
    nested_edits(&mut out);
    out
}

fn statement(s: &str) -> String {
    format!("void @f(){{{s} ret void}}")
}

fn words(out: &mut Vec<String>, list: &[&str], form: impl Fn(&str) -> String) {
    out.extend(list.iter().map(|w| form(w)));
}

/// One attribute in each place that takes attributes.
fn attribute(a: &str) -> String {
    format!("weak {a} fastcc {a} i32 @f(i8 {a} %x) {a} {{ %c = call {a} i32 (i8 {a}, ...) @g(i8 {a} 1) {a} ret void }}")
}

/// All of them, the same on every machine.
pub fn texts() -> Vec<Vec<u8>> {
    let mut out: Vec<String> = vec![];
    words(&mut out, HEADS, str::to_string);
    words(&mut out, OUTSIDE, str::to_string);
    words(&mut out, NUMBERS, str::to_string);
    nested(&mut out);
    words(&mut out, LINKAGES, |w| format!("{w} void @f(){{}}"));
    words(&mut out, CCONVS, |w| format!("internal {w} noundef i8 @f(){{call {w} zeroext i8 @g() ret void}}"));
    words(&mut out, FLAG_ATTRS, attribute);
    words(&mut out, PAREN_ATTRS, |w| attribute(&format!("{w} ( (1) \")\" )")));
    words(&mut out, PAREN_ATTRS, attribute);
    words(&mut out, &["align 8", "#3", "#", "align 1_6"], attribute);
    for list in [TYPES, NO_TYPES] {
        words(&mut out, list, |t| format!("{t} @f(){{}}"));
        words(&mut out, list, |t| format!("void @f({t} %x, {t}){{}}"));
        words(&mut out, list, |t| statement(&format!("%x = alloca {t}, {t} 1")));
    }
    words(&mut out, TYPES, |t| statement(&format!("call {t} @g({t} 1)")));
    words(&mut out, TYPES, |t| statement(&format!("call {t} ({t}, ...) @g()")));
    for list in [VALUES, NO_VALUES, NO_EXPRESSIONS] {
        words(&mut out, list, |v| format!("void @f(){{ret i8 {v}}}"));
        words(&mut out, list, |v| format!("void @f(){{ret i8 [i8 {v}, i8 {{ptr {v}}}]}}"));
    }
    expressions(&mut out);
    operations(&mut out);
    words(&mut out, RMW, |s| statement(&format!("%x = atomicrmw {s}")));
    words(&mut out, RMW, |s| format!("void @f(){{ret void %x = atomicrmw {s}}}"));
    words(&mut out, NO_RMW, |s| statement(&format!("%x = atomicrmw {s}")));
    words(&mut out, NO_RMW, |s| format!("void @f(){{%x = atomicrmw {s}"));
    words(&mut out, RMW_WORDS, str::to_string);
    words(&mut out, STATEMENTS, statement);
    words(&mut out, NO_STATEMENTS, statement);
    words(&mut out, NO_STATEMENTS, |s| format!("void @f(){{{s}"));
    words(&mut out, TERMINATORS, |t| format!("void @f(){{{t}}}"));
    words(&mut out, TERMINATORS, |t| format!("void @f(){{a: fence {t} fence {t} b:}}"));
    out.into_iter().map(String::into_bytes).chain(RUNS.iter().map(|text| text.to_vec())).collect()
}

fn expressions(out: &mut Vec<String>) {
    let ret = |v: String| format!("void @f(){{ret i8 {v}}}");
    for op in &CONV_OPS[..6] {
        out.push(ret(format!("{op} (i8 1 to i8)")));
        out.push(ret(format!("{op}({{i8}} {{i8 {op} (i8 @g to ptr)}} to %t*)")));
    }
    for op in BIN_OPS {
        out.push(ret(format!("{op} (i8 1, i8 2)")));
        words(out, ARITH_FLAGS, |flag| ret(format!("{op} {flag} nuw(i8 {op}(i8 1,i8 2),ptr @g)")));
    }
    for flags in ["", "inbounds", "nuw", "nusw", "inrange(-1, 2)", "nuw inbounds", "inbounds inbounds nusw"] {
        out.push(ret(format!("getelementptr {flags} (i8, ptr @g)")));
        out.push(ret(format!("getelementptr {flags} ([2 x i8], [2 x i8]* @g, i32 0, inrange i64 %\"x\")")));
    }
}

fn operations(out: &mut Vec<String>) {
    for op in BIN_OPS {
        out.push(statement(&format!("%x = {op} i8 %a, 2")));
        words(out, ARITH_FLAGS, |flag| statement(&format!("%x = {op} {flag} exact i8 %a, %b, !dbg !0")));
    }
    for op in FBIN_OPS {
        out.push(statement(&format!("%x = {op} float %a, 2.5")));
        words(out, FAST_FLAGS, |flag| statement(&format!("%x = {op} {flag} fast double %a, 0x1")));
    }
    words(out, FAST_FLAGS, |flag| statement(&format!("%x = fneg {flag} {flag} float %a")));
    words(out, FAST_FLAGS, |flag| statement(&format!("%x = fcmp {flag} nnan oeq float %a, %b")));
    for op in CONV_OPS {
        out.push(statement(&format!("%x = {op} i8 %a to i16")));
        words(out, CONV_FLAGS, |flag| {
            statement(&format!("%x = {op} {flag} nneg ptr null to {{i8}}, align 2"))
        });
    }
    words(out, ICMP_PREDS, |p| statement(&format!("%x = icmp {p} i8 %a, %b")));
    words(out, FCMP_PREDS, |p| statement(&format!("%x = fcmp {p} float %a, %b")));
    for order in ORDERINGS {
        out.push(statement(&format!("fence {order}")));
        out.push(statement(&format!("%x = load atomic i8, ptr %p {order}, align 1")));
        out.push(statement(&format!("store atomic i8 1, ptr %p {order}, align 1")));
        words(out, ORDERINGS, |fail| statement(&format!("%x = cmpxchg ptr %p, i8 1, i8 2 {order} {fail}")));
        out.push(statement(&format!("%x = atomicrmw add ptr %p, i8 1 {order}, align 1")));
    }
    words(out, RMW_OPS, |op| statement(&format!("%x = atomicrmw {op} ptr %p, i8 1 seq_cst")));
    words(out, RMW_OPS, |op| statement(&format!("%x = atomicrmw volatile \"{op}\" ptr %p, i8 1")));
    words(out, NO_RMW_OPS, |op| statement(&format!("%x = atomicrmw {op} ptr %p, i8 1 seq_cst")));
}
