/* Zimlokur: a reader of the function part of textual LLVM IR, proved before it is loaded.
 *
 * Each call takes any bytes, any older records and arrays of any length, does nothing undefined and ends. It allocates nothing, keeps
 * nothing between calls and writes nowhere but to what is lent to it. Arrays that are lent do not overlap each other or a text; an empty
 * array may be NULL. What is read is said in docs/SCOPE.md, what the words mean in docs/RECORDS.md, what a refusal means in
 * docs/QUESTIONS.md. The promise of each call is proved of the code (crates/zimlokur).
 *
 * The archive libzimlokur.a is for x86-64 Linux. A call needs some 21,000 bytes of stack (20,312 measured at the deepest text).
 * For a text of n bytes, n + n/3 words and n/2 + 2 directory words are enough, three of these for each piece; this is argued by hand and
 * measured, not proved. 8n and 3n follow by addition from bounds that are proved, and no theorem states them (docs/RECORDS.md). For a
 * re-reading take the longer text. More room changes nothing but the zeros behind.
 */
#ifndef ZIMLOKUR_H
#define ZIMLOKUR_H

#include <stddef.h>
#include <stdint.h>

#ifdef __cplusplus
extern "C" {
#endif

/* The questions: what a call returns where it refuses. 0 is no question: accepted. */
enum zimlokur_question {
    ZIMLOKUR_Q_LENGTH = 1,
    ZIMLOKUR_Q_ASCII = 2,
    ZIMLOKUR_Q_TOKEN = 3,
    ZIMLOKUR_Q_DIGIT = 4,
    ZIMLOKUR_Q_TYPE = 5,
    ZIMLOKUR_Q_VALUE = 6,
    ZIMLOKUR_Q_LITERAL = 7,
    ZIMLOKUR_Q_STATEMENT = 8,
    ZIMLOKUR_Q_OPCODE = 9,
    ZIMLOKUR_Q_PREDICATE = 10,
    ZIMLOKUR_Q_TRAILING = 11,
    ZIMLOKUR_Q_CASE = 12,
    ZIMLOKUR_Q_CLOSED = 13,
    ZIMLOKUR_Q_ESCAPE = 14,
    ZIMLOKUR_Q_NUMBER = 15,
    ZIMLOKUR_Q_DEPTH = 16,
    ZIMLOKUR_Q_DECIMAL = 17,
    ZIMLOKUR_Q_LEFT_OUT = 18,
    ZIMLOKUR_Q_CHILDREN = 19,
    ZIMLOKUR_Q_WORDS = 20,
    ZIMLOKUR_Q_ENTRIES = 21,
    ZIMLOKUR_Q_OLDER = 22,
    ZIMLOKUR_Q_RULE = 23,
    ZIMLOKUR_Q_OVERLAP = 24,
    ZIMLOKUR_Q_GAP = 25,
    ZIMLOKUR_Q_COUNTER = 26,
    ZIMLOKUR_Q_OUTPUT = 27
};

/* How deep types and values nest at most: question 16 refuses what stands deeper. A tree has at most three nodes above them.
 * How many words of the directory an entry has. The last account class and the last channel. */
enum zimlokur_limit {
    ZIMLOKUR_DEPTH_LIMIT = 19,
    ZIMLOKUR_ENTRY_WORDS = 3,
    ZIMLOKUR_CLASS_LIMIT = 3,
    ZIMLOKUR_CHANNEL_LIMIT = 65535
};

/* Kinds of nodes: the upper 8 bits of a header. */
enum zimlokur_kind {
    ZIMLOKUR_K_VOID = 1,
    ZIMLOKUR_K_INT = 2,
    ZIMLOKUR_K_FLOAT = 3,
    ZIMLOKUR_K_DOUBLE = 4,
    ZIMLOKUR_K_PTR = 5,
    ZIMLOKUR_K_ARRAY = 6,
    ZIMLOKUR_K_NAMED = 7,
    ZIMLOKUR_K_STRUCT = 8,
    ZIMLOKUR_K_LABEL = 9,
    ZIMLOKUR_K_METADATA = 10,
    ZIMLOKUR_K_FUNC = 11,
    ZIMLOKUR_K_LOCAL = 16,
    ZIMLOKUR_K_GLOBAL = 17,
    ZIMLOKUR_K_INT_CONST = 18,
    ZIMLOKUR_K_FLOAT_CONST = 19,
    ZIMLOKUR_K_NULL = 20,
    ZIMLOKUR_K_UNDEF = 21,
    ZIMLOKUR_K_POISON = 22,
    ZIMLOKUR_K_ZERO_INIT = 23,
    ZIMLOKUR_K_CSTR = 24,
    ZIMLOKUR_K_ARRAY_CONST = 25,
    ZIMLOKUR_K_STRUCT_CONST = 26,
    ZIMLOKUR_K_GEP_EXPR = 27,
    ZIMLOKUR_K_CONV_EXPR = 28,
    ZIMLOKUR_K_BIN_EXPR = 29,
    ZIMLOKUR_K_BIN = 32,
    ZIMLOKUR_K_FBIN = 33,
    ZIMLOKUR_K_FNEG = 34,
    ZIMLOKUR_K_CONV = 35,
    ZIMLOKUR_K_ICMP = 36,
    ZIMLOKUR_K_FCMP = 37,
    ZIMLOKUR_K_SELECT = 38,
    ZIMLOKUR_K_LOAD = 39,
    ZIMLOKUR_K_STORE = 40,
    ZIMLOKUR_K_ALLOCA = 41,
    ZIMLOKUR_K_GEP = 42,
    ZIMLOKUR_K_PHI = 43,
    ZIMLOKUR_K_CALL = 44,
    ZIMLOKUR_K_FREEZE = 45,
    ZIMLOKUR_K_ATOMIC_LOAD = 46,
    ZIMLOKUR_K_ATOMIC_STORE = 47,
    ZIMLOKUR_K_ATOMIC_RMW = 48,
    ZIMLOKUR_K_CMPXCHG = 49,
    ZIMLOKUR_K_EXTRACT_VALUE = 50,
    ZIMLOKUR_K_FENCE = 51,
    ZIMLOKUR_K_RET = 52,
    ZIMLOKUR_K_BR = 53,
    ZIMLOKUR_K_SWITCH = 54,
    ZIMLOKUR_K_UNREACHABLE = 55,
    ZIMLOKUR_K_HEAD = 60,
    ZIMLOKUR_K_BLOCK = 61,
    ZIMLOKUR_K_PARAM = 62,
    ZIMLOKUR_K_NAME = 63
};

/* Details: the 8 bits below the kind, where they are no rank of an operator or predicate (docs/RECORDS.md
 * has the ranks). A head has its linkage, plus ZIMLOKUR_D_VARARGS. ZIMLOKUR_D_CONDITION is two bits: a condition, and a second target. */
enum zimlokur_detail {
    ZIMLOKUR_D_VARARGS = 128,
    ZIMLOKUR_D_NONE = 0,
    ZIMLOKUR_D_PACKED = 1,
    ZIMLOKUR_D_DOTS = 1,
    ZIMLOKUR_D_INBOUNDS = 1,
    ZIMLOKUR_D_ALIGN = 1,
    ZIMLOKUR_D_COUNT = 1,
    ZIMLOKUR_D_ALLOCA_ALIGN = 2,
    ZIMLOKUR_D_FUNCTION_TYPE = 1,
    ZIMLOKUR_D_CONDITION = 3,
    ZIMLOKUR_D_NAMED = 1,
    ZIMLOKUR_D_VALUE = 1
};

/* Linkages, as a head's detail has them; an unwritten one is external. */
enum zimlokur_linkage {
    ZIMLOKUR_LINKAGE_PRIVATE = 0,
    ZIMLOKUR_LINKAGE_INTERNAL = 1,
    ZIMLOKUR_LINKAGE_AVAILABLE_EXTERNALLY = 2,
    ZIMLOKUR_LINKAGE_LINKONCE = 3,
    ZIMLOKUR_LINKAGE_WEAK = 4,
    ZIMLOKUR_LINKAGE_COMMON = 5,
    ZIMLOKUR_LINKAGE_APPENDING = 6,
    ZIMLOKUR_LINKAGE_EXTERN_WEAK = 7,
    ZIMLOKUR_LINKAGE_LINKONCE_ODR = 8,
    ZIMLOKUR_LINKAGE_WEAK_ODR = 9,
    ZIMLOKUR_LINKAGE_EXTERNAL = 10
};

/* The full reading of one function, from behind the word `define`.
 *
 * Returns 0 where it is accepted, else the number of the question that refuses.
 * Accepted: *entries is the number of pieces, *place is 0. words has the nodes' words of each piece, one piece behind the other;
 *   directory has ZIMLOKUR_ENTRY_WORDS words for each piece: start and length in the text, first word and number of words (upper and lower
 *   32 bits of each), and the counter at the piece's start. Every word behind those, in both arrays, is 0.
 * The counter is the next number that something without a name takes: a parameter, a block without a label, a call that is not void. It
 *   starts at 0 and goes on from piece to piece; a name that is a number must not be below it, and the counter is then that number plus
 *   one. So a block without a label has its third word as its number. Question 26 refuses a number below the counter, one that is not
 *   below 2^32, and a label behind an instruction of its block.
 * Refused: *place is where, *entries is 0, and every word of both arrays is 0.
 * Answer, place and every word of both arrays are those of the definition `reading_of` of the text and the two lengths alone.
 */
uint64_t zimlokur_parse_define(const uint8_t *text, size_t text_len, uint64_t *words, size_t words_len, uint64_t *directory,
                               size_t directory_len, uint64_t *place, uint64_t *entries);

/* The re-reading after an edit, in the arrays that hold the records of the older text.
 *
 * Returns 0 where it is accepted, else the number of the question that refuses.
 * Accepted: *place is 0, *entries is the number of pieces, *first the number of the first piece that was read (the number of pieces, if
 *   none was), *read how many were; the arrays are as
 *   zimlokur_parse_define would have left them for the newer text, if they were as it left them for the older text, with
 *   older_entries the count that it gave.
 *   Pieces behind an edit are kept only where the counter there is the one that their entry has. So an edit that leaves the numbers alone
 *   reads little, and one that shifts all of them reads on, up to a numbered label that agrees again or to the end, which takes twice as
 *   long as a full reading. It may then be refused with 26 far behind the edit.
 * Refused: *place is where, *entries, *first and *read are 0, and every word of both arrays is as it was lent: the next edit is one of the last
 *   accepted text again, with the entry count that it had.
 * Any number of calls, accepted and refused, behind an accepted zimlokur_parse_define in the same arrays: if each accepted one was lent the last
 *   accepted text and its entry count, the arrays are in the end as zimlokur_parse_define would leave them for the last accepted text. The
 *   refused ones may have been lent any older text and count. An accepted call that was lent another text or count ends this.
 * Question 22 asks of the older records nothing but their directory: at least two entries within the array, each beginning where the last
 * ended, inside the older text and the words, with a counter of at most 2^32.
 * Whatever older text, records and count are lent, answer, place and every word are those of the definition `rereading_of` of both texts,
 * both arrays and the count as they stood before the call: there is one result.
 */
uint64_t zimlokur_reparse_define(const uint8_t *older, size_t older_len, const uint8_t *newer, size_t newer_len, uint64_t *words,
                                 size_t words_len, uint64_t *directory, size_t directory_len, uint64_t older_entries, uint64_t *place,
                                 uint64_t *entries, uint64_t *first, uint64_t *read);

/* The line and the column of a place in a text, both counted from 1. The place at the text's end is one column behind its last byte; a place
 * further on, which two errors in escapes give, counts the byte that is missing and is two columns behind. */
void zimlokur_position(const uint8_t *text, size_t text_len, uint64_t place, uint64_t *line, uint64_t *column);

/* Steps from node to node, over words that a reading left or any others. A place is the index of a node's header in words; a piece's
 * first place is that of its directory entry, and a node's end is its place plus the number of words in its header.
 *
 * To the first child of the node at `at`, which stands behind the node's payload. A switch's payload begins with its case count.
 * Returns 1 with the child's place in *to. Returns 0 with at in *to where there is no step: the header at `at` has no children, its kind
 *   is none of zimlokur_kind, or no header stands at `at` or behind the payload: a word of extent 0 (its lower 32 bits), or a place past
 *   the array. The place is counted without wrapping, whatever the case count.
 * A step goes forward: at < *to < words_len. Nothing more is asked of the words: a header whose extent reaches past the array or past its
 *   parent's end is stepped from and to like any other.
 * Answer and *to are those of the definition `child_of`.
 */
uint64_t zimlokur_child(const uint64_t *words, size_t words_len, uint64_t at, uint64_t *to);

/* To the next node behind the one at `at`, below an end: that of the given parent, or words_len.
 *
 * Returns 1 with the next node's place in *to. Returns 0 with at in *to where there is no step: the place behind the node is not below
 *   end, or no header stands at `at` or there. The place is counted without wrapping.
 * A step goes forward: at < *to < words_len, and *to < end.
 * Over words that an accepted reading left: from place 0, the child, else the next one below words_len, meets every node one time, each
 *   before those below it; the child, then the next ones below the parent's end, are the parent's children.
 * Answer and *to are those of the definition `next_of`.
 */
uint64_t zimlokur_next(const uint64_t *words, size_t words_len, uint64_t at, uint64_t end, uint64_t *to);

/* The text of a name: a part of the piece's text, which is lent from the piece's start. `name` is the name's word, the first payload word
 * of a node that has one: docs/RECORDS.md says which do.
 *
 * Returns 1 with where the part starts in the piece in *start and its number of bytes in *length: *start + *length is at most piece_len.
 * Returns 0 with 0 in both where the word is 0, which is no name, or the part reaches past the piece. Of an accepted reading every name
 *   but 0 lies in its piece.
 * Answer, *start and *length are those of the definition `part_of`.
 */
uint64_t zimlokur_name(const uint8_t *piece, size_t piece_len, uint64_t name, uint64_t *start, uint64_t *length);

/* The block map of a function: a DOT digraph for Graphviz, from the text and the records that its reading left (`entries` as that call gave
 * it). Lines ended by a line feed: `digraph {`; then `"x"` for each block in order; then `"x" -> "y"` for each target, block by block, of `br`
 * the true one before the false one, of `switch` the default before the cases, repeats kept; then `}`. A name is its bytes, quotes and
 * escapes undone; a quote, a backslash and each byte outside 32 to 126 become two backslashes and two capital hexadecimal digits. A block
 * without a label has its number (docs/RECORDS.md, "Numbers").
 * Returns 0: *length is the number of bytes of the map, which stands in map with zeros behind it.
 * Returns ZIMLOKUR_Q_OUTPUT (27), with 0 in *length, where the map is longer than map_len or than 16,777,216 bytes: map is zeros.
 * *place is 0. The map of m bytes fits m bytes; a block's name is written again for each of its targets, so no multiple of the text's length
 *   is always enough: where 27 comes back with less than 16,777,216 bytes lent, lend more.
 * Any records may be lent: nothing undefined happens, nothing but map, *place and *length is written, and the work grows no faster than the
 *   words, directory and text lent, and the map up to its limit. Return value, map and *length are those of the definition `block_map`.
 */
uint64_t zimlokur_block_map(const uint8_t *text, size_t text_len, const uint64_t *words, size_t words_len, const uint64_t *directory,
                            size_t directory_len, uint64_t entries, uint8_t *map, size_t map_len, uint64_t *place, uint64_t *length);

/* A rule of the table of who may fire what: an account class, 0 to 3, may fire the channels from first to last, both of them included, or may
 * not: `allowed` is 0 for no, anything else is yes. */
struct zimlokur_rule {
    uint8_t account_class;
    uint8_t allowed;
    uint16_t first;
    uint16_t last;
};

/* What the table says of a call to @fire. Undecided: which channel it fires is not written there. None: there is no such call. */
enum zimlokur_answer {
    ZIMLOKUR_ANSWER_NO = 0,
    ZIMLOKUR_ANSWER_YES = 1,
    ZIMLOKUR_ANSWER_UNDECIDED = 2,
    ZIMLOKUR_ANSWER_NONE = 3
};

/* Whether one account class may fire the channel of the n-th call to @fire of a function, counted from 0 in record order. Text, records and
 * `entries` are those of its reading.
 *
 * In a table that is not refused every class has each channel from 0 to 65,535 in exactly one rule, in whatever order the rules stand.
 * Returns 0, with 0 in *place and the answer in *answer: ZIMLOKUR_ANSWER_NONE past the last call, whatever n;
 *   ZIMLOKUR_ANSWER_UNDECIDED exactly where the call's first argument is absent or no integer constant from 0 to 65,535; else
 *   ZIMLOKUR_ANSWER_YES or ZIMLOKUR_ANSWER_NO as the one rule of that class says that covers the channel. The other classes' rules have no say.
 * Returns the number of the question that refuses the table, with its place in *place and ZIMLOKUR_ANSWER_NONE in *answer. In this order, whatever
 *   text and records are lent:
 *   ZIMLOKUR_Q_RULE (23), place 0: the class asked for is above 3;
 *   ZIMLOKUR_Q_RULE (23): the earliest rule, by its number from 0, whose class is above 3 or whose first channel is above its last;
 *   ZIMLOKUR_Q_OVERLAP (24): two rules of one class, the one asked for or another, share a channel; of such pairs the lowest by its earlier rule,
 *     then by its later one, and the place is the later one's number;
 *   ZIMLOKUR_Q_GAP (25): a class has a channel that no rule covers; the lowest class times 65,536 plus the channel.
 * A call to @fire is a `call`, with `tail` or a function type or without, whose callee is the global of that name, quotes and escapes undone:
 *   @"fire" and @"\66ire" too, but not %fire, not a cast of @fire, not @fire as an argument; whether or not it can be reached.
 * THE CONSTANT IS TAKEN AS IT IS WRITTEN, whatever its type: `call void @fire(i8 300)` is channel 300 here, while 44 is what fires, since a
 *   machine takes 300 modulo 256. So a yes for 300 lets 44 be fired, which the class may be forbidden. `i16 -1` is undecided, and fires 65,535;
 *   clang writes 16-bit constants from 32,768 on so, fire(65535) as `i16 -1`. `i1 true` is 1 in both. Who takes cues that no compiler
 *   wrote looks at each constant's type, too, as examples/rules.c does.
 * Any rules, records and count may be lent: nothing undefined happens, and nothing but *place and *answer is written. It takes time by the rules
 *   times their ends, at most 4,098 looks at each: docs/MEASURED.md.
 */
uint64_t zimlokur_channel(const struct zimlokur_rule *rules, size_t rules_len, uint64_t account_class, uint64_t n, const uint8_t *text,
                          size_t text_len, const uint64_t *words, size_t words_len, const uint64_t *directory, size_t directory_len,
                          uint64_t entries, uint64_t *place, uint64_t *answer);

#ifdef __cplusplus
}
#endif

#endif
