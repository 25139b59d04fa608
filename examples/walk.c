/* Prints the nodes of a cue as an indented tree, as a preview screen would show them, piece by piece. Standard input has a function's text
 * from behind the word `define`. A line is a node: its kind, its detail in words, its names as they stand in the text, its numbers.
 * From node to node it goes by the library's steps, and names are what the library finds in the piece. The words are not believed: whatever
 * they hold, nothing outside the arrays and the text is looked at, and what does not fit is said.
 * Exits 0 if the tree is whole, 1 if it is not or the cue is refused, 2 without a cue.
 * cc -Iinclude examples/walk.c target/staticlib/libzimlokur.a -o target/walk */
#include "common.h"

enum { MOST_BYTES = 65536, WORDS = 2 * MOST_BYTES + 64, DIRECTORY_WORDS = MOST_BYTES + 64 };

/* Above types and values stand at most a block, a call and its function type. */
enum { MOST_LEVELS = ZIMLOKUR_DEPTH_LIMIT + 3 };

/* One byte more than is taken, so that a longer input shows. */
static uint8_t input[MOST_BYTES + 1];
static uint64_t words[WORDS];
static uint64_t directory[DIRECTORY_WORDS];

/* The words of a piece, and the place in them where a node begins. */
struct handle {
  const uint64_t *words;
  size_t length;
  uint64_t at;
};

/* The words between a node's header and its children. */
struct payload {
  const uint64_t *words;
  size_t length;
};

/* A header: what a node is, and how far it goes. */
struct header {
  unsigned kind, detail;
  size_t children, size;
};

/* A node that fits: where it ends, and a handle at its first child; without a child that one is of no use. */
struct node {
  struct header header;
  struct payload payload;
  struct handle child;
  uint64_t end;
};

/* What is being printed: the text of the piece, which its names count from, the counter at its start, and what did not fit so far. */
struct walk {
  struct text piece;
  uint64_t counter;
  size_t faults;
};

/* Words are named by their rank in a list. */
struct ranks {
  const char *const *names;
  size_t count;
};

static struct header header_of(uint64_t word) {
  struct header header = {(unsigned)(word >> 56), (unsigned)(word >> 48 & 0xFF), (size_t)(word >> 32 & 0xFFFF), (size_t)lower(word)};
  return header;
}

/* Steps: whether there is one. If not, the handle stays where it is. */
static int to_child(struct handle *handle) { return zimlokur_child(handle->words, handle->length, handle->at, &handle->at) != 0; }

static int to_next(struct handle *handle, uint64_t end) {
  return zimlokur_next(handle->words, handle->length, handle->at, end, &handle->at) != 0;
}

/* The name of a kind in the header file, in small letters; NULL for a number that is none. */
static const char *kind_name(unsigned kind) {
  static const char *const names[] = {
      [ZIMLOKUR_K_VOID] = "void",
      [ZIMLOKUR_K_INT] = "int",
      [ZIMLOKUR_K_FLOAT] = "float",
      [ZIMLOKUR_K_DOUBLE] = "double",
      [ZIMLOKUR_K_PTR] = "ptr",
      [ZIMLOKUR_K_ARRAY] = "array",
      [ZIMLOKUR_K_NAMED] = "named",
      [ZIMLOKUR_K_STRUCT] = "struct",
      [ZIMLOKUR_K_LABEL] = "label",
      [ZIMLOKUR_K_METADATA] = "metadata",
      [ZIMLOKUR_K_FUNC] = "func",
      [ZIMLOKUR_K_LOCAL] = "local",
      [ZIMLOKUR_K_GLOBAL] = "global",
      [ZIMLOKUR_K_INT_CONST] = "int_const",
      [ZIMLOKUR_K_FLOAT_CONST] = "float_const",
      [ZIMLOKUR_K_NULL] = "null",
      [ZIMLOKUR_K_UNDEF] = "undef",
      [ZIMLOKUR_K_POISON] = "poison",
      [ZIMLOKUR_K_ZERO_INIT] = "zero_init",
      [ZIMLOKUR_K_CSTR] = "cstr",
      [ZIMLOKUR_K_ARRAY_CONST] = "array_const",
      [ZIMLOKUR_K_STRUCT_CONST] = "struct_const",
      [ZIMLOKUR_K_GEP_EXPR] = "gep_expr",
      [ZIMLOKUR_K_CONV_EXPR] = "conv_expr",
      [ZIMLOKUR_K_BIN_EXPR] = "bin_expr",
      [ZIMLOKUR_K_BIN] = "bin",
      [ZIMLOKUR_K_FBIN] = "fbin",
      [ZIMLOKUR_K_FNEG] = "fneg",
      [ZIMLOKUR_K_CONV] = "conv",
      [ZIMLOKUR_K_ICMP] = "icmp",
      [ZIMLOKUR_K_FCMP] = "fcmp",
      [ZIMLOKUR_K_SELECT] = "select",
      [ZIMLOKUR_K_LOAD] = "load",
      [ZIMLOKUR_K_STORE] = "store",
      [ZIMLOKUR_K_ALLOCA] = "alloca",
      [ZIMLOKUR_K_GEP] = "gep",
      [ZIMLOKUR_K_PHI] = "phi",
      [ZIMLOKUR_K_CALL] = "call",
      [ZIMLOKUR_K_FREEZE] = "freeze",
      [ZIMLOKUR_K_ATOMIC_LOAD] = "atomic_load",
      [ZIMLOKUR_K_ATOMIC_STORE] = "atomic_store",
      [ZIMLOKUR_K_ATOMIC_RMW] = "atomic_rmw",
      [ZIMLOKUR_K_CMPXCHG] = "cmpxchg",
      [ZIMLOKUR_K_EXTRACT_VALUE] = "extract_value",
      [ZIMLOKUR_K_FENCE] = "fence",
      [ZIMLOKUR_K_RET] = "ret",
      [ZIMLOKUR_K_BR] = "br",
      [ZIMLOKUR_K_SWITCH] = "switch",
      [ZIMLOKUR_K_UNREACHABLE] = "unreachable",
      [ZIMLOKUR_K_HEAD] = "head",
      [ZIMLOKUR_K_BLOCK] = "block",
      [ZIMLOKUR_K_PARAM] = "param",
      [ZIMLOKUR_K_NAME] = "name",
  };
  return kind < sizeof names / sizeof *names ? names[kind] : NULL;
}

/* The operators and predicates that a kind's detail ranks, in the order of the definitions; none for every other kind. */
static struct ranks ranks_of(unsigned kind) {
  static const char *const bin[] = {"add", "sub", "mul", "udiv", "sdiv", "urem", "srem", "and", "or", "xor", "shl", "lshr", "ashr"};
  static const char *const fbin[] = {"fadd", "fsub", "fmul", "fdiv", "frem"};
  static const char *const conv[] = {"trunc",  "zext",   "sext",   "ptrtoint", "inttoptr", "bitcast",
                                     "sitofp", "uitofp", "fptosi", "fptoui",   "fpext",    "fptrunc"};
  static const char *const icmp[] = {"eq", "ne", "ugt", "uge", "ult", "ule", "sgt", "sge", "slt", "sle"};
  static const char *const fcmp[] = {"false", "oeq", "ogt", "oge", "olt", "ole", "one", "ord",
                                     "ueq",   "ugt", "uge", "ult", "ule", "une", "uno", "true"};
  static const char *const rmw[] = {"xchg", "add", "sub", "and", "or", "xor", "nand"};
  switch (kind) {
  case ZIMLOKUR_K_BIN:
  case ZIMLOKUR_K_BIN_EXPR:
    return (struct ranks){bin, sizeof bin / sizeof *bin};
  case ZIMLOKUR_K_FBIN:
    return (struct ranks){fbin, sizeof fbin / sizeof *fbin};
  case ZIMLOKUR_K_CONV:
    return (struct ranks){conv, sizeof conv / sizeof *conv};
  case ZIMLOKUR_K_CONV_EXPR:
    return (struct ranks){conv, 6}; /* a constant is converted by the first six only */
  case ZIMLOKUR_K_ICMP:
    return (struct ranks){icmp, sizeof icmp / sizeof *icmp};
  case ZIMLOKUR_K_FCMP:
    return (struct ranks){fcmp, sizeof fcmp / sizeof *fcmp};
  case ZIMLOKUR_K_ATOMIC_RMW:
    return (struct ranks){rmw, sizeof rmw / sizeof *rmw};
  default:
    return (struct ranks){NULL, 0};
  }
}

/* What does not fit is said behind the node's kind, and counted. */
static void fault(struct walk *walk, const char *what) {
  printf(" (%s)", what);
  walk->faults++;
}

/* A flag's name if it is set; gives the detail without it. */
static unsigned show_flag(unsigned detail, unsigned flag, const char *name) {
  if ((detail & flag) == flag)
    printf(" %s", name);
  return detail & ~flag;
}

/* The linkage in the head's detail, by name; gives the detail without it. */
static unsigned show_linkage(unsigned detail) {
  static const char *const names[] = {
      [ZIMLOKUR_LINKAGE_PRIVATE] = "private",
      [ZIMLOKUR_LINKAGE_INTERNAL] = "internal",
      [ZIMLOKUR_LINKAGE_AVAILABLE_EXTERNALLY] = "available_externally",
      [ZIMLOKUR_LINKAGE_LINKONCE] = "linkonce",
      [ZIMLOKUR_LINKAGE_WEAK] = "weak",
      [ZIMLOKUR_LINKAGE_COMMON] = "common",
      [ZIMLOKUR_LINKAGE_APPENDING] = "appending",
      [ZIMLOKUR_LINKAGE_EXTERN_WEAK] = "extern_weak",
      [ZIMLOKUR_LINKAGE_LINKONCE_ODR] = "linkonce_odr",
      [ZIMLOKUR_LINKAGE_WEAK_ODR] = "weak_odr",
      [ZIMLOKUR_LINKAGE_EXTERNAL] = "external",
  };
  unsigned linkage = detail & ~(unsigned)ZIMLOKUR_D_VARARGS;
  if (linkage >= sizeof names / sizeof *names)
    return detail;
  printf(" %s", names[linkage]);
  return show_flag(detail & ZIMLOKUR_D_VARARGS, ZIMLOKUR_D_VARARGS, "varargs");
}

/* The flags of a kind by name; gives what of the detail has none. */
static unsigned show_flags(unsigned kind, unsigned detail) {
  switch (kind) {
  case ZIMLOKUR_K_HEAD:
    return show_linkage(detail);
  case ZIMLOKUR_K_ARRAY:
  case ZIMLOKUR_K_STRUCT:
    return show_flag(detail, ZIMLOKUR_D_PACKED, "packed");
  case ZIMLOKUR_K_FUNC:
    return show_flag(detail, ZIMLOKUR_D_DOTS, "dots");
  case ZIMLOKUR_K_GEP:
  case ZIMLOKUR_K_GEP_EXPR:
    return show_flag(detail, ZIMLOKUR_D_INBOUNDS, "inbounds");
  case ZIMLOKUR_K_LOAD:
  case ZIMLOKUR_K_STORE:
    return show_flag(detail, ZIMLOKUR_D_ALIGN, "align");
  case ZIMLOKUR_K_ALLOCA:
    return show_flag(show_flag(detail, ZIMLOKUR_D_COUNT, "count"), ZIMLOKUR_D_ALLOCA_ALIGN, "align");
  case ZIMLOKUR_K_CALL:
    return show_flag(detail, ZIMLOKUR_D_FUNCTION_TYPE, "function_type");
  case ZIMLOKUR_K_BR:
    return show_flag(detail, ZIMLOKUR_D_CONDITION, "condition");
  case ZIMLOKUR_K_PARAM:
    return show_flag(detail, ZIMLOKUR_D_NAMED, "named");
  case ZIMLOKUR_K_RET:
    return show_flag(detail, ZIMLOKUR_D_VALUE, "value");
  default:
    return detail;
  }
}

static void show_detail(struct walk *walk, struct header header) {
  struct ranks ranks = ranks_of(header.kind);
  if (header.detail < ranks.count)
    printf(" %s", ranks.names[header.detail]);
  else if (ranks.count > 0 || show_flags(header.kind, header.detail) != 0)
    fault(walk, "unknown detail");
}

/* A name as it stands in its piece, quotes included. A byte that would break the line is shown as an escape. */
static void show_name(struct walk *walk, const char *sigil, uint64_t name) {
  uint64_t start, length;
  if (!zimlokur_name(walk->piece.bytes, walk->piece.length, name, &start, &length)) {
    fault(walk, "no name in the piece");
    return;
  }
  printf(" %s", sigil);
  for (uint64_t k = start; k < start + length; k++)
    printf(walk->piece.bytes[k] < ' ' || walk->piece.bytes[k] > '~' ? "\\%02X" : "%c", walk->piece.bytes[k]);
}

/* An integer of 128 bits in decimal: the number is divided by ten, 32 bits at a time, from its upper end. */
static void show_int(uint64_t high, uint64_t low) {
  char digits[40];
  size_t count = 0;
  int negative = (int)(high >> 63);
  if (negative) {
    low = ~low + 1;
    high = ~high + (low == 0);
  }
  do {
    uint32_t parts[] = {(uint32_t)upper(high), (uint32_t)lower(high), (uint32_t)upper(low), (uint32_t)lower(low)};
    uint64_t rest = 0;
    for (size_t k = 0; k < 4; k++) {
      uint64_t part = rest << 32 | parts[k];
      parts[k] = (uint32_t)(part / 10);
      rest = part % 10;
    }
    high = (uint64_t)parts[0] << 32 | parts[1];
    low = (uint64_t)parts[2] << 32 | parts[3];
    digits[count++] = (char)('0' + rest);
  } while (high != 0 || low != 0);
  printf(negative ? " -" : " ");
  while (count > 0)
    putchar(digits[--count]);
}

/* A float by its bits, and as far as decimals tell. */
static void show_float(uint64_t bits) {
  double number;
  memcpy(&number, &bits, sizeof number);
  printf(" 0x%016" PRIX64 " %.17g", bits, number);
}

static int has_destination(unsigned kind) { return kind >= ZIMLOKUR_K_BIN && kind <= ZIMLOKUR_K_FENCE; }

/* Whether a payload has as many words as are shown of its kind. Behind a destination there may be an alignment or an index; a switch has
 * the number of its cases and two words for each of them. */
static int is_payload(unsigned kind, struct payload payload) {
  switch (kind) {
  case ZIMLOKUR_K_INT:
  case ZIMLOKUR_K_ARRAY:
  case ZIMLOKUR_K_NAMED:
  case ZIMLOKUR_K_LOCAL:
  case ZIMLOKUR_K_GLOBAL:
  case ZIMLOKUR_K_FLOAT_CONST:
  case ZIMLOKUR_K_CSTR:
  case ZIMLOKUR_K_HEAD:
  case ZIMLOKUR_K_BLOCK:
  case ZIMLOKUR_K_PARAM:
  case ZIMLOKUR_K_NAME:
    return payload.length == 1;
  case ZIMLOKUR_K_INT_CONST:
    return payload.length == 2;
  case ZIMLOKUR_K_SWITCH:
    return payload.length % 2 == 1 && payload.words[0] == payload.length / 2;
  default:
    return has_destination(kind) ? payload.length == 1 || payload.length == 2 : payload.length == 0;
  }
}

/* A destination if there is one, and the number behind it: an alignment or an index. */
static void show_instruction(struct walk *walk, struct payload payload) {
  if (payload.words[0] != 0)
    show_name(walk, "%", payload.words[0]);
  if (payload.length > 1)
    printf(" %" PRIu64, payload.words[1]);
}

/* Integers of two words each. */
static void show_ints(const uint64_t *ints, uint64_t count) {
  for (uint64_t k = 0; k < count; k++)
    show_int(ints[2 * k], ints[2 * k + 1]);
}

/* What stands between the header and the children, by the kind; there are as many words as `is_payload` asks for. */
static void show_payload(struct walk *walk, unsigned kind, struct payload payload) {
  if (payload.length == 0)
    return;
  switch (kind) {
  case ZIMLOKUR_K_INT:
  case ZIMLOKUR_K_ARRAY:
    printf(" %" PRIu64, payload.words[0]);
    break;
  case ZIMLOKUR_K_INT_CONST:
    show_ints(payload.words, 1);
    break;
  case ZIMLOKUR_K_SWITCH: /* the cases; how many there are shows */
    show_ints(payload.words + 1, payload.words[0]);
    break;
  case ZIMLOKUR_K_FLOAT_CONST:
    show_float(payload.words[0]);
    break;
  case ZIMLOKUR_K_NAMED:
  case ZIMLOKUR_K_LOCAL:
  case ZIMLOKUR_K_NAME:
    show_name(walk, "%", payload.words[0]);
    break;
  case ZIMLOKUR_K_GLOBAL:
  case ZIMLOKUR_K_HEAD:
    show_name(walk, "@", payload.words[0]);
    break;
  case ZIMLOKUR_K_CSTR:
    show_name(walk, "c", payload.words[0]);
    break;
  case ZIMLOKUR_K_PARAM: /* zero: a parameter without a name */
    if (payload.words[0] != 0)
      show_name(walk, "%", payload.words[0]);
    break;
  case ZIMLOKUR_K_BLOCK: /* zero: no label, and so its number is the counter where it begins */
    if (payload.words[0] != 0)
      show_name(walk, "", payload.words[0]);
    else
      printf(" number %" PRIu64, walk->counter);
    break;
  default:
    show_instruction(walk, payload);
  }
}

static void indent(unsigned level) { printf("%*s", (int)(2 * level), ""); }

/* The node at the handle's place, which must end at `end` or before; whether it is one. Its payload is what stands before its first child,
 * of a leaf all that is behind its header. */
static int find_node(struct handle handle, uint64_t end, struct node *node) {
  struct header header = header_of(handle.words[handle.at]);
  uint64_t payload = handle.at + 1;
  if (!kind_name(header.kind) || header.size == 0 || header.size > end - handle.at)
    return 0;
  node->header = header;
  node->end = handle.at + header.size;
  node->child = handle;
  if (to_child(&node->child) != (header.children > 0) || node->child.at >= node->end)
    return 0; /* children are counted, and the first one is not in there */
  node->payload.words = handle.words + payload;
  node->payload.length = (size_t)((header.children > 0 ? node->child.at : node->end) - payload);
  return is_payload(header.kind, node->payload);
}

static uint64_t show_node(struct walk *walk, struct handle handle, uint64_t end, unsigned level);

/* Nodes one behind the other, from the handle's place on: as many as `count` says, one at least, and the last one ends at `end`. */
static void show_nodes(struct walk *walk, struct handle handle, uint64_t end, size_t count, unsigned level) {
  uint64_t reached;
  size_t shown = 0;
  do {
    reached = show_node(walk, handle, end, level);
    if (reached == 0)
      return; /* that was said; where the next node begins is not known */
    shown++;
  } while (shown < count && to_next(&handle, end));
  if (shown < count || reached < end) {
    indent(level);
    printf("?");
    fault(walk, "count and words differ");
    putchar('\n');
  }
}

/* One node, which begins at the handle's place and must end at `end` or before; gives where it ends, 0 where it does not fit. */
static uint64_t show_node(struct walk *walk, struct handle handle, uint64_t end, unsigned level) {
  struct node node;
  const char *name = kind_name(header_of(handle.words[handle.at]).kind);
  indent(level);
  printf("%s", name ? name : "?");
  if (level > MOST_LEVELS || !find_node(handle, end, &node)) {
    fault(walk, "no node");
    putchar('\n');
    return 0;
  }
  show_detail(walk, node.header);
  show_payload(walk, node.header.kind, node.payload);
  putchar('\n');
  if (node.header.children > 0)
    show_nodes(walk, node.child, node.end, node.header.children, level + 1);
  return node.end;
}

static int is_inside(uint64_t start, uint64_t length, size_t all) { return start <= all && length <= all - start; }

/* A piece is one node; the tail has none. Gives the number of faults in it. */
static size_t show_piece(struct text cue, struct room room, uint64_t number) {
  struct piece piece = piece_of(room, number);
  struct walk walk = {{cue.bytes, 0}, piece.counter, 0};
  printf("piece %" PRIu64 " start %" PRIu64 " length %" PRIu64 " words %" PRIu64 " counter %" PRIu64, number, piece.start, piece.length,
         piece.words, piece.counter);
  if (!is_inside(piece.start, piece.length, cue.length) || !is_inside(piece.first_word, piece.words, room.words_length)) {
    fault(&walk, "outside text or words");
    putchar('\n');
    return walk.faults;
  }
  putchar('\n');
  walk.piece = (struct text){cue.bytes + piece.start, (size_t)piece.length};
  if (piece.words > 0)
    show_nodes(&walk, (struct handle){room.words + piece.first_word, (size_t)piece.words, 0}, piece.words, 1, 1);
  return walk.faults;
}

/* The tree of every piece; the status to end with. */
static int show_pieces(struct text cue, struct room room, uint64_t entries) {
  uint64_t count = entries_within(room, entries);
  size_t faults = 0;
  for (uint64_t number = 0; number < count; number++)
    faults += show_piece(cue, room, number);
  return faults > 0 || count < entries ? STATUS_REFUSED : STATUS_FINE;
}

static int show(struct text cue) {
  struct room room = {words, WORDS, directory, DIRECTORY_WORDS};
  struct answer answer = read_text(cue, room);
  if (answer.question) {
    explain_refusal(stdout, cue, answer.question, answer.place);
    return STATUS_REFUSED;
  }
  return show_pieces(cue, room, answer.entries);
}

int main(void) {
  struct text cue;
  int status = take_input("walk", stdin, "standard input", input, sizeof input, &cue);
  return status ? status : finish("walk", show(cue));
}
