/* The safety officer's command: what a table of rules says of each call to @fire in a cue, for each account class.
 *     target/rules TABLE [CUE]
 * TABLE is a plain text, one rule a line: CLASS FIRST LAST and yes or no, with blanks between. A class is 0 to 3, channels are 0 to 65535;
 * every class must have each channel in exactly one rule. Empty lines and lines that begin with # are skipped. CUE, or standard input, is a
 * function's text from behind the word `define`, or a file of LLVM IR as clang prints it, as `map` takes it.
 * A constant is taken as it is written: `call void @fire(i8 300)` is channel 300 to the table, while 44 is what fires. So there is a warning
 * below each call whose constant its type makes another one of, or whose type is no integer type. A warning changes no status.
 * Exits 0 if the table is not refused and every function is read, 1 if the table or a function is refused, 2 without a table or a function.
 * Answers and refusals are the library's, whose calls are proved; reading the table, finding the calls to show where they stand, and the
 * warnings are outside the proof.
 * cc -Iinclude examples/rules.c target/staticlib/libzimlokur.a -o target/rules */
#include "functions.h"

#include <errno.h>

/* The shortest line that is a rule, `0 0 0 no` and its end. */
enum { MOST_BYTES = 16777216, WORDS = 1 << 21, DIRECTORY_WORDS = 1 << 20, SHORTEST_RULE = 9, MOST_RULES = MOST_BYTES / SHORTEST_RULE + 1 };

enum { MOST_CLASS = UINT8_MAX, MOST_CHANNEL = UINT16_MAX };

/* One byte more than is taken, so that a longer file shows. */
static uint8_t table_bytes[MOST_BYTES + 1], input[MOST_BYTES + 1];
static struct zimlokur_rule rules[MOST_RULES];
static uint64_t words[WORDS], directory[DIRECTORY_WORDS];

struct table {
  struct text file;
  size_t length;
};

/* ---- the table ---- */

/* A line of the table, without its end; its number is counted from 1. */
struct line {
  struct text text;
  size_t number;
};

static int is_blank(uint8_t byte) { return byte == ' ' || byte == '\t' || byte == '\r'; }

static int is_digit(uint8_t byte) { return byte >= '0' && byte <= '9'; }

/* The line that begins at `at`, which is inside the file. */
static struct line line_at(struct text file, size_t at, size_t number) {
  const uint8_t *start = file.bytes + at, *end = memchr(start, '\n', file.length - at);
  return (struct line){{start, end ? (size_t)(end - start) : file.length - at}, number};
}

/* Where the line behind this one begins. */
static size_t behind_line(struct text file, struct line line) { return (size_t)(line.text.bytes - file.bytes) + line.text.length + 1; }

static struct text without_blanks(struct text text) {
  while (text.length > 0 && is_blank(text.bytes[0])) {
    text.bytes++;
    text.length--;
  }
  return text;
}

static int is_skipped(struct line line) {
  return without_blanks(line.text).length == 0 || line.text.bytes[0] == '#';
}

/* Takes the next word of a line, up to a blank. */
static struct text take_word(struct text *line) {
  struct text rest = without_blanks(*line), word = {rest.bytes, 0};
  while (word.length < rest.length && !is_blank(rest.bytes[word.length]))
    word.length++;
  *line = (struct text){rest.bytes + word.length, rest.length - word.length};
  return word;
}

static int is_word(struct text word, const char *wanted) {
  return word.length == strlen(wanted) && memcmp(word.bytes, wanted, word.length) == 0;
}

/* Takes a number up to the most that there may be. */
static int take_number(struct text *line, uint32_t most, uint32_t *number) {
  struct text word = take_word(line);
  *number = 0;
  for (size_t k = 0; k < word.length; k++) {
    if (!is_digit(word.bytes[k]))
      return 0;
    *number = 10 * *number + (uint32_t)(word.bytes[k] - '0');
    if (*number > most)
      return 0;
  }
  return word.length > 0;
}

static int take_allowed(struct text *line, uint8_t *allowed) {
  struct text word = take_word(line);
  *allowed = is_word(word, "yes");
  return *allowed || is_word(word, "no");
}

/* The rule of a line, if it is one. A class above 3 is left to the library, which refuses it. */
static int read_rule(struct text line, struct zimlokur_rule *rule) {
  uint32_t account_class, first, last;
  if (!take_number(&line, MOST_CLASS, &account_class) || !take_number(&line, MOST_CHANNEL, &first) ||
      !take_number(&line, MOST_CHANNEL, &last) || !take_allowed(&line, &rule->allowed))
    return 0;
  rule->account_class = (uint8_t)account_class;
  rule->first = (uint16_t)first;
  rule->last = (uint16_t)last;
  return without_blanks(line).length == 0;
}

static int complain_of_line(const char *name, size_t number) {
  fprintf(stderr, "rules: %s: line %zu: no rule: write CLASS FIRST LAST and yes or no, such as 0 100 199 yes\n", name, number);
  return STATUS_BAD_INPUT;
}

static int read_table(const char *name, struct table *table) {
  struct line line;
  size_t number = 1;
  table->length = 0;
  for (size_t at = 0; at < table->file.length; at = behind_line(table->file, line), number++) {
    line = line_at(table->file, at, number);
    if (is_skipped(line))
      continue;
    if (!read_rule(line.text, &rules[table->length]))
      return complain_of_line(name, number);
    table->length++;
  }
  return STATUS_FINE;
}

/* The line of a rule, by its number from 0. */
static struct line line_of_rule(const struct table *table, uint64_t rule) {
  struct line line = line_at(table->file, 0, 1);
  for (;;) {
    if (!is_skipped(line) && rule-- == 0)
      return line;
    if (behind_line(table->file, line) >= table->file.length)
      return line;
    line = line_at(table->file, behind_line(table->file, line), line.number + 1);
  }
}

/* ---- what the library is asked ---- */

/* A function that was read. */
struct function {
  struct text text;
  struct room room;
  uint64_t entries;
};

struct said {
  uint64_t question, place, answer;
};

static struct said ask(const struct table *table, uint64_t account_class, uint64_t number, const struct function *function) {
  struct said said;
  said.question = zimlokur_channel(rules, table->length, account_class, number, function->text.bytes, function->text.length,
                                   function->room.words, function->room.words_length, function->room.directory,
                                   function->room.directory_length, function->entries, &said.place, &said.answer);
  return said;
}

/* The table is judged before any function: one without anything will do. */
static struct said judge(const struct table *table) {
  static const struct function nothing = {{NULL, 0}, {NULL, 0, NULL, 0}, 0};
  return ask(table, 0, 0, &nothing);
}

static const char *answer_word(uint64_t answer) {
  switch (answer) {
  case ZIMLOKUR_ANSWER_NO:
    return "no";
  case ZIMLOKUR_ANSWER_YES:
    return "yes";
  case ZIMLOKUR_ANSWER_UNDECIDED:
    return "undecided";
  default:
    return "none";
  }
}

/* ---- a refused table ---- */

static int share_a_channel(struct zimlokur_rule one, struct zimlokur_rule other) {
  return one.account_class == other.account_class && one.first <= other.last && other.first <= one.last;
}

static void show_rule(const struct table *table, uint64_t rule) {
  struct line line = line_of_rule(table, rule);
  printf("rule %" PRIu64 " line %zu\n", rule, line.number);
  show_source(stdout, table->file, (uint64_t)(line.text.bytes - table->file.bytes));
}

/* The earlier rule of the pair: the first that shares a channel with the later one. */
static void show_earlier(const struct table *table, uint64_t later) {
  uint64_t earlier = 0;
  while (earlier < later && !share_a_channel(rules[earlier], rules[later]))
    earlier++;
  fputs("The earlier one: ", stdout);
  show_rule(table, earlier);
}

static int show_refused_table(const struct table *table, struct said said) {
  printf("refused %" PRIu64 " ", said.question);
  if (said.question == ZIMLOKUR_Q_GAP)
    printf("class %" PRIu64 " channel %" PRIu64 "\n", said.place / (ZIMLOKUR_CHANNEL_LIMIT + 1), said.place % (ZIMLOKUR_CHANNEL_LIMIT + 1));
  else
    show_rule(table, said.place);
  printf("%s\n", sentence_of(said.question));
  if (said.question == ZIMLOKUR_Q_OVERLAP)
    show_earlier(table, said.place);
  return STATUS_REFUSED;
}

/* ---- the calls of a function ---- */

/* A node by its own words: as many as its header says, and no more than there are. */
struct node {
  const uint64_t *words;
  size_t length;
};

static uint64_t word_of(struct node node, uint64_t at) { return at < node.length ? node.words[at] : 0; }
static unsigned kind_of(uint64_t header) { return (unsigned)(header >> 56); }
static unsigned detail_of(uint64_t header) { return (unsigned)(header >> 48) & 255; }
static unsigned children_of(uint64_t header) { return (unsigned)(header >> 32) & 65535; }

static struct node node_at(struct node in, uint64_t at) {
  size_t start = (size_t)(at < in.length ? at : in.length);
  return (struct node){in.words + start, least((size_t)lower(word_of(in, at)), in.length - start)};
}

static int first_child(struct node node, uint64_t *at) { return zimlokur_child(node.words, node.length, 0, at) == 1; }
static int next_child(struct node node, uint64_t *at) { return zimlokur_next(node.words, node.length, *at, node.length, at) == 1; }

static unsigned hex_digit(uint8_t byte) {
  static const char digits[] = "0123456789abcdef";
  const char *found = byte ? strchr(digits, byte >= 'A' && byte <= 'F' ? byte - 'A' + 'a' : byte) : NULL;
  return found ? (unsigned)(found - digits) : 0;
}

/* Takes a byte of a name in quotes, escapes undone: two backslashes are one, and two digits behind one are that byte. */
static unsigned take_byte(struct text *rest) {
  const uint8_t *bytes = rest->bytes;
  size_t taken = bytes[0] != '\\' ? 1 : rest->length > 1 && bytes[1] == '\\' ? 2 : least(3, rest->length);
  rest->bytes += taken;
  rest->length -= taken;
  return taken < 3 ? bytes[0] : 16 * hex_digit(bytes[1]) + hex_digit(bytes[2]);
}

/* Whether a name is `fire`, quotes and escapes undone. */
static int is_fire(struct text name) {
  static const char fire[] = "fire";
  if (name.length < 2 || name.bytes[0] != '"')
    return is_word(name, fire);
  struct text inner = {name.bytes + 1, name.length - 2};
  for (size_t k = 0; fire[k]; k++)
    if (inner.length == 0 || take_byte(&inner) != (unsigned)fire[k])
      return 0;
  return inner.length == 0;
}

/* A call to @fire: where the callee's name stands in the function's text, and the type and value of the first argument; without words if
 * there is none. */
struct fire {
  uint64_t place;
  struct node type, value;
};

/* Whether a call's node is one to @fire. Its children are the returned type, a function type if its detail says so, the callee, and then
 * type and value of each argument. */
static int find_fire(struct node call, struct text text, struct text piece, struct fire *fire) {
  uint64_t at, start, length;
  int found = kind_of(word_of(call, 0)) == ZIMLOKUR_K_CALL && first_child(call, &at) && next_child(call, &at);
  if (found && detail_of(word_of(call, 0)) & ZIMLOKUR_D_FUNCTION_TYPE)
    found = next_child(call, &at);
  if (!found || kind_of(word_of(call, at)) != ZIMLOKUR_K_GLOBAL)
    return 0;
  if (!zimlokur_name(piece.bytes, piece.length, word_of(call, at + 1), &start, &length) ||
      !is_fire((struct text){piece.bytes + start, (size_t)length}))
    return 0;
  fire->place = (uint64_t)(piece.bytes - text.bytes) + start;
  fire->type = fire->value = (struct node){NULL, 0};
  if (next_child(call, &at)) {
    fire->type = node_at(call, at);
    if (next_child(call, &at))
      fire->value = node_at(call, at);
  }
  return 1;
}

/* ---- numbers of 128 bits ---- */

struct number {
  uint64_t upper, lower;
};

static int is_negative(struct number number) { return number.upper >> 63 != 0; }

static struct number negated(struct number number) {
  struct number result = {~number.upper + (number.lower == 0), ~number.lower + 1};
  return result;
}

/* What is left modulo two to the width. */
static struct number modulo(struct number number, uint64_t width) {
  if (width < 64)
    return (struct number){0, number.lower & ((UINT64_C(1) << width) - 1)};
  if (width < 128)
    return (struct number){number.upper & ((UINT64_C(1) << (width - 64)) - 1), number.lower};
  return number;
}

/* Divides by ten and gives the digit that is left. */
static unsigned take_digit(struct number *number) {
  uint32_t parts[4] = {(uint32_t)upper(number->upper), (uint32_t)number->upper, (uint32_t)upper(number->lower), (uint32_t)number->lower};
  uint64_t left = 0;
  for (size_t k = 0; k < 4; k++) {
    left = left << 32 | parts[k];
    parts[k] = (uint32_t)(left / 10);
    left %= 10;
  }
  number->upper = (uint64_t)parts[0] << 32 | parts[1];
  number->lower = (uint64_t)parts[2] << 32 | parts[3];
  return (unsigned)left;
}

static void print_unsigned(struct number number) {
  char digits[40];
  size_t first = sizeof digits;
  do
    digits[--first] = (char)('0' + take_digit(&number));
  while (number.upper || number.lower);
  fwrite(digits + first, 1, sizeof digits - first, stdout);
}

static void print_signed(struct number number) {
  if (is_negative(number))
    putchar('-');
  print_unsigned(is_negative(number) ? negated(number) : number);
}

/* ---- what is shown ---- */

/* The first argument is an integer constant: a node of that kind with its two words. */
static int is_constant(const struct fire *fire) { return kind_of(word_of(fire->value, 0)) == ZIMLOKUR_K_INT_CONST; }

static struct number constant_of(const struct fire *fire) { return (struct number){word_of(fire->value, 1), word_of(fire->value, 2)}; }

/* What fires is the constant modulo two to its type's width. A negative one of a wider type than 128 bits is written as a difference. */
static void print_fired(struct number number, uint64_t width) {
  if (width <= 128) {
    print_unsigned(modulo(number, width));
    return;
  }
  printf("2^%" PRIu64 " - ", width);
  print_unsigned(negated(number));
}

/* The line below a call whose constant is not what fires. */
static void warn(const struct fire *fire) {
  struct number number = constant_of(fire), left;
  uint64_t width = word_of(fire->type, 1);
  if (!is_constant(fire))
    return;
  if (kind_of(word_of(fire->type, 0)) != ZIMLOKUR_K_INT) {
    fputs("  warning: the type of the constant ", stdout);
    print_signed(number);
    puts(" is no integer type: what fires is not known");
    return;
  }
  left = modulo(number, width);
  if (left.upper == number.upper && left.lower == number.lower && !is_negative(number))
    return;
  printf("  warning: i%" PRIu64 " ", width);
  print_signed(number);
  fputs(" fires ", stdout);
  print_fired(number, width);
  fputs(", not ", stdout);
  print_signed(number);
  putchar('\n');
}

static void show_channel(const struct fire *fire) {
  struct number number = constant_of(fire);
  if (is_constant(fire) && number.upper == 0 && number.lower <= ZIMLOKUR_CHANNEL_LIMIT)
    printf(" %8" PRIu64 " ", number.lower);
  else
    printf(" %8s ", "-");
}

/* One row: where the call stands, its number, its channel, and the answer for each class. Whether the library knows the call. */
static int show_row(const struct table *table, struct text whole, const struct function *function, const struct fire *fire, uint64_t number) {
  uint64_t line, column;
  int known = 1;
  zimlokur_position(whole.bytes, whole.length, (uint64_t)(function->text.bytes - whole.bytes) + fire->place, &line, &column);
  printf("%8" PRIu64 " %6" PRIu64, line, number);
  show_channel(fire);
  for (uint64_t account_class = 0; account_class <= ZIMLOKUR_CLASS_LIMIT; account_class++) {
    struct said said = ask(table, account_class, number, function);
    const char *word = answer_word(said.answer);
    printf(account_class < ZIMLOKUR_CLASS_LIMIT ? " %-10s" : " %s\n", word);
    known = known && said.question == 0 && said.answer != ZIMLOKUR_ANSWER_NONE;
  }
  warn(fire);
  return known;
}

static void show_heading(uint64_t number) {
  if (number == 0)
    printf("%8s %6s %8s  %-10s %-10s %-10s %s\n", "line", "call", "channel", "class 0", "class 1", "class 2", "class 3");
}

/* The part of the text that a piece is, as far as there is text. */
static struct text text_of(struct text text, struct piece piece) {
  size_t start = least((size_t)piece.start, text.length);
  return (struct text){text.bytes + start, least((size_t)piece.length, text.length - start)};
}

/* The rows of a block. Whether the library knows each call. */
static int show_block(const struct table *table, struct text whole, const struct function *function, struct node block, struct text piece,
                      uint64_t *number) {
  uint64_t at;
  int known = 1, there = first_child(block, &at);
  for (unsigned left = children_of(word_of(block, 0)); left > 0 && there; left--, there = next_child(block, &at)) {
    struct fire fire;
    if (!find_fire(node_at(block, at), function->text, piece, &fire))
      continue;
    show_heading(*number);
    known &= show_row(table, whole, function, &fire, *number);
    ++*number;
  }
  return known;
}

/* The rows of a function. The last piece is the tail, which has no words. The library must know just the calls that were found. */
static int show_calls(const struct table *table, struct text whole, const struct function *function) {
  struct node rest = {function->room.words, function->room.words_length};
  uint64_t number = 0, count = entries_within(function->room, function->entries);
  size_t ended = node_at(rest, 0).length;
  int known = 1;
  for (uint64_t k = 1; k + 1 < count; k++) {
    struct node block = node_at(rest, ended);
    known &= show_block(table, whole, function, block, text_of(function->text, piece_of(function->room, k)), &number);
    ended += block.length;
  }
  if (number == 0)
    puts("  no call to @fire");
  if (known && ask(table, 0, number, function).answer == ZIMLOKUR_ANSWER_NONE)
    return STATUS_FINE;
  puts("  the calls found here are not those that the library answers for");
  return STATUS_REFUSED;
}

/* The line that says which function follows: where its name stands. */
static void show_name(struct text whole, const struct function *function) {
  struct text head = text_of(function->text, piece_of(function->room, 0));
  uint64_t start, length, line, column;
  zimlokur_name(head.bytes, head.length, function->room.words[1], &start, &length);
  zimlokur_position(whole.bytes, whole.length, (uint64_t)(head.bytes - whole.bytes) + start, &line, &column);
  printf("line %" PRIu64 " @", line);
  for (uint64_t k = 0; k < length; k++)
    show_source_byte(stdout, head.bytes[start + k]);
  putchar('\n');
}

/* Room for a text of that length: what is lent is made zero by each reading, so no more than the text can need. */
static struct room lend_for(size_t bytes) {
  struct room room = {words, least(enough_words(bytes), WORDS), directory, least(enough_directory(bytes), DIRECTORY_WORDS)};
  return room;
}

/* One function, whose text is a part of the cue. */
static int show_function(const struct table *table, struct text whole, struct text text) {
  struct function function = {text, lend_for(text.length), 0};
  struct answer answer = read_function(&function.text, function.room, read_text);
  if (answer.question) {
    explain_refusal(stdout, whole, answer.question, (uint64_t)(text.bytes - whole.bytes) + answer.place);
    return STATUS_REFUSED;
  }
  function.entries = answer.entries;
  show_name(whole, &function);
  return show_calls(table, whole, &function);
}

static int show_file(const struct table *table, struct text file, const char *name) {
  size_t at = next_define(file, 0), end;
  int status = STATUS_FINE;
  if (at == file.length)
    return complain("rules", name, "no line starts with define");
  for (; at < file.length; at = end) {
    end = next_define(file, at + DEFINE_LENGTH);
    if (show_function(table, file, behind_define(file, at, end)))
      status = STATUS_REFUSED;
  }
  return status;
}

/* A file that is named, or standard input. */
static int take_file(const char *name, uint8_t *buffer, size_t size, struct text *text) {
  FILE *stream = name ? fopen(name, "rb") : stdin;
  int status;
  if (!stream)
    return complain("rules", name, strerror(errno));
  status = take_input("rules", stream, name ? name : "standard input", buffer, size, text);
  if (name)
    fclose(stream);
  return status;
}

static int show_cue(const struct table *table, const char *name) {
  struct text whole;
  int status = take_file(name, input, sizeof input, &whole);
  if (status)
    return status;
  return is_file(whole) ? show_file(table, whole, name ? name : "standard input") : show_function(table, whole, whole);
}

static int run(const char *table_name, const char *cue_name) {
  struct table table;
  struct said said;
  int status = take_file(table_name, table_bytes, sizeof table_bytes, &table.file);
  if (!status)
    status = read_table(table_name, &table);
  if (status)
    return status;
  said = judge(&table);
  return said.question ? show_refused_table(&table, said) : show_cue(&table, cue_name);
}

int main(int count, char **arguments) {
  if (count != 2 && count != 3)
    return complain("rules", "usage", "rules TABLE [CUE]; a rule is a line CLASS FIRST LAST and yes or no");
  return finish("rules", run(arguments[1], count == 3 ? arguments[2] : NULL));
}
