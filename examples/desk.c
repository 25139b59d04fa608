/* A desk command: takes a file of LLVM IR as clang prints it (clang -O2 -S -emit-llvm), reads each function in it, and prints its name and
 * pieces, or where it is refused. What it does around the library's calls is outside the proof.
 * Exits 0 if every function is accepted and, with --check, holds every check; 1 if one does not; 2 without a function.
 * cc -Iinclude examples/desk.c target/staticlib/libzimlokur.a -o target/desk */
#include "checks.h"
#include "functions.h"

#include <errno.h>

static const char usage[] = "usage: desk [--check] FILE.ll\n"
                            "Reads each function of the file and prints its name and its list of pieces, or where it is refused, with a\n"
                            "sentence that says why; place, line and column are those of the whole file.\n"
                            "--check runs the four checks on each function: every cut, rooms one word too small, the list of pieces, every\n"
                            "digit changed to every other. A function of more than 65,536 bytes is not checked.\n"
                            "A function begins at a line that starts with the word define, and ends before the next such line; its pieces\n"
                            "are counted from behind that word, as a controller counts them.\n"
                            "This program is outside the proof: finding the functions in the file is not proved, nor is what it prints.\n"
                            "Proved are the calls that read one function.\n";

enum { MOST_BYTES = 16777216, WORDS = 1 << 21, DIRECTORY_WORDS = 1 << 20 };

/* A longer function would be checked for hours. */
enum { MOST_CHECKED = 65536, CHECK_WORDS = 2 * MOST_CHECKED + 64, CHECK_DIRECTORY = MOST_CHECKED + 64 };

/* One byte more than is taken, so that a longer file shows. */
static uint8_t input[MOST_BYTES + 1], edited[MOST_CHECKED];
static uint64_t kept_words[WORDS], again_words[CHECK_WORDS], fresh_words[CHECK_WORDS];
static uint64_t kept_directory[DIRECTORY_WORDS], again_directory[CHECK_DIRECTORY], fresh_directory[CHECK_DIRECTORY];

struct counts {
  size_t functions, accepted, failed, unchecked;
};

/* Rooms for a text of that length, without the last word of each array. What is lent is made zero by each reading, so no more than the
 * text can need. */
static struct bench lend_for(size_t bytes) {
  size_t words = least(enough_words(bytes) + SPARE, WORDS - 1), directory = least(enough_directory(bytes) + SPARE, DIRECTORY_WORDS - 1);
  struct bench bench = {{kept_words, words, kept_directory, directory},
                        {again_words, CHECK_WORDS - 1, again_directory, CHECK_DIRECTORY - 1},
                        {fresh_words, CHECK_WORDS - 1, fresh_directory, CHECK_DIRECTORY - 1},
                        edited};
  return bench;
}

/* The name that the head's first payload word names: its start is counted from the piece, which begins with the text. */
static struct text name_in_head(struct text text, struct room room) {
  uint64_t name = room.words[1];
  struct text none = {text.bytes, 0};
  if (upper(name) > text.length || lower(name) > text.length - upper(name))
    return none;
  return (struct text){text.bytes + upper(name), (size_t)lower(name)};
}

/* Of a refused function there are no records: the name is guessed, from the first `@` of its line to the parenthesis behind. */
static struct text name_in_line(struct text text) {
  size_t start = 0, end;
  while (start < text.length && text.bytes[start] != '@' && text.bytes[start] != '\n')
    start++;
  start += start < text.length && text.bytes[start] == '@';
  end = start;
  while (end < text.length && text.bytes[end] != '(' && text.bytes[end] != '\n')
    end++;
  return (struct text){text.bytes + start, end - start};
}

/* The line that says which function follows. */
static void show_function(struct text file, size_t at, struct text name) {
  uint64_t line, column;
  zimlokur_position(file.bytes, file.length, at, &line, &column);
  printf("line %" PRIu64 " @", line);
  for (size_t k = 0; k < name.length; k++)
    show_source_byte(stdout, name.bytes[k]);
  putchar('\n');
}

/* A refusal in the file's own places. */
static void show_refusal(struct text file, struct text text, struct answer answer) {
  explain_refusal(stdout, file, answer.question, (uint64_t)(text.bytes - file.bytes) + answer.place);
  if (answer.question == ZIMLOKUR_Q_WORDS || answer.question == ZIMLOKUR_Q_ENTRIES)
    printf("This program lends at most %d words and %d directory words.\n", WORDS - 1, DIRECTORY_WORDS - 1);
}

/* The checks of a function that is accepted. */
static void check_function(struct text text, const struct bench *bench, uint64_t entries, struct counts *counts) {
  if (text.length <= MOST_CHECKED) {
    counts->failed += !check_all(text, bench, entries);
    return;
  }
  list_pieces(bench->kept, entries);
  printf("not checked: longer than %d bytes\n", MOST_CHECKED);
  counts->unchecked++;
}

/* The function whose text begins behind the word at `at`. */
static void show_one(struct text file, size_t at, size_t end, int check, struct counts *counts) {
  struct text text = behind_define(file, at, end);
  struct bench bench = lend_for(text.length);
  struct answer answer = read_function(&text, bench.kept, read_stained);
  counts->functions++;
  if (answer.question) {
    show_function(file, at, name_in_line(text));
    show_refusal(file, text, answer);
    return;
  }
  counts->accepted++;
  show_function(file, at, name_in_head(text, bench.kept));
  text.length = least(cue_end(bench.kept, answer.entries), text.length);
  if (check)
    check_function(text, &bench, answer.entries, counts);
  else
    list_pieces(bench.kept, answer.entries);
}

static int show_file(struct text file, const char *name, int check) {
  struct counts counts = {0, 0, 0, 0};
  for (size_t at = next_define(file, 0), end; at < file.length; at = end) {
    end = next_define(file, at + DEFINE_LENGTH);
    show_one(file, at, end, check, &counts);
  }
  if (counts.functions == 0)
    return complain("desk", name, "no line starts with define");
  printf("functions %zu accepted %zu refused %zu\n", counts.functions, counts.accepted, counts.functions - counts.accepted);
  if (check)
    printf("checked %zu failed %zu not checked %zu\n", counts.accepted - counts.unchecked, counts.failed, counts.unchecked);
  return counts.accepted < counts.functions || counts.failed > 0 || counts.unchecked > 0 ? STATUS_REFUSED : STATUS_FINE;
}

static int show_named(const char *name, int check) {
  struct text file;
  int status;
  FILE *stream = fopen(name, "rb");
  if (!stream)
    return complain("desk", name, strerror(errno));
  status = take_input("desk", stream, name, input, sizeof input, &file);
  fclose(stream);
  return status ? status : finish("desk", show_file(file, name, check));
}

int main(int count, char **arguments) {
  int check = count > 1 && strcmp(arguments[1], "--check") == 0;
  if (count == 2 && strcmp(arguments[1], "--help") == 0) {
    fputs(usage, stdout);
    return finish("desk", STATUS_FINE);
  }
  if (count != 2 + check)
    return complain("desk", "usage", "desk [--check] FILE.ll; desk --help says more");
  return show_named(arguments[1 + check], check);
}
