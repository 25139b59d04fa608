/* The stage manager's block map: a cue on standard input, its map for Graphviz on standard output.
 *     target/map <cue.ll | dot -Tsvg >cue.svg
 * Standard input has a function's text from behind the word `define`, or a file of LLVM IR as clang prints it (clang -O1 -S -emit-llvm). A
 * file begins with the comment `; ModuleID` or with the word define; each function in it gets a map, one behind the other, which Graphviz
 * takes for so many pictures (`dot -Tsvg -O` writes a file for each). Standard output has maps and nothing else. A function that is refused
 * has none; where and why is said on standard error.
 * Exits 0 if every function has its map, 1 if one is refused, 2 without a function. What it does around the library's calls is outside the
 * proof.
 * cc -Iinclude examples/map.c target/staticlib/libzimlokur.a -o target/map */
#include "functions.h"

enum { MOST_BYTES = 16777216, WORDS = 1 << 21, DIRECTORY_WORDS = 1 << 20 };

/* A map can be longer than its cue by far: an edge line begins with its block's name, so a label of n bytes that a switch leaves by k cases
 * stands there k times, and a byte of a name becomes up to 4. A cue of 65,536 bytes can have a map of more than 200,000,000. So no room
 * below the library's own limit is enough for every cue, and with that limit only a map is refused that is longer than any may be. Most are
 * short: the first try is lent less, since all that is lent is made zero. */
enum { MAP_BYTES = 16777216, SHORT_MAP_BYTES = 65536 };

/* One byte more than is taken, so that a longer input shows. */
static uint8_t input[MOST_BYTES + 1];
static uint64_t words[WORDS], directory[DIRECTORY_WORDS];
static uint8_t map[MAP_BYTES];

/* Room for a text of that length: what is lent is made zero by each reading, so no more than the text can need. */
static struct room lend_for(size_t bytes) {
  struct room room = {words, least(enough_words(bytes), WORDS), directory, least(enough_directory(bytes), DIRECTORY_WORDS)};
  return room;
}

/* The map of a text that was accepted, in a buffer of that size. */
static uint64_t map_in(size_t size, struct text text, struct room room, uint64_t entries, uint64_t *length) {
  uint64_t place;
  return zimlokur_block_map(text.bytes, text.length, room.words, room.words_length, room.directory, room.directory_length, entries, map,
                            size, &place, length);
}

/* Prints the map of a text that was accepted; the question that refuses, 0 where none does. */
static uint64_t print_map(struct text text, struct room room, uint64_t entries) {
  uint64_t length, question = map_in(SHORT_MAP_BYTES, text, room, entries, &length);
  if (question)
    question = map_in(MAP_BYTES, text, room, entries, &length);
  if (!question)
    fwrite(map, 1, (size_t)length, stdout);
  return question;
}

/* The map of one function, whose text is a part of the input; the status to end with. A map that is too long is refused where the function
 * begins. */
static int show_function(struct text whole, struct text text) {
  struct room room = lend_for(text.length);
  struct answer answer = read_function(&text, room, read_text);
  if (!answer.question)
    answer.question = print_map(text, room, answer.entries);
  if (!answer.question)
    return STATUS_FINE;
  explain_refusal(stderr, whole, answer.question, (uint64_t)(text.bytes - whole.bytes) + answer.place);
  return STATUS_REFUSED;
}

static int show_file(struct text file) {
  size_t at = next_define(file, 0), end;
  int status = STATUS_FINE;
  if (at == file.length)
    return complain("map", "standard input", "no line starts with define");
  for (; at < file.length; at = end) {
    end = next_define(file, at + DEFINE_LENGTH);
    if (show_function(file, behind_define(file, at, end)))
      status = STATUS_REFUSED;
  }
  return status;
}

int main(void) {
  struct text whole;
  int status = take_input("map", stdin, "standard input", input, sizeof input, &whole);
  return status ? status : finish("map", is_file(whole) ? show_file(whole) : show_function(whole, whole));
}
