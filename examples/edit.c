/* An afternoon of edits. Standard input has texts with a byte 0 between them. The first is read in full; each other one is read again in the
 * same arrays, as an edit of the last text that was accepted. Prints for each of those which pieces were read again, or where it is refused,
 * and in the end the listing of the pieces of the last accepted text. Exits 0, refused texts or none; 2 without two texts that fit.
 * cc -Iinclude examples/edit.c target/staticlib/libzimlokur.a -o target/edit */
#include "common.h"

enum { MOST_BYTES = 131072, WORDS = 8192, DIRECTORY_WORDS = 2048 };

/* One byte more than is taken, so that a longer input shows. */
static uint8_t input[MOST_BYTES + 1];
static uint64_t words[WORDS];
static uint64_t directory[DIRECTORY_WORDS];

/* The text from there on, up to the next byte 0 or the input's end. */
static struct text text_at(size_t start, size_t length) {
  const uint8_t *from = input + start, *end = memchr(from, 0, length - start);
  struct text text = {from, end ? (size_t)(end - from) : length - start};
  return text;
}

/* A refused edit leaves the arrays as they were: they still hold the records of the last accepted text, and the next edit is one of that. */
static uint64_t edits_of(struct text last, struct room room, uint64_t entries, size_t length) {
  size_t start = last.length + 1;
  while (start <= length) {
    struct text newer = text_at(start, length);
    struct edit edit = reread_text(last, newer, room, entries);
    if (edit.answer.question) {
      refusal_line(stdout, newer, edit.answer.question, edit.answer.place);
    } else {
      printf("first %" PRIu64 " read %" PRIu64 "\n", edit.first, edit.read);
      last = newer;
      entries = edit.answer.entries;
    }
    start += newer.length + 1;
  }
  return entries;
}

static void afternoon(size_t length) {
  struct room room = {words, WORDS, directory, DIRECTORY_WORDS};
  struct text first = text_at(0, length);
  struct answer answer = read_text(first, room);
  if (answer.question) {
    printf("older ");
    refusal_line(stdout, first, answer.question, answer.place);
    return;
  }
  list_pieces(room, edits_of(first, room, answer.entries, length));
}

/* Gives the status to end with. */
static int afternoon_of(size_t length) {
  if (length > MOST_BYTES) {
    puts("too long");
    return STATUS_BAD_INPUT;
  }
  if (!memchr(input, 0, length)) {
    puts("no newer text");
    return STATUS_BAD_INPUT;
  }
  afternoon(length);
  return STATUS_FINE;
}

int main(void) {
  size_t length = fread(input, 1, sizeof input, stdin);
  if (ferror(stdin))
    return complain("edit", "standard input", "cannot be read");
  return finish("edit", afternoon_of(length));
}
