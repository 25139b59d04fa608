/* Answers lists of vectors anew: lines of the form that vectors/README.md tells, from standard input or from the file that is named. Of a
 * line only the text is used: it is read in full, and printed again from its bytes, with the answer in the same form. So what must come out
 * is what went in, and the answers compared with are not this program's.
 * Exits 0 if every line had an answer, 1 if one had none, 2 if there was no line or no way to read or write.
 * cc -Iinclude examples/replay.c target/staticlib/libzimlokur.a -o target/replay */
#include "zimlokur.h"

#include <errno.h>
#include <inttypes.h>
#include <stdio.h>
#include <string.h>

/* Two digits of a line are one byte of its text. */
enum { LINE_BYTES = 4096, TEXT_BYTES = LINE_BYTES / 2, WORDS = 2048, DIRECTORY_WORDS = 512 };

struct line {
  char bytes[LINE_BYTES];
  size_t length;
};

struct text {
  uint8_t bytes[TEXT_BYTES];
  size_t length;
};

static uint64_t words[WORDS];
static uint64_t directory[DIRECTORY_WORDS];

/* The next line, without its line feed; 0 behind the last one. Of a line that is too long only the length tells: it is more than fits. */
static int next_line(FILE *input, struct line *line) {
  int byte;
  line->length = 0;
  while ((byte = getc(input)) != EOF && byte != '\n') {
    if (line->length < LINE_BYTES)
      line->bytes[line->length] = (char)byte;
    if (line->length <= LINE_BYTES)
      line->length++;
  }
  return byte != EOF || line->length > 0;
}

/* The value of a digit as the lists write it, -1 for any other byte. */
static int digit(char byte) {
  static const char digits[] = "0123456789abcdef";
  const char *at = memchr(digits, byte, sizeof digits - 1);
  return at ? (int)(at - digits) : -1;
}

/* The text that a line's first field stands for; 0 if it stands for none. */
static int decode(const struct line *line, struct text *text) {
  const char *space = memchr(line->bytes, ' ', line->length);
  size_t length = space ? (size_t)(space - line->bytes) : line->length;
  text->length = 0;
  if (length == 1 && line->bytes[0] == '-')
    return 1;
  if (length == 0 || length % 2 != 0)
    return 0;
  for (size_t k = 0; k < length; k += 2) {
    int high = digit(line->bytes[k]), low = digit(line->bytes[k + 1]);
    if (high < 0 || low < 0)
      return 0;
    text->bytes[text->length++] = (uint8_t)(high * 16 + low);
  }
  return 1;
}

static void show_text(const struct text *text) {
  if (text->length == 0)
    putchar('-');
  for (size_t k = 0; k < text->length; k++)
    printf("%02x", text->bytes[k]);
}

/* The first `count` words, as far as the array goes. */
static void show_words(const uint64_t *array, uint64_t count, size_t length) {
  putchar(' ');
  for (size_t k = 0; k < count && k < length; k++)
    printf("%s%" PRIx64, k > 0 ? "," : "", array[k]);
}

/* Where the words of the last piece end. The count is not believed: a wrong one shall show in what is printed, not end the program. */
static uint64_t words_of_all(uint64_t entries) {
  uint64_t last;
  if (entries == 0 || entries > DIRECTORY_WORDS / ZIMLOKUR_ENTRY_WORDS)
    return 0;
  last = directory[ZIMLOKUR_ENTRY_WORDS * (entries - 1) + 1];
  return (last >> 32) + (last & UINT32_MAX);
}

/* Whether every word from `first` on is 0; if not, a mark that no list has. */
static int rest_is_zero(const uint64_t *array, uint64_t first, size_t length) {
  for (size_t k = first < length ? (size_t)first : length; k < length; k++)
    if (array[k] != 0) {
      printf(" dirty");
      return 0;
    }
  return 1;
}

/* The answer to a text; whether the arrays are 0 wherever they must be. Every bit is set before, so that each zero is the reader's. */
static int answer(const struct text *text) {
  uint64_t place, entries, words_count = 0, directory_count = 0;
  int zero;
  memset(words, 0xFF, sizeof words);
  memset(directory, 0xFF, sizeof directory);
  uint64_t question = zimlokur_parse_define(text->bytes, text->length, words, WORDS, directory, DIRECTORY_WORDS, &place, &entries);
  if (question) {
    printf(" R %" PRIu64 " %" PRIu64, question, place);
  } else {
    words_count = words_of_all(entries);
    directory_count = ZIMLOKUR_ENTRY_WORDS * entries;
    printf(" A %" PRIu64, entries);
    show_words(words, words_count, WORDS);
    show_words(directory, directory_count, DIRECTORY_WORDS);
  }
  zero = rest_is_zero(words, words_count, WORDS);
  zero &= rest_is_zero(directory, directory_count, DIRECTORY_WORDS);
  putchar('\n');
  return zero;
}

/* One line anew; whether it had an answer. */
static int again(const struct line *line) {
  static struct text text;
  if (line->length > LINE_BYTES) {
    puts("too long");
    return 0;
  }
  if (!decode(line, &text)) {
    puts("no text");
    return 0;
  }
  show_text(&text);
  return answer(&text);
}

static int fail(const char *what, const char *why) {
  fprintf(stderr, "replay: %s: %s\n", what, why);
  return 2;
}

static int replay(FILE *input, const char *name) {
  static struct line line;
  uint64_t lines = 0, unanswered = 0;
  while (next_line(input, &line)) {
    lines++;
    unanswered += !again(&line);
  }
  if (ferror(input))
    return fail(name, "cannot be read");
  if (fflush(stdout) || ferror(stdout))
    return fail("standard output", "cannot be written");
  if (lines == 0)
    return fail(name, "no line");
  if (unanswered > 0)
    fprintf(stderr, "replay: %s: no answer to %" PRIu64 " of %" PRIu64 " lines\n", name, unanswered, lines);
  return unanswered > 0;
}

int main(int count, char **arguments) {
  FILE *input;
  int status;
  if (count > 2)
    return fail("usage", "replay [FILE]");
  if (count < 2)
    return replay(stdin, "standard input");
  input = fopen(arguments[1], "rb");
  if (!input)
    return fail(arguments[1], strerror(errno));
  status = replay(input, arguments[1]);
  fclose(input);
  return status;
}
