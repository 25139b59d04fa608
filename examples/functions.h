/* Functions in a file of LLVM IR as clang prints it: each begins at a line that starts with the word define, and ends before the next such
 * line. Finding them is outside the proof. */
#ifndef EXAMPLES_FUNCTIONS_H
#define EXAMPLES_FUNCTIONS_H

#include "common.h"

#define DEFINE "define"
enum { DEFINE_LENGTH = sizeof DEFINE - 1 };

static inline int is_name_byte(uint8_t byte) {
  static const char others[] = {'-', '$', '.', '_'};
  return (byte >= 'a' && byte <= 'z') || (byte >= 'A' && byte <= 'Z') || (byte >= '0' && byte <= '9') ||
         memchr(others, byte, sizeof others) != NULL;
}

/* Whether the word stands at `at`, and there a line starts. Longer words that begin so are others, and `define:` is a label of a block. */
static inline int is_define(struct text file, size_t at) {
  size_t behind = at + DEFINE_LENGTH;
  if (behind > file.length || memcmp(file.bytes + at, DEFINE, DEFINE_LENGTH) != 0)
    return 0;
  if (at > 0 && file.bytes[at - 1] != '\n')
    return 0;
  return behind == file.length || (file.bytes[behind] != ':' && !is_name_byte(file.bytes[behind]));
}

/* The next place from `at` on where the word stands, the file's end if there is none. */
static inline size_t next_define(struct text file, size_t at) {
  while (at < file.length && !is_define(file, at))
    at++;
  return at;
}

/* Whether a text is such a file: it begins with the word, or with the comment that clang prints first. Any other is one function's text. */
static inline int is_file(struct text whole) {
  static const char first[] = "; ModuleID";
  size_t length = sizeof first - 1;
  return is_define(whole, 0) || (whole.length >= length && memcmp(whole.bytes, first, length) == 0);
}

/* The text from behind the word at `at` up to the next one, which stands at `end`. */
static inline struct text behind_define(struct text file, size_t at, size_t end) {
  return (struct text){file.bytes + at + DEFINE_LENGTH, end - at - DEFINE_LENGTH};
}

static inline size_t least(size_t left, size_t right) { return left < right ? left : right; }

/* What stands between two functions is not the first one's fault: where a byte above 127 refuses, the text before that byte may hold the
 * whole function. */
static inline struct answer read_function(struct text *text, struct room room, struct answer (*read)(struct text, struct room)) {
  struct answer answer = read(*text, room);
  struct text before = {text->bytes, (size_t)answer.place};
  struct answer shorter;
  if (answer.question != ZIMLOKUR_Q_ASCII)
    return answer;
  shorter = read(before, room);
  if (shorter.question != 0)
    return answer;
  *text = before;
  return shorter;
}

#endif
