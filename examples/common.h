/* What the programs over the library share: a text and what is lent for it, the list of pieces, a refusal as people read it, and how a
 * program ends. Header only, so that each program is one file to compile. */
#ifndef EXAMPLES_COMMON_H
#define EXAMPLES_COMMON_H

#include "sentences.h"
#include "zimlokur.h"

#include <inttypes.h>
#include <stdio.h>
#include <string.h>

/* How a program ends: as hoped; with a refusal or a failed check; without having had anything to work on. */
enum status { STATUS_FINE = 0, STATUS_REFUSED = 1, STATUS_BAD_INPUT = 2 };

struct text {
  const uint8_t *bytes;
  size_t length;
};

/* The arrays lent to a call. */
struct room {
  uint64_t *words;
  size_t words_length;
  uint64_t *directory;
  size_t directory_length;
};

/* `question` is 0 where the text is accepted. */
struct answer {
  uint64_t question, place, entries;
};

/* The answer to an edit, with the first piece that was read and how many were. */
struct edit {
  struct answer answer;
  uint64_t first, read;
};

/* An entry of the directory: where a piece stands in the text, its records in the words, and the counter at its start. */
struct piece {
  uint64_t start, length, first_word, words, counter;
};

/* What a text of that length may need. The densest texts that are known make 4 words of 3 bytes (parameters `i8,`) and an entry of 6 bytes
 * (blocks `ret{}1`): this is more. */
static inline size_t enough_words(size_t bytes) { return 2 * bytes + 16; }
static inline size_t enough_directory(size_t bytes) { return bytes + 16; }

static inline struct answer read_text(struct text text, struct room room) {
  struct answer answer;
  answer.question = zimlokur_parse_define(text.bytes, text.length, room.words, room.words_length, room.directory, room.directory_length,
                                          &answer.place, &answer.entries);
  return answer;
}

/* The newer text is read in the arrays that hold the records of the older one. */
static inline struct edit reread_text(struct text older, struct text newer, struct room room, uint64_t entries) {
  struct edit edit;
  edit.answer.question = zimlokur_reparse_define(older.bytes, older.length, newer.bytes, newer.length, room.words, room.words_length,
                                                 room.directory, room.directory_length, entries, &edit.answer.place, &edit.answer.entries,
                                                 &edit.first, &edit.read);
  return edit;
}

/* The upper and the lower half of a directory word or a name word. */
static inline uint64_t upper(uint64_t word) { return word >> 32; }
static inline uint64_t lower(uint64_t word) { return word & UINT32_MAX; }

/* How many entries there are to look at: a count is not believed beyond the array. */
static inline uint64_t entries_within(struct room room, uint64_t entries) {
  uint64_t most = room.directory_length / ZIMLOKUR_ENTRY_WORDS;
  return entries < most ? entries : most;
}

/* A piece whose number is below what `entries_within` gives. */
static inline struct piece piece_of(struct room room, uint64_t number) {
  const uint64_t *entry = room.directory + ZIMLOKUR_ENTRY_WORDS * number;
  struct piece piece = {upper(entry[0]), lower(entry[0]), upper(entry[1]), lower(entry[1]), entry[2]};
  return piece;
}

/* The last piece; one without bytes and words if there is none. */
static inline struct piece last_piece(struct room room, uint64_t entries) {
  struct piece none = {0, 0, 0, 0, 0};
  uint64_t count = entries_within(room, entries);
  return count > 0 ? piece_of(room, count - 1) : none;
}

/* How many words of the directory so many entries take. */
static inline size_t directory_words(uint64_t entries) { return (size_t)(ZIMLOKUR_ENTRY_WORDS * entries); }

/* Where the words of the last piece end: each piece's begin where the last one's ended, so it is the number of all. */
static inline uint64_t words_of_all(struct room room, uint64_t entries) {
  struct piece last = last_piece(room, entries);
  return last.first_word + last.words;
}

/* As the program `pieces` lists them: number, start, length, first word, number of words. */
static inline void list_pieces(struct room room, uint64_t entries) {
  uint64_t count = entries_within(room, entries);
  printf("pieces %" PRIu64 " words %" PRIu64 "\n", entries, words_of_all(room, entries));
  for (uint64_t number = 0; number < count; number++) {
    struct piece piece = piece_of(room, number);
    printf("%" PRIu64 " %" PRIu64 " %" PRIu64 " %" PRIu64 " %" PRIu64 "\n", number, piece.start, piece.length, piece.first_word,
           piece.words);
  }
}

/* The line of a program that is given a refusal, as `pieces` prints it. */
static inline void refusal_line(FILE *out, struct text text, uint64_t question, uint64_t place) {
  uint64_t line, column;
  zimlokur_position(text.bytes, text.length, place, &line, &column);
  fprintf(out, "refused %" PRIu64 " place %" PRIu64 " line %" PRIu64 " column %" PRIu64 "\n", question, place, line, column);
}

/* A byte of the source as it is shown: what would move the terminal's cursor is replaced, so that the caret stays under its column. */
static inline void show_source_byte(FILE *out, uint8_t byte) { putc(byte == '\t' || (byte >= ' ' && byte <= '~') ? byte : '?', out); }

/* The source line of a place, and a caret below it. Of a line that is very long only the part around the place is shown. A place can be
 * one behind the text's end: the caret goes there too. */
static inline void show_source(FILE *out, struct text text, uint64_t place) {
  enum { BEFORE = 100, BEHIND = 100 };
  size_t at = place < text.length ? (size_t)place : text.length, start = at, end = at;
  while (start > 0 && at - start < BEFORE && text.bytes[start - 1] != '\n')
    start--;
  while (end < text.length && end - at < BEHIND && text.bytes[end] != '\n')
    end++;
  for (size_t k = start; k < end; k++)
    show_source_byte(out, text.bytes[k]);
  putc('\n', out);
  for (size_t k = start; k < at; k++)
    putc(text.bytes[k] == '\t' ? '\t' : ' ', out);
  fputs(place > text.length ? " ^\n" : "^\n", out);
}

/* A refusal for people: the line of `pieces`, the source with a caret, and what it means. */
static inline void explain_refusal(FILE *out, struct text text, uint64_t question, uint64_t place) {
  refusal_line(out, text, question, place);
  show_source(out, text, place);
  fprintf(out, "%s\n", sentence_of(question));
}

/* The one line about input that cannot be worked on; gives the status to end with. */
static inline int complain(const char *program, const char *what, const char *why) {
  fprintf(stderr, "%s: %s: %s\n", program, what, why);
  return STATUS_BAD_INPUT;
}

/* A whole stream as a text in `buffer`, which has one byte more than may be taken, so that a longer input shows. */
static inline int take_input(const char *program, FILE *stream, const char *name, uint8_t *buffer, size_t size, struct text *text) {
  text->bytes = buffer;
  text->length = fread(buffer, 1, size, stream);
  if (ferror(stream))
    return complain(program, name, "cannot be read");
  if (text->length == 0)
    return complain(program, name, "no input");
  if (text->length == size)
    return complain(program, name, "too long");
  return STATUS_FINE;
}

/* The status to end with, unless what was printed was lost. */
static inline int finish(const char *program, int status) {
  return fflush(stdout) || ferror(stdout) ? complain(program, "standard output", "cannot be written") : status;
}

#endif
