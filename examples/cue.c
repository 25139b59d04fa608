/* A controller's use of the reader: a cue is read, edited, and read again in the same arrays. An edit that is refused costs nothing: the
 * arrays still hold the records of the last accepted text, and the next edit is one of that.
 * Exits 0 if every answer is the one that the papers give. */
#include "zimlokur.h"

#include <stdio.h>
#include <string.h>

#define WORDS 64
#define ENTRIES 8
#define DIRECTORY_WORDS (ENTRIES * ZIMLOKUR_ENTRY_WORDS)

static uint64_t words[WORDS];
static uint64_t directory[DIRECTORY_WORDS];
static uint64_t words_before[WORDS];
static uint64_t directory_before[DIRECTORY_WORDS];

static int show(const char *what, const char *text, uint64_t refused, uint64_t place, uint64_t entries) {
  if (refused) {
    uint64_t line, column;
    zimlokur_position((const uint8_t *)text, strlen(text), place, &line, &column);
    printf("%s: refused %llu at line %llu column %llu\n", what, (unsigned long long)refused, (unsigned long long)line,
           (unsigned long long)column);
  } else {
    printf("%s: %llu pieces\n", what, (unsigned long long)entries);
  }
  return 0;
}

int main(void) {
  const char *cue = "void @f(){ret void}";
  const char *edited = "void @f(){ret i32 7}";
  const char *broken = "void @f(){ret i32}";
  const char *mended = "void @f(){ret i32 8}";
  uint64_t place, entries, first, read, lent;

  uint64_t r = zimlokur_parse_define((const uint8_t *)cue, strlen(cue), words, WORDS, directory, DIRECTORY_WORDS, &place, &entries);
  show("cue", cue, r, place, entries);
  if (r != 0 || entries != 3)
    return 1;

  r = zimlokur_reparse_define((const uint8_t *)cue, strlen(cue), (const uint8_t *)edited, strlen(edited), words, WORDS, directory,
                              DIRECTORY_WORDS, entries, &place, &entries, &first, &read);
  show("edited", edited, r, place, entries);
  printf("read %llu from piece %llu on\n", (unsigned long long)read, (unsigned long long)first);
  if (r != 0 || entries != 3 || first != 1 || read != 1)
    return 1;

  lent = entries;
  memcpy(words_before, words, sizeof words);
  memcpy(directory_before, directory, sizeof directory);
  r = zimlokur_reparse_define((const uint8_t *)edited, strlen(edited), (const uint8_t *)broken, strlen(broken), words, WORDS, directory,
                              DIRECTORY_WORDS, lent, &place, &entries, &first, &read);
  show("broken", broken, r, place, entries);
  if (r != ZIMLOKUR_Q_VALUE || place != 17 || entries != 0 || first != 0 || read != 0 || memcmp(words, words_before, sizeof words) != 0 ||
      memcmp(directory, directory_before, sizeof directory) != 0)
    return 1;

  r = zimlokur_reparse_define((const uint8_t *)edited, strlen(edited), (const uint8_t *)mended, strlen(mended), words, WORDS, directory,
                              DIRECTORY_WORDS, lent, &place, &entries, &first, &read);
  show("mended", mended, r, place, entries);
  if (r != 0 || entries != 3 || first != 1 || read != 1)
    return 1;
  if (fflush(stdout) || ferror(stdout)) {
    fputs("cue: standard output cannot be written\n", stderr);
    return 2;
  }
  return 0;
}
