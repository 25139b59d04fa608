/* Holds the refusals that docs/QUESTIONS.md shows against the library. The file that is named, runs/questions.txt, tells its form.
 * Each text must be refused with that number at that place; a full reading must leave both arrays zero, a re-reading as they were lent. Each
 * number from 1 to 22 must be there, and 26.
 * Exits 0 if so, 1 if a line differs, is in no form or a number is missing, 2 if there is no file to read.
 * cc -Iinclude examples/questions.c target/staticlib/libzimlokur.a -o target/questions */
#include "zimlokur.h"

#include <stdio.h>
#include <stdlib.h>
#include <string.h>

enum { TEXT_BYTES = 16777216 + 64, LINE_BYTES = 4096, WORDS = 64, DIRECTORY_WORDS = 16 };

static uint8_t text[TEXT_BYTES];
static uint64_t words[WORDS];
static uint64_t directory[DIRECTORY_WORDS];

/* Puts a part behind the text, so many times; 0 where there is no room for it. */
static int put(size_t *length, const char *part, size_t size, unsigned long times) {
  if (size > 0 && times > (TEXT_BYTES - *length) / size)
    return 0;
  for (; times > 0; times--, *length += size)
    memcpy(text + *length, part, size);
  return 1;
}

/* The text that the rest of a line stands for; 0 if it stands for none. */
static int decode(const char *from, size_t *length) {
  *length = 0;
  while (*from != '\0') {
    if (from[0] != '\\') {
      if (!put(length, from++, 1, 1))
        return 0;
    } else if (from[1] == '[') {
      char *bar;
      unsigned long times = strtoul(from + 2, &bar, 10);
      const char *end = *bar == '|' ? strchr(bar, ']') : NULL;
      if (end == NULL || !put(length, bar + 1, (size_t)(end - bar - 1), times))
        return 0;
      from = end + 1;
    } else {
      char digits[3] = {0}, byte, *end;
      strncpy(digits, from + 1, 2);
      byte = (char)strtoul(digits, &end, 16);
      if (end != digits + 2 || !put(length, &byte, 1, 1))
        return 0;
      from += 3;
    }
  }
  return 1;
}

/* Is every word this one? */
static int holds(const uint64_t *array, size_t length, uint64_t word) {
  for (size_t k = 0; k < length; k++)
    if (array[k] != word)
      return 0;
  return 1;
}

/* One line: its number where the library says the same, else 0. */
static unsigned long check(const char *line) {
  unsigned long number, place, lent, entry_words;
  char call[6];
  int rest = 0;
  size_t length;
  uint64_t q, p = 0, entries = 1, first = 0, read = 0, left;
  if (sscanf(line, "%lu %lu %5s %lu %lu%n", &number, &place, call, &lent, &entry_words, &rest) != 5 || line[rest] != ' ')
    return 0;
  if (lent > WORDS || entry_words > DIRECTORY_WORDS || !decode(line + rest + 1, &length))
    return 0;
  memset(words, 255, sizeof words);
  memset(directory, 255, sizeof directory);
  if (strcmp(call, "again") == 0) {
    q = zimlokur_reparse_define(NULL, 0, text, length, words, lent, directory, entry_words, 0, &p, &entries, &first, &read);
    left = UINT64_MAX;
  } else if (strcmp(call, "read") == 0) {
    q = zimlokur_parse_define(text, length, words, lent, directory, entry_words, &p, &entries);
    left = 0;
  } else {
    return 0;
  }
  if (q != number || p != place || entries != 0 || !holds(words, lent, left) || !holds(directory, entry_words, left)) {
    printf("got %llu place %llu: ", (unsigned long long)q, (unsigned long long)p);
    return 0;
  }
  return number;
}

/* Between 22 and 26 there are none. */
static int is_question(unsigned long number) {
  return (number >= ZIMLOKUR_Q_LENGTH && number <= ZIMLOKUR_Q_OLDER) || number == ZIMLOKUR_Q_COUNTER;
}

int main(int count, char **names) {
  static char line[LINE_BYTES];
  unsigned long lines = 0, same = 0, missing = 0;
  int seen[ZIMLOKUR_Q_COUNTER + 1] = {0};
  FILE *input = count == 2 ? fopen(names[1], "r") : NULL;
  if (input == NULL) {
    fprintf(stderr, "questions: name the file to check, as runs/questions.txt\n");
    return 2;
  }
  while (fgets(line, sizeof line, input) != NULL) {
    unsigned long number;
    line[strcspn(line, "\n")] = '\0';
    if (line[0] == '#')
      continue;
    lines++;
    number = check(line);
    if (is_question(number)) {
      seen[number] = 1;
      same++;
    } else {
      printf("not so: %s\n", line);
    }
  }
  fclose(input);
  for (unsigned long k = 0; k <= ZIMLOKUR_Q_COUNTER; k++)
    missing += is_question(k) && !seen[k];
  printf("questions: %lu lines, %lu as written, %lu numbers missing\n", lines, same, missing);
  return lines == same && missing == 0 ? 0 : 1;
}
