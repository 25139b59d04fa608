/* Readers with one fault each: the library's calls, wrapped by the linker (--wrap), and their answer spoiled in the way that FAULT in the
 * environment names. The checks of `checklist` must find each of them, and `walk`, `map` and `rules` must stay inside their arrays and the
 * text. */
#include "zimlokur.h"

#include <stdlib.h>
#include <string.h>

enum fault {
  STALE_WORD = 1,
  WRONG_QUESTION,
  WRONG_PLACE,
  WRITES_BEHIND,
  GAP_IN_LIST,
  DIRTY_END,
  NO_PIECE,
  ONE_PIECE,
  TOO_MANY_PIECES,
  LIST_OF_ZEROS,
  LIST_OF_ONES,
  WORDS_OF_ONES,
  ACCEPTS_A_CUT,
  OLDER_RECORDS,
  ZEROS_ON_REFUSAL,
  WORD_CHANGED_ON_REFUSAL,
  NO_COUNTERS,
  COUNTED_FROM_0,
  KEPT_COUNTERS_LOST,
  FALLING_COUNTER,
  ALTERED_WORDS = 100 /* and above: altered in that many ways */
};

enum { CUT = 50 };

uint64_t __real_zimlokur_parse_define(const uint8_t *text, size_t text_len, uint64_t *words, size_t words_len, uint64_t *directory,
                                      size_t directory_len, uint64_t *place, uint64_t *entries);
uint64_t __real_zimlokur_reparse_define(const uint8_t *older, size_t older_len, const uint8_t *newer, size_t newer_len, uint64_t *words,
                                        size_t words_len, uint64_t *directory, size_t directory_len, uint64_t older_entries,
                                        uint64_t *place, uint64_t *entries, uint64_t *first, uint64_t *read);
uint64_t __wrap_zimlokur_parse_define(const uint8_t *text, size_t text_len, uint64_t *words, size_t words_len, uint64_t *directory,
                                      size_t directory_len, uint64_t *place, uint64_t *entries);
uint64_t __wrap_zimlokur_reparse_define(const uint8_t *older, size_t older_len, const uint8_t *newer, size_t newer_len, uint64_t *words,
                                        size_t words_len, uint64_t *directory, size_t directory_len, uint64_t older_entries,
                                        uint64_t *place, uint64_t *entries, uint64_t *first, uint64_t *read);

static unsigned fault(void) {
  const char *number = getenv("FAULT");
  return number ? (unsigned)strtoul(number, NULL, 10) : 0;
}

/* Numbers that look random, the same in each run. */
static uint64_t next_number(uint64_t *state) {
  *state ^= *state << 13;
  *state ^= *state >> 7;
  *state ^= *state << 17;
  return *state;
}

/* A few words are replaced: by one bit, by any number, by another kind, by another word. */
static void alter(uint64_t *array, size_t length, uint64_t *state) {
  for (uint64_t changes = 1 + next_number(state) % 4; changes > 0; changes--) {
    uint64_t *word = array + next_number(state) % length, number = next_number(state);
    switch (next_number(state) % 4) {
    case 0:
      *word ^= (uint64_t)1 << number % 64;
      break;
    case 1:
      *word = number;
      break;
    case 2:
      *word = (*word & UINT64_MAX >> 8) | number << 56;
      break;
    default:
      *word = array[number % length];
    }
  }
}

/* A refusal, spoiled; gives the question. */
static uint64_t spoil_refusal(uint64_t question, size_t text_len, uint64_t *words, size_t words_len, uint64_t *place) {
  switch (fault()) {
  case STALE_WORD:
    words[words_len / 2] = 1;
    return question;
  case WRONG_QUESTION:
    return question == ZIMLOKUR_Q_WORDS ? ZIMLOKUR_Q_ENTRIES : question;
  case WRONG_PLACE:
    *place += question == ZIMLOKUR_Q_ENTRIES;
    return question;
  case WRITES_BEHIND:
    words[words_len] = 0;
    return question;
  case ACCEPTS_A_CUT:
    return text_len == CUT ? 0 : question;
  default:
    return question;
  }
}

/* The counters from that entry on become 0. */
static void lose_counters(uint64_t *directory, uint64_t number, uint64_t entries) {
  for (; number < entries; number++)
    directory[ZIMLOKUR_ENTRY_WORDS * number + 2] = 0;
}

/* The records of an accepted text, spoiled. */
static void spoil_records(uint64_t *words, size_t words_len, uint64_t *directory, size_t directory_len, uint64_t *entries) {
  uint64_t state = 88172645463325252u + fault();
  switch (fault()) {
  case GAP_IN_LIST:
    directory[ZIMLOKUR_ENTRY_WORDS]++;
    break;
  case DIRTY_END:
    words[words_len - 1] = 1;
    break;
  case NO_PIECE:
    *entries = 0;
    break;
  case ONE_PIECE:
    *entries = 1;
    break;
  case TOO_MANY_PIECES:
    *entries = UINT64_MAX;
    break;
  case LIST_OF_ZEROS:
    memset(directory, 0, directory_len * sizeof *directory);
    break;
  case LIST_OF_ONES:
    memset(directory, 0xFF, directory_len * sizeof *directory);
    break;
  case WORDS_OF_ONES:
    memset(words, 0xFF, words_len * sizeof *words);
    break;
  case NO_COUNTERS:
    lose_counters(directory, 0, *entries);
    break;
  case FALLING_COUNTER: /* the tail's alone */
    lose_counters(directory, *entries - 1, *entries);
    break;
  default:
    if (fault() >= ALTERED_WORDS) {
      alter(words, (size_t)(directory[ZIMLOKUR_ENTRY_WORDS * (*entries - 1) + 1] >> 32), &state);
      if (fault() % 4 == 0)
        alter(directory, (size_t)(ZIMLOKUR_ENTRY_WORDS * *entries), &state);
    }
  }
}

/* So many entries are counted as if no number had been taken before them. */
static void count_from_0(uint64_t *directory, uint64_t entries) {
  uint64_t before = entries > 0 ? directory[2] : 0;
  for (uint64_t number = 0; number < entries; number++)
    directory[ZIMLOKUR_ENTRY_WORDS * number + 2] -= before;
}

/* The records of an accepted edit, spoiled: the counters of the pieces that were read, or of those kept behind. */
static void spoil_edit(uint64_t *directory, uint64_t entries, uint64_t first, uint64_t read) {
  switch (fault()) {
  case COUNTED_FROM_0:
    count_from_0(directory + ZIMLOKUR_ENTRY_WORDS * first, read);
    break;
  case KEPT_COUNTERS_LOST:
    lose_counters(directory, first + read, entries);
    break;
  default:
    break;
  }
}

/* What a refused re-reading must leave as it was, spoiled. */
static void spoil_older_records(uint64_t *words, size_t words_len, uint64_t *directory, size_t directory_len) {
  switch (fault()) {
  case ZEROS_ON_REFUSAL:
    memset(words, 0, words_len * sizeof *words);
    memset(directory, 0, directory_len * sizeof *directory);
    break;
  case WORD_CHANGED_ON_REFUSAL:
    words[words_len - 1]++;
    break;
  default:
    break;
  }
}

uint64_t __wrap_zimlokur_parse_define(const uint8_t *text, size_t text_len, uint64_t *words, size_t words_len, uint64_t *directory,
                                      size_t directory_len, uint64_t *place, uint64_t *entries) {
  uint64_t question = __real_zimlokur_parse_define(text, text_len, words, words_len, directory, directory_len, place, entries);
  if (question)
    return spoil_refusal(question, text_len, words, words_len, place);
  spoil_records(words, words_len, directory, directory_len, entries);
  return 0;
}

uint64_t __wrap_zimlokur_reparse_define(const uint8_t *older, size_t older_len, const uint8_t *newer, size_t newer_len, uint64_t *words,
                                        size_t words_len, uint64_t *directory, size_t directory_len, uint64_t older_entries,
                                        uint64_t *place, uint64_t *entries, uint64_t *first, uint64_t *read) {
  uint64_t question;
  if (fault() == OLDER_RECORDS) {
    *place = *first = *read = 0;
    *entries = older_entries;
    return 0;
  }
  question = __real_zimlokur_reparse_define(older, older_len, newer, newer_len, words, words_len, directory, directory_len, older_entries,
                                            place, entries, first, read);
  if (question)
    spoil_older_records(words, words_len, directory, directory_len);
  else
    spoil_edit(directory, *entries, *first, *read);
  return question;
}
