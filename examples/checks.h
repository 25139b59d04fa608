/* The field engineer's four checks of one cue on one controller: every cut of it, rooms one word too small, the list of its pieces, and
 * every digit changed to every other. Each prints one line that begins with `ok` or `FAILED`; the list stands before them. The time that
 * the first and the last take grows with the square of the cue's length. */
#ifndef EXAMPLES_CHECKS_H
#define EXAMPLES_CHECKS_H

#include "common.h"

/* What the checks work in. Behind each array of a room is a word that is not lent; the text has room for the cue. */
struct bench {
  struct room kept;  /* the cue's records, as the full reading left them */
  struct room again; /* a copy of them, in which an edit is read again */
  struct room fresh; /* every other full reading */
  uint8_t *edited;
};

/* Lent beyond the exact fit, so that a text is refused for what it says and not for the room. */
enum { SPARE = 16 };

/* What stands in every word before a call: a zero found behind it is the reader's. */
static inline uint64_t stain(void) { return UINT64_MAX; }

/* The first words of a room's arrays. */
static inline struct room part_of(struct room room, size_t words, size_t directory) {
  struct room part = {room.words, words, room.directory, directory};
  return part;
}

/* The word behind each array is stained too, though not lent: a call that writes there shows. */
static inline void stain_room(struct room room) {
  memset(room.words, 0xFF, (room.words_length + 1) * sizeof *room.words);
  memset(room.directory, 0xFF, (room.directory_length + 1) * sizeof *room.directory);
}

static inline int untouched_behind(struct room room) {
  return room.words[room.words_length] == stain() && room.directory[room.directory_length] == stain();
}

static inline int zero_from(const uint64_t *array, size_t first, size_t length) {
  for (size_t k = first; k < length; k++)
    if (array[k] != 0)
      return 0;
  return 1;
}

static inline int room_is_zero(struct room room) {
  return zero_from(room.words, 0, room.words_length) && zero_from(room.directory, 0, room.directory_length) && untouched_behind(room);
}

static inline int same_words(struct room left, struct room right) {
  return memcmp(left.words, right.words, left.words_length * sizeof *left.words) == 0 &&
         memcmp(left.directory, right.directory, left.directory_length * sizeof *left.directory) == 0;
}

/* A full reading in a room that was stained before. */
static inline struct answer read_stained(struct text text, struct room room) {
  stain_room(room);
  return read_text(text, room);
}

static inline int is_refused_clean(struct answer answer, struct room room) {
  return answer.question != 0 && answer.entries == 0 && room_is_zero(room);
}

/* Where the closing brace ends. */
static inline size_t cue_end(struct room kept, uint64_t entries) {
  struct piece tail = last_piece(kept, entries);
  return (size_t)(tail.start + tail.length);
}

/* Every cut of the text before its closing brace is refused, and nothing is left of it. */
static inline int check_cuts(struct text cue, size_t end, struct room room) {
  size_t failed = 0, first = 0;
  for (size_t length = 0; length < end; length++) {
    struct text cut = {cue.bytes, length};
    if (!is_refused_clean(read_stained(cut, room), room) && failed++ == 0)
      first = length;
  }
  if (failed > 0)
    printf("FAILED cuts: %zu of %zu, the first of %zu bytes\n", failed, end, first);
  else
    printf("ok cuts: %zu, each refused, arrays zero\n", end);
  return failed == 0;
}

/* Whether a room is refused by this question at this place, and nothing is left in it. */
static inline int refuses_room(struct text cue, struct room room, uint64_t question, uint64_t place) {
  struct answer answer = read_stained(cue, room);
  return answer.question == question && answer.place == place && is_refused_clean(answer, room);
}

/* The exact fit is taken. One word less is refused at the end of the last piece that has words, the one before the tail; one directory
 * word less at the end of the tail. */
static inline int check_rooms(struct text cue, const struct bench *bench, uint64_t entries) {
  struct piece tail = last_piece(bench->kept, entries);
  size_t words = (size_t)words_of_all(bench->kept, entries), directory = directory_words(entries);
  struct room exact = part_of(bench->fresh, words, directory);
  int taken = read_stained(cue, exact).question == 0 && untouched_behind(exact) && same_words(exact, bench->kept);
  int by_words = refuses_room(cue, part_of(bench->fresh, words - 1, directory), ZIMLOKUR_Q_WORDS, tail.start);
  int by_directory =
      refuses_room(cue, part_of(bench->fresh, words, directory - 1), ZIMLOKUR_Q_ENTRIES, tail.start + tail.length);
  int fine = taken && by_words && by_directory;
  if (fine)
    printf("ok rooms: %zu words refused by %d, %zu directory words by %d, arrays zero\n", words - 1, ZIMLOKUR_Q_WORDS, directory - 1,
           ZIMLOKUR_Q_ENTRIES);
  else
    printf("FAILED rooms:%s%s%s\n", taken ? "" : " exact fit", by_words ? "" : " one word less",
           by_directory ? "" : " one directory word less");
  return fine;
}

/* Whether each piece begins in text and words where the last one ended, and ends inside both. The counter begins with 0 and never falls. */
static inline int is_chain(struct text cue, struct room kept, uint64_t entries) {
  uint64_t start = 0, first_word = 0, counter = 0;
  for (uint64_t number = 0; number < entries; number++) {
    struct piece piece = piece_of(kept, number);
    if (piece.start != start || piece.first_word != first_word || piece.counter < counter || (number == 0 && piece.counter != 0))
      return 0;
    start += piece.length;
    first_word += piece.words;
    counter = piece.counter;
    if (start > cue.length || first_word > kept.words_length)
      return 0;
  }
  return 1;
}

/* Whether there is a list to go by. The counts are not believed: wrong ones shall fail, not end the program. */
static inline int is_list(struct text cue, struct room kept, uint64_t entries) {
  return entries >= 2 && entries_within(kept, entries) == entries && is_chain(cue, kept, entries) && words_of_all(kept, entries) > 0 &&
         cue_end(kept, entries) > 0;
}

/* The list, which has no gap and no counter that falls, ends with a closing brace, and behind what it takes the arrays are zero. */
static inline int check_pieces(struct text cue, struct room kept, uint64_t entries) {
  size_t end = cue_end(kept, entries), words = (size_t)words_of_all(kept, entries);
  int fine = cue.bytes[end - 1] == '}' && zero_from(kept.words, words, kept.words_length) &&
             zero_from(kept.directory, directory_words(entries), kept.directory_length) && untouched_behind(kept);
  if (fine)
    printf("ok pieces: %" PRIu64 " from 0 to %zu without a gap, listed above\n", entries, end);
  else
    printf("FAILED pieces: the last one is no closing brace, or the arrays are not zero behind\n");
  return fine;
}

static inline void copy_room(struct room to, struct room from) {
  memcpy(to.words, from.words, from.words_length * sizeof *from.words);
  memcpy(to.directory, from.directory, from.directory_length * sizeof *from.directory);
}

/* How many edits were sent, and what became of them. */
struct sent {
  size_t edits, refused, failed, first_failed;
};

/* An edit read again in the older records, beside a full reading of it: answer, place and count; where it is accepted every word is the full
 * reading's, where it is refused the older records are as they were. */
static inline void send_again(struct text cue, const struct bench *bench, uint64_t entries, size_t at, struct sent *sent) {
  struct text newer = {bench->edited, cue.length};
  struct answer again, full;
  struct room expected;
  stain_room(bench->again);
  copy_room(bench->again, bench->kept);
  again = reread_text(cue, newer, bench->again, entries).answer;
  full = read_stained(newer, bench->fresh);
  expected = full.question ? bench->kept : bench->fresh;
  sent->edits++;
  sent->refused += full.question != 0;
  if (again.question == full.question && again.place == full.place && again.entries == full.entries &&
      same_words(bench->again, expected) && untouched_behind(bench->again) && untouched_behind(bench->fresh))
    return;
  if (sent->failed++ == 0)
    sent->first_failed = at;
}

/* Every digit is changed to every other digit and sent again. */
static inline int check_digits(struct text cue, const struct bench *bench, uint64_t entries) {
  struct sent sent = {0, 0, 0, 0};
  memcpy(bench->edited, cue.bytes, cue.length);
  for (size_t at = 0; at < cue.length; at++) {
    if (cue.bytes[at] < '0' || cue.bytes[at] > '9')
      continue;
    for (uint8_t digit = '0'; digit <= '9'; digit++)
      if (digit != cue.bytes[at]) {
        bench->edited[at] = digit;
        send_again(cue, bench, entries, at, &sent);
      }
    bench->edited[at] = cue.bytes[at];
  }
  if (sent.failed > 0)
    printf("FAILED digits: %zu of %zu edits, the first at place %zu\n", sent.failed, sent.edits, sent.first_failed);
  else
    printf("ok digits: %zu edits, each as a full reading leaves it; %zu of them refused, the records as before\n", sent.edits, sent.refused);
  return sent.failed == 0;
}

/* The same bench, its three rooms of one size, with no more lent than the cue needs and some to spare: what is not lent need not be
 * compared, edit for edit. */
static inline struct bench bench_for(const struct bench *bench, uint64_t entries) {
  size_t words = (size_t)words_of_all(bench->kept, entries) + SPARE, directory = directory_words(entries) + SPARE;
  struct bench fit = {part_of(bench->kept, words, directory), part_of(bench->again, words, directory),
                      part_of(bench->fresh, words, directory), bench->edited};
  return fit;
}

/* Whether a room has what `bench_for` takes of it. */
static inline int room_suffices(struct room room, struct room kept, uint64_t entries) {
  return words_of_all(kept, entries) + SPARE <= room.words_length && directory_words(entries) + SPARE <= room.directory_length;
}

static inline int bench_suffices(const struct bench *bench, uint64_t entries) {
  return room_suffices(bench->kept, bench->kept, entries) && room_suffices(bench->again, bench->kept, entries) &&
         room_suffices(bench->fresh, bench->kept, entries);
}

/* The four lines, where the list is one to go by. */
static inline int check_each(struct text cue, const struct bench *bench, uint64_t entries) {
  struct bench fit = bench_for(bench, entries);
  int fine = check_cuts(cue, cue_end(bench->kept, entries), fit.fresh);
  fine &= check_rooms(cue, &fit, entries);
  fine &= check_pieces(cue, bench->kept, entries);
  fine &= check_digits(cue, &fit, entries);
  return fine;
}

/* The list of pieces and the four lines, for a cue that was read into `kept`, stained before. */
static inline int check_all(struct text cue, const struct bench *bench, uint64_t entries) {
  list_pieces(bench->kept, entries);
  if (!is_list(cue, bench->kept, entries)) {
    printf("FAILED pieces: the list above has a gap or a counter that falls, or is not the text's; the other checks cannot be made\n");
    return 0;
  }
  if (!bench_suffices(bench, entries)) {
    printf("FAILED checks: the text is accepted, but too few words are lent for the checks\n");
    return 0;
  }
  return check_each(cue, bench, entries);
}

#endif
