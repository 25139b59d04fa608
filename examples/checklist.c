/* The field engineer's four checks on one controller, for the cue on standard input: a function's text from behind the word `define`.
 * Prints the list of its pieces as `pieces` does, to hold against the desk's, and four lines of result below; a refusal if it is refused.
 * Exits 0 if all four hold, 1 if one does not or the cue is refused, 2 without a cue.
 * cc -Iinclude examples/checklist.c target/staticlib/libzimlokur.a -o target/checklist */
#include "checks.h"

enum { MOST_BYTES = 65536, WORDS = 2 * MOST_BYTES + 64, DIRECTORY_WORDS = MOST_BYTES + 64 };

/* Of each array the last word is not lent. */
enum { LENT_WORDS = WORDS - 1, LENT_DIRECTORY = DIRECTORY_WORDS - 1 };

/* One byte more than is taken, so that a longer input shows. */
static uint8_t input[MOST_BYTES + 1], edited[MOST_BYTES];
static uint64_t kept_words[WORDS], again_words[WORDS], fresh_words[WORDS];
static uint64_t kept_directory[DIRECTORY_WORDS], again_directory[DIRECTORY_WORDS], fresh_directory[DIRECTORY_WORDS];

static int check(struct text cue) {
  struct bench bench = {{kept_words, LENT_WORDS, kept_directory, LENT_DIRECTORY},
                        {again_words, LENT_WORDS, again_directory, LENT_DIRECTORY},
                        {fresh_words, LENT_WORDS, fresh_directory, LENT_DIRECTORY},
                        edited};
  struct answer answer = read_stained(cue, bench.kept);
  if (answer.question) {
    explain_refusal(stdout, cue, answer.question, answer.place);
    return STATUS_REFUSED;
  }
  return check_all(cue, &bench, answer.entries) ? STATUS_FINE : STATUS_REFUSED;
}

int main(void) {
  struct text cue;
  int status = take_input("checklist", stdin, "standard input", input, sizeof input, &cue);
  return status ? status : finish("checklist", check(cue));
}
