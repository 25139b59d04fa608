/* What a refusal means, one plain sentence for each question, for whoever wrote the cue. */
#ifndef EXAMPLES_SENTENCES_H
#define EXAMPLES_SENTENCES_H

#include "zimlokur.h"

static inline const char *sentence_of(uint64_t question) {
  static const char *const sentences[] = {
      [ZIMLOKUR_Q_LENGTH] = "The text is longer than 16,777,216 bytes: make the cue shorter or split it.",
      [ZIMLOKUR_Q_ASCII] = "This character is no plain ASCII, an accent or a curly quote for instance: write it in plain letters.",
      [ZIMLOKUR_Q_TOKEN] = "Something that must stand here is missing: a sign such as a comma or a bracket, a fixed word, or a name.",
      [ZIMLOKUR_Q_DIGIT] = "A whole number must stand here.",
      [ZIMLOKUR_Q_TYPE] = "A type must stand here, such as i32, double or ptr.",
      [ZIMLOKUR_Q_VALUE] = "A value must stand here, such as 7, %x or null.",
      [ZIMLOKUR_Q_LITERAL] = "This number is not written as numbers are, or it does not fit into 128 bits.",
      [ZIMLOKUR_Q_STATEMENT] = "A statement must begin here, with a word such as ret or a name such as %x, or a closing brace must stand here.",
      [ZIMLOKUR_Q_OPCODE] = "The word before this place is no instruction or operation that can stand here.",
      [ZIMLOKUR_Q_PREDICATE] = "A comparison must be named here, such as eq, slt or oge.",
      [ZIMLOKUR_Q_TRAILING] = "Behind the last comma only align with a number may stand, or something that begins with an exclamation mark.",
      [ZIMLOKUR_Q_CASE] = "A case of a switch must be a whole number; the one before this place is not.",
      [ZIMLOKUR_Q_CLOSED] = "A quote, a parenthesis or a brace was opened and is not closed.",
      [ZIMLOKUR_Q_ESCAPE] = "Behind a backslash there must be two hexadecimal digits, or in a name another backslash.",
      [ZIMLOKUR_Q_NUMBER] = "The number at this place is out of range: a width is 1 to 8,388,608, an index below 2^32, any other below 2^64.",
      [ZIMLOKUR_Q_DEPTH] = "Types or values stand inside each other here more than 19 deep.",
      [ZIMLOKUR_Q_DECIMAL] = "This decimal has too many digits or too large an exponent: write its 64 bits as 0x and 16 hexadecimal digits.",
      [ZIMLOKUR_Q_LEFT_OUT] = "This is left out on purpose: an attribute in quotes.",
      [ZIMLOKUR_Q_CHILDREN] = "One list or block has more than 65,535 parts: split it.",
      [ZIMLOKUR_Q_WORDS] = "The records of the text up to here need more words than were lent.",
      [ZIMLOKUR_Q_ENTRIES] = "The text up to here has more pieces than the directory lent has room for.",
      [ZIMLOKUR_Q_OLDER] = "The older records are not such as a reading leaves: read the whole text anew.",
      [ZIMLOKUR_Q_RULE] = "An account class is 0 to 3, and a rule's first channel is not above its last: this is not so here.",
      [ZIMLOKUR_Q_OVERLAP] = "Two rules of one account class have a channel in common: this is the later one of them.",
      [ZIMLOKUR_Q_GAP] = "No rule of this account class covers this channel: each class needs a rule for every channel from 0 to 65,535.",
      [ZIMLOKUR_Q_COUNTER] = "The number that belongs here is below the next free one or not below 2^32, or a label stands behind an instruction.",
      [ZIMLOKUR_Q_OUTPUT] = "What would be written is longer than the room for it, or than 16,777,216 bytes.",
  };
  if (question >= sizeof sentences / sizeof *sentences || !sentences[question])
    return "This number is no question's.";
  return sentences[question];
}

#endif
