/* The source of cues.ll: a string that holds the word define behind a line feed, and three functions. */
int printf(const char *, ...);

static const char *const text = "\ndefine i32 @none() { ret i32 0 }";

int delay(int shell, int step) { return shell > 3 ? step * 2 : step + 7; }

double level(const double *levels, int count) {
  double most = 0.5;
#pragma clang loop vectorize(disable) unroll(disable)
  for (int i = 0; i < count; i++)
    if (levels[i] > most)
      most = levels[i];
  return most;
}

void say(int number) { printf("%s %d\n", text, number); }
