/* The source of cue.in and numbered.in: a cue that fires shells one by one. It loops over them, looks at what kind each is, and holds
 * where it must. */
enum kind { SHELL, COMET, MINE, GERB };

int shell_delay(int);
int comet_delay(int);
void fire(int channel, int delay);
void hold(int channel);

int run_cue(const int *kinds, int count, int armed) {
  int fired = 0;
  if (!armed)
    return -1;
  for (int channel = 0; channel < count; channel++) {
    int delay;
    switch (kinds[channel]) {
    case SHELL:
      delay = shell_delay(channel);
      break;
    case COMET:
      delay = comet_delay(channel);
      break;
    case MINE:
    case GERB:
      delay = 0;
      break;
    default:
      hold(channel);
      continue;
    }
    fire(channel, delay);
    fired++;
  }
  return fired;
}
