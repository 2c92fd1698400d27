/* Steps a parse behind a handle as far as it goes, or to the limit, and all the way back. It writes
   how many steps stood, and the seconds of the processor that the steps and the undos took. */
#include <stdio.h>
#include <sulderko.h>
#include <time.h>

/* The whole of a file; its length. */
static size_t text_of(const char *path, char *into, size_t room) {
  FILE *file = fopen(path, "rb");
  size_t length = file ? fread(into, 1, room, file) : 0;
  if (file)
    fclose(file);
  return length;
}

static double seconds(clock_t from) { return (double)(clock() - from) / CLOCKS_PER_SEC; }

int main(int count, char **words) {
  static char grammar[1 << 20], tokens[16 << 20];
  sulderko_handle handle = SULDERKO_CLOSED;
  sulderko_move made;
  size_t steps = 0, undone = 0, length, rest;
  double forward;
  clock_t begun;
  if (count != 3)
    return 2;
  length = text_of(words[1], grammar, sizeof grammar);
  rest = text_of(words[2], tokens, sizeof tokens);
  if (sulderko_open(grammar, length, tokens, rest, &handle) != SULDERKO_DONE)
    return 1;
  begun = clock();
  while (sulderko_step(&handle, &made) == SULDERKO_DONE)
    steps++;
  forward = seconds(begun);
  begun = clock();
  while (sulderko_back(&handle, &made) == SULDERKO_DONE)
    undone++;
  printf("%lu %f %f\n", (unsigned long)steps, forward, seconds(begun));
  sulderko_close(&handle);
  return steps != undone;
}
