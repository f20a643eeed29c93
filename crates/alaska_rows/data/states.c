#include <stdio.h>
typedef enum { OUTSIDE, WORD, NUMBER, STATES } State;
typedef enum { LETTER, DIGIT, OTHER } Class;
typedef struct { State state; int counts[STATES]; } Machine;
Class class_of(char c) {
  if (c >= 'a' && c <= 'z') return LETTER;
  return c >= '0' && c <= '9' ? DIGIT : OTHER; }
State next(State s, Class c) {
  switch (s) {
  case OUTSIDE:
    switch (c) { case LETTER: return WORD; case DIGIT: return NUMBER; default: return OUTSIDE; }
  case NUMBER:
    if (c == LETTER) return WORD;
  case WORD:
    return c == OTHER ? OUTSIDE : s; }
  return OUTSIDE; }
void run(Machine *m, char *text) {
  do {
    State s = next(m->state, class_of(*text));
    if (s != m->state) m->counts[s]++;
    m->state = s;
    text++;
  } while (text[-1]); }
int main(void) {
  Machine m;
  m.state = OUTSIDE;
  for (State s = OUTSIDE; s < STATES; s++) m.counts[s] = 0;
  run(&m, "two 2s, 30 and 4x4");
  printf("%d %d %d\n", m.counts[OUTSIDE], m.counts[WORD], m.counts[NUMBER]);
  return m.state; }
