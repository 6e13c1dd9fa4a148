/* Runs sources that were written as C. Each line of standard input names a run: the number of the source, the most turns
   and the input in hexadecimal, or `-`. Each line of standard output is the released bytes in hexadecimal, or `-`, and
   the line with which the run ends. */
#include "meaning.h"
#include <setjmp.h>
#include <stdio.h>
#include <stdlib.h>

extern void (*const sources[])(void);

static jmp_buf start;
static enum way way;
static uint32_t place;
static unsigned long turns;
static char digits[2 * 65536 + 2];
static size_t input_at;

void end_run(enum way how, uint32_t token) {
  way = how;
  place = token;
  longjmp(start, 1);
}

void begin_turn(void) {
  if (turns == 0) end_run(TURNS, 0);
  turns -= 1;
}

uint32_t next_input(void) {
  unsigned value;
  if (sscanf(digits + input_at, "%2x", &value) != 1) return ONES;
  input_at += 2;
  return value;
}

void release_byte(uint32_t value) { printf("%02x", (unsigned)(value & 255u)); }

int main(void) {
  static const char *const lines[] = {"ended", "index token %u", "divide token %u", "turns"};
  unsigned source;
  while (scanf("%u %lu %131073s", &source, &turns, digits) == 3) {
    input_at = 0;
    putchar('-');
    if (setjmp(start) == 0) {
      sources[source]();
      way = ENDED;
    }
    putchar(' ');
    printf(lines[way], (unsigned)place);
    putchar('\n');
  }
  return 0;
}
