/* What a source means, written as C: the operators on words of 32 bits, the input, the released bytes and the ends. */
#include <stdint.h>
#include <string.h>

enum way { ENDED, INDEX, DIVIDE, TURNS };

void end_run(enum way way, uint32_t token); /* does not return */
void begin_turn(void);
uint32_t next_input(void);
void release_byte(uint32_t value);

#define LEAST 0x80000000u
#define ONES 0xffffffffu

/* An index that is not below the length ends the run at the sign `[`. */
static void test_index(uint32_t index, uint32_t length, uint32_t token) {
  if (!(index < length)) end_run(INDEX, token);
}

/* A divisor of zero ends the run at the operator. */
static void test_divisor(uint32_t divisor, uint32_t token) {
  if (divisor == 0) end_run(DIVIDE, token);
}

static uint32_t size_of_int(uint32_t a) { return a & LEAST ? ~a + 1u : a; }

static uint32_t add(uint32_t a, uint32_t b) { return a + b; }
static uint32_t subtract(uint32_t a, uint32_t b) { return a - b; }
static uint32_t multiply(uint32_t a, uint32_t b) { return a * b; }
static uint32_t divide_unsigned(uint32_t a, uint32_t b) { return a / b; }
static uint32_t divide_int(uint32_t a, uint32_t b) {
  uint32_t size = size_of_int(a) / size_of_int(b);
  return (a & LEAST) != (b & LEAST) ? ~size + 1u : size;
}
static uint32_t remainder_unsigned(uint32_t a, uint32_t b) { return a % b; }
static uint32_t remainder_int(uint32_t a, uint32_t b) {
  uint32_t size = size_of_int(a) % size_of_int(b);
  return a & LEAST ? ~size + 1u : size;
}
static uint32_t both(uint32_t a, uint32_t b) { return a & b; }
static uint32_t either(uint32_t a, uint32_t b) { return a | b; }
static uint32_t differ(uint32_t a, uint32_t b) { return a ^ b; }
static uint32_t shift_left(uint32_t a, uint32_t b) { return a << (b & 31u); }
static uint32_t shift_right_unsigned(uint32_t a, uint32_t b) { return a >> (b & 31u); }
static uint32_t shift_right_int(uint32_t a, uint32_t b) {
  uint32_t shifted = a >> (b & 31u);
  return a & LEAST ? shifted | ~(ONES >> (b & 31u)) : shifted;
}
static uint32_t equal(uint32_t a, uint32_t b) { return a == b ? 1u : 0u; }
static uint32_t unequal(uint32_t a, uint32_t b) { return a == b ? 0u : 1u; }
static uint32_t less_unsigned(uint32_t a, uint32_t b) { return a < b ? 1u : 0u; }
static uint32_t less_int(uint32_t a, uint32_t b) { return (a ^ LEAST) < (b ^ LEAST) ? 1u : 0u; }
static uint32_t greater_unsigned(uint32_t a, uint32_t b) { return less_unsigned(b, a); }
static uint32_t greater_int(uint32_t a, uint32_t b) { return less_int(b, a); }
static uint32_t at_most_unsigned(uint32_t a, uint32_t b) { return less_unsigned(b, a) ^ 1u; }
static uint32_t at_most_int(uint32_t a, uint32_t b) { return less_int(b, a) ^ 1u; }
static uint32_t at_least_unsigned(uint32_t a, uint32_t b) { return less_unsigned(a, b) ^ 1u; }
static uint32_t at_least_int(uint32_t a, uint32_t b) { return less_int(a, b) ^ 1u; }
static uint32_t negate(uint32_t a) { return ~a + 1u; }
static uint32_t complement(uint32_t a) { return ~a; }
static uint32_t is_zero(uint32_t a) { return a == 0 ? 1u : 0u; }
