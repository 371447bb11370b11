/* The program: reads records from standard input, and writes a line for each to standard output. What is written for a buffer is proved (crates/stream_c and
   crates/lines); the reading and writing here is not. crates/records is the same program in Rattle, whose loop is proved too. */
#include <stdint.h>
#include <unistd.h>

/* The lines of the records of `input`, at the start of `out`: how many bytes they take. `out` has room for 17 bytes of each record, and 6 more. */
size_t bc4_records(const uint8_t *input, size_t input_length, uint8_t *out, size_t out_length);

enum { RECORD = 68, RECORDS = 960, LINE = 17, SHORT = 6 };

static uint8_t input[RECORDS * RECORD];
static uint8_t out[RECORDS * LINE + SHORT];

/* Writes all of it, or stops at the first write that takes nothing or fails. */
static int write_all(int to, const uint8_t *from, size_t length) {
  for (size_t done = 0; done < length;) {
    long n = write(to, from + done, length - done);
    if (n <= 0) return 0;
    done += (size_t)n;
  }
  return 1;
}

/* A line on standard error, and the exit status that goes with it. */
static int failed(const char *message) {
  size_t length = 0;
  while (message[length] != 0) length++;
  write_all(2, (const uint8_t *)message, length);
  return 1;
}

int main(void) {
  for (;;) {
    size_t count = 0;
    long n = 1;
    while (count < sizeof input && (n = read(0, input + count, sizeof input - count)) > 0) count += (size_t)n;
    /* Where a read failed the input has not ended: what is there of a last record is not `short`. */
    if (n < 0) count = count / RECORD * RECORD;
    if (!write_all(1, out, bc4_records(input, count, out, sizeof out))) return failed("records: standard output cannot be written\n");
    if (n < 0) return failed("records: standard input cannot be read\n");
    if (count < sizeof input) return 0;
  }
}
