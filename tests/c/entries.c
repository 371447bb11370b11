/* entries records|lines: of the list on standard input (crates/replay/stdin: records with the Rust's block for each) the records alone, or the lines that
   the blocks make. `entries nonblocking` changes standard input instead: a read of it that finds nothing fails from then on. */
#include <stdint.h>
#include <string.h>
#include <unistd.h>
#include <fcntl.h>

static int put(const void *from, size_t length) { return write(1, from, length) == (long)length; }

int main(int count, char **words) {
  static const char digits[] = "0123456789abcdef";
  uint8_t entry[76];
  if (count != 2) return 2;
  if (words[1][0] == 'n') return fcntl(0, F_SETFL, fcntl(0, F_GETFL) | O_NONBLOCK) != 0;
  for (;;) {
    size_t have = 0;
    while (have < sizeof entry) {
      long n = read(0, entry + have, sizeof entry - have);
      if (n <= 0) return n != 0 || have != 0;
      have += (size_t)n;
    }
    if (words[1][0] == 'r') {
      if (!put(entry, 68)) return 1;
    } else {
      char line[17];
      for (size_t i = 0; i < 16; i++) line[i] = digits[i % 2 == 0 ? entry[68 + i / 2] / 16 : entry[68 + i / 2] % 16];
      line[16] = '\n';
      if (!put(line, sizeof line)) return 1;
    }
  }
}
