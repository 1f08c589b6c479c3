/* mac < FILE writes the octets of a PKCS #12 file that its MAC covers, as they are in the file. */
#include "der.h"

#include <stdio.h>

static uint8_t input[1 << 22];

int main(void) {
  size_t len = fread(input, 1, sizeof input, stdin), start, covered, iterations;
  if (ferror(stdin) || len == sizeof input) {
    fprintf(stderr, "not read, or longer than %zu octets\n", sizeof input - 1);
    return 1;
  }
  der_status status = (der_status)der_mac(input, len, &start, &covered, &iterations);
  if (status != DER_NORMAL) {
    fprintf(stderr, "%s\n", der_status_word(status));
    return 1;
  }
  return fwrite(input + start, 1, covered, stdout) != covered || fflush(stdout);
}
