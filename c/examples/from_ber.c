/* from_ber < FILE writes the DER of a file in BER, as ber2der does. */
#include <der.h>

#include <stdio.h>
#include <stdlib.h>

static uint8_t ber[1 << 22];

int main(void) {
  size_t ber_len = fread(ber, 1, sizeof ber, stdin), room, size = 0, place;
  if (ferror(stdin) || ber_len == sizeof ber) {
    fprintf(stderr, "not read, or longer than %zu octets\n", sizeof ber - 1);
    return 1;
  }
  uint8_t none, *der = NULL;
  uint32_t status = der_from_ber(ber, ber_len, &none, 0, &room, &place);
  if (status == DER_NO_ROOM && (der = malloc(room)) != NULL)
    status = der_from_ber(ber, ber_len, der, room, &size, &place);
  if (status == DER_NORMAL)
    return fwrite(der, 1, size, stdout) != size || fflush(stdout);
  fprintf(stderr, "%s at %zu\n", der_status_word((der_status)status), place);
  return 1;
}
