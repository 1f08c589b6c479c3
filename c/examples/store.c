/* store FILE says of a key store whether it is normal, and what its MAC covers. */
#include <der.h>
#include <stdio.h>

static uint8_t file[1 << 22];

int main(int count, char **words) {
  FILE *stream = count == 2 ? fopen(words[1], "rb") : NULL;
  size_t len, normal_len, place, covered, rounds;
  der_status status;
  if (!stream)
    return 2;
  len = fread(file, 1, sizeof file, stream);
  if (ferror(stream) || len == sizeof file) {
    fprintf(stderr, "not read, or longer than %zu octets\n", sizeof file - 1);
    return 1;
  }
  status = der_check("rawpfx", file, len, &normal_len);
  if (status > DER_LOOSE) {
    status = der_locate("rawpfx", file, len, &place);
    fprintf(stderr, "refused: %s at %zu\n", der_status_word(status), place);
    return 1;
  }
  printf("%s, %zu octets\n", der_status_word(status), len);
  if (der_mac(file, len, &place, &covered, &rounds) == DER_NORMAL)
    printf("its MAC covers %zu octets, by %zu iterations\n", covered, rounds);
  return fflush(stdout) != 0 || ferror(stdout) != 0;
}
