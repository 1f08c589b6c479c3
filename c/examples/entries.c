/* entries FILE lists the entries of a trust list: how many there are, and then the identifier of each in hexadecimal,
 * which of a certificate is its digest, by the algorithm of the list. FILE is signed data in DER. No signature is
 * verified, and no time is looked at. */
#include <der.h>
#include <stdio.h>
#include <stdlib.h>

static uint8_t file[1 << 22];

/* Octets of the file, in hexadecimal. */
static void print_octets(der_range range) {
  size_t nth;
  for (nth = 0; nth < range.len; nth++)
    printf("%02x", file[range.start + nth]);
  printf("\n");
}

int main(int count, char **words) {
  FILE *stream = count == 2 ? fopen(words[1], "rb") : NULL;
  der_trust_entry_parts *rows = NULL;
  size_t len, entries, nth, place;
  der_status status;
  if (!stream)
    return 2;
  len = fread(file, 1, sizeof file, stream);
  if (ferror(stream) || len == sizeof file) {
    fprintf(stderr, "not read, or longer than %zu octets\n", sizeof file - 1);
    return 1;
  }
  /* without room for a row it says how many there are */
  status = der_trust_entries(file, len, NULL, 0, &entries, &place);
  if (status == DER_NO_ROOM) {
    rows = malloc(entries * sizeof *rows);
    if (!rows)
      return 2;
    status = der_trust_entries(file, len, rows, entries, &entries, &place);
  }
  if (status == DER_NO_PART) {
    fprintf(stderr, "no trust list: the content has another type\n");
    return 1;
  }
  if (status != DER_NORMAL) {
    fprintf(stderr, "refused: %s at %zu\n", der_status_word(status), place);
    return 1;
  }
  printf("entries: %zu\n", entries);
  for (nth = 0; nth < entries; nth++)
    print_octets(rows[nth].identifier);
  free(rows);
  return fflush(stdout) != 0 || ferror(stdout) != 0;
}
