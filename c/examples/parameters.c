/* parameters FILE lists how the keys and the contents of a PKCS #12 store are encrypted, a line each: the algorithm, and
 * what its parameters say of it. Nothing is decrypted, so what encrypted contents hold isn't listed. */
#include <der.h>
#include <stdio.h>
#include <stdlib.h>

static uint8_t file[1 << 22];

/* The name of an object identifier, by its contents octets, or its dotted form. */
static void print_name(const char *before, const uint8_t *octets, size_t count) {
  uint8_t text[1024];
  size_t len = 0;
  if (der_oid_name(octets, count, text, sizeof text, &len) == DER_NORMAL ||
      der_oid_text(octets, count, text, sizeof text, &len) == DER_NORMAL)
    printf("%s%.*s", before, (int)len, (const char *)text);
  else
    printf("%sunknown", before);
}

static void print_parameters(const uint8_t *input, const der_password_parts *parts) {
  print_name(": ", input + parts->algorithm.start, parts->algorithm.len);
  if (parts->is_pbes2)
    print_name(", ", input + parts->derivation.start, parts->derivation.len);
  if (parts->is_pbes1 || parts->is_pkcs12 || parts->is_pbkdf2) {
    printf(", %zu iterations", parts->iterations);
    if (parts->has_salt)
      printf(", salt of %zu octets", parts->salt.len);
  }
  if (parts->has_prf)
    print_name(", ", input + parts->prf.start, parts->prf.len);
  else if (parts->is_pbkdf2)
    printf(", hmacWithSHA1");
  if (parts->is_pbes2)
    print_name(", ", input + parts->encryption.start, parts->encryption.len);
  printf("\n");
}

/* How the key or the contents in a range of the file are encrypted, or why that isn't known. */
static void print_line(const char *what, der_password_holder holder, der_range range) {
  const uint8_t *input = file + range.start;
  der_password_parts parts;
  size_t place;
  der_status status = (der_status)der_password_parameters(holder, input, range.len, &parts, &place);
  printf("%s", what);
  if (status == DER_NORMAL)
    print_parameters(input, &parts);
  else
    printf(": refused: %s\n", der_status_word(status));
}

int main(int count, char **words) {
  FILE *stream = count == 2 ? fopen(words[1], "rb") : NULL;
  der_bag_parts *rows = NULL;
  size_t len, bags, nth, place;
  der_status status;
  if (!stream)
    return 2;
  len = fread(file, 1, sizeof file, stream);
  if (ferror(stream) || len == sizeof file) {
    fprintf(stderr, "not read, or longer than %zu octets\n", sizeof file - 1);
    return 1;
  }
  /* without room for a row it says how many there are */
  status = der_bags(file, len, NULL, 0, &bags, &place);
  if (status == DER_NO_ROOM) {
    rows = malloc(bags * sizeof *rows);
    if (!rows)
      return 2;
    status = der_bags(file, len, rows, bags, &bags, &place);
  }
  if (status != DER_NORMAL) {
    fprintf(stderr, "refused: %s at %zu\n", der_status_word(status), place);
    return 1;
  }
  for (nth = 0; nth < bags; nth++) {
    if (rows[nth].kind == DER_BAG_SHROUDED_KEY)
      print_line("key", DER_HOLDER_KEY, rows[nth].value);
    if (rows[nth].kind == DER_BAG_UNREAD)
      print_line("contents", DER_HOLDER_CONTENTS, rows[nth].element);
  }
  free(rows);
  return fflush(stdout) != 0 || ferror(stdout) != 0;
}
