/* digest FILE says which digest an Authenticode signature has, and of what: the object identifier of what was hashed, a
 * program, a cabinet or a script, the AlgorithmIdentifier of the digest, and the digest. FILE is signed data in DER, as
 * `osslsigncode extract-signature` takes it out of what was signed. No signature is verified, and no file is hashed. */
#include <der.h>
#include <stdio.h>

static uint8_t file[1 << 22];

/* Octets of the file, in hexadecimal. */
static void print_octets(const char *name, der_range range) {
  size_t nth;
  printf("%s: ", name);
  for (nth = 0; nth < range.len; nth++)
    printf("%02x", file[range.start + nth]);
  printf("\n");
}

/* An object identifier, by its contents octets: in dotted form, or in hexadecimal where der_oid_text writes none. */
static void print_type(const char *name, der_range range) {
  uint8_t text[1024];
  size_t len;
  if (der_oid_text(file + range.start, range.len, text, sizeof text, &len) == DER_NORMAL)
    printf("%s: %.*s\n", name, (int)len, (const char *)text);
  else
    print_octets(name, range);
}

int main(int count, char **words) {
  FILE *stream = count == 2 ? fopen(words[1], "rb") : NULL;
  der_indirect_parts parts;
  size_t len, place;
  der_status status;
  if (!stream)
    return 2;
  len = fread(file, 1, sizeof file, stream);
  if (ferror(stream) || len == sizeof file) {
    fprintf(stderr, "not read, or longer than %zu octets\n", sizeof file - 1);
    return 1;
  }
  status = (der_status)der_indirect(file, len, &parts, &place);
  if (status == DER_NO_PART) {
    fprintf(stderr, "no digest of a file: the content has another type\n");
    return 1;
  }
  if (status != DER_NORMAL) {
    fprintf(stderr, "refused: %s at %zu\n", der_status_word(status), place);
    return 1;
  }
  print_type("type", parts.attribute_type);
  print_octets("algorithm", parts.digest_algorithm);
  print_octets("digest", parts.digest);
  return fflush(stdout) != 0 || ferror(stdout) != 0;
}
