/* check KIND < FILE says of a file what `derbox check KIND` does, and writes its normal encoding into a buffer that is first
 * too short and then long enough. check KIND LIMIT allows so many levels of nesting. check alone lists all kinds. */
#include "der.h"

#include <stdio.h>
#include <stdlib.h>

static int list(void) {
  char word[64];
  size_t len;
  for (size_t index = 0; der_kind(index, word, sizeof word, &len) == DER_NORMAL; index++)
    printf("%.*s\n", (int)len, word);
  return 0;
}

/* Reads standard input to its end. */
static uint8_t *read_all(size_t *len) {
  size_t room = 1 << 16;
  uint8_t *bytes = malloc(room);
  *len = 0;
  while (bytes) {
    size_t got = fread(bytes + *len, 1, room - *len, stdin);
    if (!got)
      return bytes;
    *len += got;
    if (*len == room) {
      uint8_t *longer = realloc(bytes, room *= 2);
      if (!longer)
        free(bytes);
      bytes = longer;
    }
  }
  return NULL;
}

/* Whether the normal encoding has that length, is the input where that is normal, and spares what follows it. */
static int rewrites(const char *kind, unsigned limit, const uint8_t *input, size_t len, size_t normal_len,
                    int is_normal) {
  uint8_t *out = malloc(normal_len + 1);
  size_t written;
  int fits;
  if (!out)
    return 0;
  memset(out, 0xEE, normal_len + 1);
  fits = der_rewrite_limited(kind, limit, input, len, out, normal_len - 1, &written) == DER_NO_ROOM &&
         written == normal_len && out[0] == 0xEE &&
         der_rewrite_limited(kind, limit, input, len, out, normal_len, &written) == DER_NORMAL &&
         written == normal_len && out[normal_len] == 0xEE &&
         (normal_len == len && !memcmp(out, input, len)) == is_normal;
  free(out);
  return fits;
}

int main(int count, char **words) {
  size_t len, normal_len;
  uint8_t *input;
  der_status status;
  unsigned limit = count == 3 ? (unsigned)strtoul(words[2], NULL, 10) : DER_MAX_NESTING;
  if (count == 1)
    return list();
  if (count > 3 || !(input = read_all(&len)))
    return 2;
  status = count == 3 ? der_check_limited(words[1], limit, input, len, &normal_len)
                      : der_check(words[1], input, len, &normal_len);
  if (status == DER_NORMAL)
    printf("normal %zu\n", len);
  else if (status == DER_LOOSE)
    printf("loose %zu -> %zu\n", len, normal_len);
  else
    printf("refused: %s\n", der_status_word(status));
  if (status <= DER_LOOSE && !rewrites(words[1], limit, input, len, normal_len, status == DER_NORMAL))
    return 4;
  free(input);
  return status == DER_NORMAL ? 0 : status == DER_LOOSE ? 3 : 1;
}
