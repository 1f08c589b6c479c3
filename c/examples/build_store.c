/* build_store FILE NAME writes a PKCS #12 store of one certificate with a friendly name, without encryption and without
 * a MAC, as `openssl pkcs12 -nokeys -passin pass:` reads it. FILE is an X.509 certificate in DER, which isn't looked
 * into, and NAME is the name in UTF-8. Built by cc -Ic c/examples/build_store.c libder_c.a liblibc_c.a */
#include <der.h>
#include <stdio.h>
#include <stdlib.h>

/* The certificate with the name after it; and what is built, each from the one before: a SafeContents of one bag, an
 * AuthenticatedSafe, which is all that a MAC would cover, and the store. */
static uint8_t input[(1 << 20) + 2048], bags[sizeof input + 256], safe[sizeof bags + 256], store[sizeof safe + 256];

static _Noreturn void stop(const char *why) {
  fprintf(stderr, "%s\n", why);
  exit(1);
}

static void done(uint32_t status) {
  if (status != DER_NORMAL)
    stop(der_status_word((der_status)status));
}

/* The length of a file, which is put at the front of the input. */
static size_t read_file(const char *name, size_t room) {
  FILE *stream = fopen(name, "rb");
  size_t len;
  if (!stream)
    exit(2);
  len = fread(input, 1, room, stream);
  if (ferror(stream) || len == room)
    stop("not read, or too long");
  fclose(stream);
  return len;
}

int main(int count, char **words) {
  size_t len, name_len, written, index, part;
  uint32_t status;
  if (count != 3)
    return 2;
  len = read_file(words[1], 1 << 20);
  status = der_text_utf16((const uint8_t *)words[2], strlen(words[2]), input + len, sizeof input - len, &name_len);
  if (status == DER_INVALID)
    stop("the name is no UTF-8");
  done(status);
  const der_bag_given bag = {.kind = DER_BAG_CERTIFICATE, .value = {0, len}, .has_friendly_name = 1,
                             .friendly_name = {len, name_len}};
  status = der_build_bags(input, len + name_len, &bag, 1, bags, sizeof bags, &written, &index, &part);
  if (status == DER_INVALID && part == DER_BAG_PART_VALUE)
    stop("the certificate is no DER");
  done(status);
  const der_content_given content = {.is_data = 1, .octets = {0, written}};
  done(der_build_safe(bags, written, &content, 1, safe, sizeof safe, &written, &index));
  const der_store_given given = {.safe = {0, written}};
  done(der_build_store(safe, written, &given, store, sizeof store, &written, &part));
  return fwrite(store, 1, written, stdout) != written || fflush(stdout);
}
