/* build_enveloped CERTIFICATE FILE encrypts a file for the holder of a certificate's key, and writes it to standard
 * output: CMS enveloped data, as `openssl cms -decrypt -binary -inform DER -inkey KEY` opens it. CERTIFICATE is an
 * X.509 certificate in DER with a key of RSA. The content is encrypted by AES-256 in CBC mode with a random key, and
 * that by RSA with PKCS #1 v1.5. FILE has less than 1 GiB. Exits with 0 where all is written, with 2 where a file isn't
 * read or two aren't named, otherwise with 1. Built by
 * cc -Ic c/examples/build_enveloped.c libder_c.a liblibc_c.a -lcrypto */
#include <der.h>
#include <openssl/rand.h>
#include <openssl/rsa.h>
#include <openssl/x509.h>
#include <stdio.h>
#include <stdlib.h>

enum { SPARE = 1 << 14 }; /* octets of room beside those of the files */
typedef struct { uint8_t *at; size_t len; } octets;
/* The octets of all parts that are given, one part after another; and what is built. */
static uint8_t *input, *out;
static size_t input_len, room;

static _Noreturn void stop(const char *why) { fprintf(stderr, "%s\n", why); exit(1); }
static void done(uint32_t status) { if (status != DER_NORMAL) stop(der_status_word((der_status)status)); }
static octets file(const char *name) {
  octets all = {NULL, 0};
  FILE *from = fopen(name, "rb");
  for (size_t size = 1 << 12, got = 1; from && got && size <= 1 << 30 && (all.at = realloc(all.at, size)); size *= 2)
    all.len += got = fread(all.at + all.len, 1, size - all.len, from);
  if (!all.at || ferror(from) || !feof(from)) { fprintf(stderr, "%s isn't read, or has 1 GiB\n", name); exit(2); }
  fclose(from);
  return all;
}
/* The next octets of the input: those that are there, copies, and the contents octets of an object identifier. */
static der_range added(size_t len) { input_len += len; return (der_range){input_len - len, len}; }
static der_range copied(const uint8_t *at, size_t len) { memcpy(input + input_len, at, len); return added(len); }
static der_range oid(const char *text) {
  size_t len;
  done(der_oid_octets((const uint8_t *)text, strlen(text), input + input_len, room - input_len, &len));
  return added(len);
}
/* An AlgorithmIdentifier with its parameters, which are an element. */
static der_range algorithm(const char *text, const uint8_t *parameters, size_t parameters_len) {
  der_password_parts given = {.algorithm = oid(text), .has_parameters = 1};
  size_t len, part;
  given.parameters = copied(parameters, parameters_len);
  done(der_build_parameters(DER_HOLDER_ALGORITHM, input, input_len, &given, out, room, &len, &part));
  return copied(out, len);
}
static der_range encrypted(octets content, const uint8_t *key, const uint8_t *vector) {
  EVP_CIPHER_CTX *context = EVP_CIPHER_CTX_new();
  int len, rest;
  if (!context || EVP_EncryptInit_ex(context, EVP_aes_256_cbc(), NULL, key, vector) != 1 ||
      EVP_EncryptUpdate(context, input + input_len, &len, content.at, (int)content.len) != 1 ||
      EVP_EncryptFinal_ex(context, input + input_len + len, &rest) != 1) stop("the content isn't encrypted");
  EVP_CIPHER_CTX_free(context);
  return added((size_t)(len + rest));
}
static der_range encrypted_key(EVP_PKEY *by, const uint8_t *key, size_t key_len) {
  EVP_PKEY_CTX *context = EVP_PKEY_CTX_new(by, NULL);
  size_t len = room - input_len;
  if (!context || EVP_PKEY_encrypt_init(context) != 1 ||
      EVP_PKEY_CTX_set_rsa_padding(context, RSA_PKCS1_PADDING) != 1 ||
      EVP_PKEY_encrypt(context, input + input_len, &len, key, key_len) != 1) stop("the key isn't encrypted");
  EVP_PKEY_CTX_free(context);
  return added(len);
}
int main(int count, char **words) {
  if (count != 3) return fprintf(stderr, "usage: build_enveloped CERTIFICATE FILE\n"), 2;
  octets certificate = file(words[1]), content = file(words[2]);
  const uint8_t *at = certificate.at;
  X509 *read = d2i_X509(NULL, &at, (long)certificate.len);
  EVP_PKEY *public_key = read ? X509_get0_pubkey(read) : NULL;
  if (!public_key || EVP_PKEY_base_id(public_key) != EVP_PKEY_RSA) stop("no certificate with a key of RSA");
  room = 2 * certificate.len + content.len + SPARE;
  uint8_t key[32], vector[18] = {4, 16}; /* an OCTET STRING */
  if (!(input = malloc(room)) || !(out = malloc(room))) stop("no memory");
  if (RAND_bytes(key, sizeof key) != 1 || RAND_bytes(vector + 2, 16) != 1) stop("no random octets");
  const der_recipient_given recipient = {
      .certificate = copied(certificate.at, certificate.len), .key = encrypted_key(public_key, key, sizeof key),
      .algorithm = algorithm("1.2.840.113549.1.1.1", (const uint8_t[]){5, 0}, 2)}; /* rsaEncryption with NULL */
  size_t len, index, part;
  uint32_t status = der_build_recipient(input, input_len, &recipient, out, room, &len, &part);
  if (status == DER_INVALID && part == DER_RECIPIENT_PART_IDENTIFIER) stop("the certificate is no DER");
  done(status);
  const der_range recipients[] = {copied(out, len)};
  const der_enveloped_given given = {
      .content_type = oid("1.2.840.113549.1.7.1"), .has_content = 1, .content = encrypted(content, key, vector + 2),
      .algorithm = algorithm("2.16.840.1.101.3.4.1.42", vector, sizeof vector)}; /* data, and aes256-CBC */
  OPENSSL_cleanse(key, sizeof key);
  done(der_build_enveloped(input, input_len, &given, recipients, 1, out, room, &len, &index, &part));
  return fwrite(out, 1, len, stdout) != len || fflush(stdout);
}
