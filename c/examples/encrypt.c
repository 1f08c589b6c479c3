/* encrypt FILE < PASSWORD encrypts a private key with a password, the first line of standard input, and writes it as
 * `openssl pkey` reads it: by PBES2, with PBKDF2 by HMAC with SHA-256, and AES-256 in CBC mode. FILE is PrivateKeyInfo
 * (PKCS #8) in DER, which isn't looked at, and written is EncryptedPrivateKeyInfo. Built by
 * cc -Ic c/examples/encrypt.c libder_c.a liblibc_c.a -lcrypto */
#include <der.h>
#include <openssl/evp.h>
#include <openssl/rand.h>
#include <stdio.h>
#include <stdlib.h>

/* The key, the octets of all parts that are given, one part after another, and what is built from them. */
static uint8_t file[1 << 22], input[sizeof file + 256], out[sizeof input + 256];
static size_t input_len;

static _Noreturn void stop(const char *why) { fprintf(stderr, "%s\n", why); exit(1); }
/* The next octets of the input. */
static der_range added(size_t len) { input_len += len; return (der_range){input_len - len, len}; }
/* The contents octets of an object identifier. */
static der_range oid(const char *text) {
  size_t room = sizeof input - input_len, len;
  if (der_oid_octets((const uint8_t *)text, strlen(text), input + input_len, room, &len) != DER_NORMAL)
    stop("no object identifier");
  return added(len);
}
static der_range encrypted(size_t len, const char *password, const der_password_parts *by) {
  const uint8_t *salt = input + by->salt.start, *vector = input + by->initialization_vector.start;
  uint8_t key[32], *at = input + input_len;
  EVP_CIPHER_CTX *context = EVP_CIPHER_CTX_new();
  int most, rest, count = (int)by->iterations;
  if (PKCS5_PBKDF2_HMAC(password, -1, salt, (int)by->salt.len, count, EVP_sha256(), sizeof key, key) != 1 ||
      !context || EVP_EncryptInit_ex(context, EVP_aes_256_cbc(), NULL, key, vector) != 1 ||
      EVP_EncryptUpdate(context, at, &most, file, (int)len) != 1 || EVP_EncryptFinal_ex(context, at + most, &rest) != 1)
    stop("not encrypted");
  EVP_CIPHER_CTX_free(context);
  OPENSSL_cleanse(key, sizeof key);
  OPENSSL_cleanse(file, len);
  return added((size_t)(most + rest));
}
int main(int count, char **words) {
  der_password_parts given = {.is_pbes2 = 1, .is_pbkdf2 = 1, .has_salt = 1, .has_prf = 1, .iterations = 600000,
                              .has_initialization_vector = 1, .has_encrypted = 1};
  FILE *stream = count == 2 ? fopen(words[1], "rb") : NULL;
  char password[1024];
  if (!stream) return 2;
  /* so that no buffer keeps the key or the password */
  setvbuf(stream, NULL, _IONBF, 0), setvbuf(stdin, NULL, _IONBF, 0);
  size_t len = fread(file, 1, sizeof file, stream), written, part;
  if (ferror(stream) || len == sizeof file)
    return fprintf(stderr, "not read, or longer than %zu octets\n", sizeof file - 1), 1;
  if (!fgets(password, sizeof password, stdin) || !strchr(password, '\n')) stop("no line with a password");
  *strchr(password, '\n') = 0;
  if (!*password) stop("no line with a password");
  given.salt = added(16);
  given.initialization_vector = added(16);
  if (RAND_bytes(input, (int)input_len) != 1) stop("no random octets");
  given.prf = oid("1.2.840.113549.2.9");             /* hmacWithSHA256 */
  given.encryption = oid("2.16.840.1.101.3.4.1.42"); /* aes-256-cbc */
  given.encrypted = encrypted(len, password, &given);
  OPENSSL_cleanse(password, sizeof password);
  uint32_t status = der_build_parameters(DER_HOLDER_KEY, input, input_len, &given, out, sizeof out, &written, &part);
  if (status != DER_NORMAL) stop(der_status_word((der_status)status));
  return fwrite(out, 1, written, stdout) != written || fflush(stdout);
}
