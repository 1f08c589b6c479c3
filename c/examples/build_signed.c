/* build_signed KEY CERTIFICATE FILE signs a file, and writes the signature alone to standard output: CMS signed data
 * with the time and the certificate, as `openssl cms -verify -binary -inform DER -content FILE` takes it. KEY is a
 * private key of RSA or of an elliptic curve in DER (PKCS #8), CERTIFICATE its X.509 certificate in DER, and the digest
 * SHA-256. FILE has less than 1 GiB. Exits with 0 where the signature is written, with 2 where a file isn't read or
 * three aren't named, otherwise with 1. Built by cc -Ic c/examples/build_signed.c libder_c.a liblibc_c.a -lcrypto */
#include <der.h>
#include <openssl/x509.h>
#include <stdio.h>
#include <stdlib.h>
#include <time.h>

typedef struct { uint8_t *at; size_t len; } octets;
/* The octets of all parts that are given, one part after another, of which NULL is the first; and what is built. */
static uint8_t input[(1 << 16) + 8192] = {5, 0}, out[2 * sizeof input];
static size_t input_len = 2;

static _Noreturn void stop(const char *why) { fprintf(stderr, "%s\n", why); exit(1); }
static void done(uint32_t status) { if (status != DER_NORMAL) stop(der_status_word((der_status)status)); }
/* The octets of a file, of which no copy is left beside these: it may have a key. */
static octets file(const char *name) {
  octets all = {NULL, 0};
  FILE *from = fopen(name, "rb");
  if (from) setvbuf(from, NULL, _IONBF, 0);
  for (size_t room = 1 << 12, got = 1;
       from && got && room <= 1 << 30 && (all.at = OPENSSL_clear_realloc(all.at, all.len, room)); room *= 2)
    all.len += got = fread(all.at + all.len, 1, room - all.len, from);
  if (!all.at || ferror(from) || !feof(from)) { fprintf(stderr, "%s isn't read, or has 1 GiB\n", name); exit(2); }
  fclose(from);
  return all;
}
/* The next octets of the input: those that are there, copies, and the contents octets of an object identifier. */
static der_range added(size_t len) { input_len += len; return (der_range){input_len - len, len}; }
static der_range copied(const uint8_t *at, size_t len) { memcpy(input + input_len, at, len); return added(len); }
static der_range oid(const char *text) {
  size_t len;
  done(der_oid_octets((const uint8_t *)text, strlen(text), input + input_len, sizeof input - input_len, &len));
  return added(len);
}
/* An AlgorithmIdentifier, whose parameters are NULL or absent. */
static der_range algorithm(const char *text, size_t has_null) {
  der_password_parts given = {.algorithm = oid(text), .has_parameters = has_null, .parameters = {0, 2}};
  size_t len, part;
  done(der_build_parameters(DER_HOLDER_ALGORITHM, input, input_len, &given, out, sizeof out, &len, &part));
  return copied(out, len);
}
static der_range digest_of(octets content) {
  unsigned len;
  if (EVP_Digest(content.at, content.len, input + input_len, &len, EVP_sha256(), NULL) != 1) stop("no digest");
  return added(len);
}
static der_range now(void) {
  time_t seconds = time(NULL);
  return added(strftime((char *)input + input_len, 16, "%Y%m%d%H%M%SZ", gmtime(&seconds)));
}
static der_range signature(EVP_PKEY *key, der_range covered) {
  EVP_MD_CTX *context = EVP_MD_CTX_new();
  size_t len = sizeof input - input_len;
  if (!context || EVP_DigestSignInit(context, NULL, EVP_sha256(), NULL, key) != 1 ||
      EVP_DigestSign(context, input + input_len, &len, input + covered.start, covered.len) != 1) stop("not signed");
  EVP_MD_CTX_free(context);
  return added(len);
}
int main(int count, char **words) {
  if (count != 4) return fprintf(stderr, "usage: build_signed KEY CERTIFICATE FILE\n"), 2;
  octets secret = file(words[1]), certificate = file(words[2]), content = file(words[3]);
  const uint8_t *key_at = secret.at, *certificate_at = certificate.at;
  EVP_PKEY *key = d2i_AutoPrivateKey(NULL, &key_at, (long)secret.len);
  X509 *read = d2i_X509(NULL, &certificate_at, (long)certificate.len);
  const int type = key ? EVP_PKEY_base_id(key) : 0;
  OPENSSL_cleanse(secret.at, secret.len);
  if (type != EVP_PKEY_RSA && type != EVP_PKEY_EC) stop("no key of RSA or of an elliptic curve");
  if (!read || X509_check_private_key(read, key) != 1) stop("the key isn't that of the certificate");
  if (certificate.len > 1 << 16) stop("the certificate is too long");
  const der_attributes_given attributes = {
      .has_content_type = 1, .content_type = oid("1.2.840.113549.1.7.1"), /* data */
      .has_message_digest = 1, .message_digest = digest_of(content), .has_signing_time = 1, .signing_time = now()};
  size_t len, index, part;
  done(der_build_attributes(input, input_len, &attributes, out, sizeof out, &len, &part));
  const der_range covered = copied(out, len);
  const der_signer_given signer = {
      .certificate = copied(certificate.at, certificate.len),
      .digest_algorithm = algorithm("2.16.840.1.101.3.4.2.1", 0), /* SHA-256 */
      .has_signed_attributes = 1, .signed_attributes = covered,
      .signature_algorithm = type == EVP_PKEY_RSA ? algorithm("1.2.840.113549.1.1.1", 1)  /* rsaEncryption */
                                                  : algorithm("1.2.840.10045.4.3.2", 0), /* ecdsa-with-SHA256 */
      .signature = signature(key, covered)};
  const der_signed_given given = {.content_type = attributes.content_type};
  uint32_t status = der_build_signed(input, input_len, &given, &signer.certificate, 1, &signer.certificate, 0, &signer,
                                     1, out, sizeof out, &len, &index, &part);
  if (status == DER_INVALID && part == DER_SIGNED_PART_IDENTIFIER) stop("the certificate is no DER");
  done(status);
  return fwrite(out, 1, len, stdout) != len || fflush(stdout);
}
