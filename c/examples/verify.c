/* verify FILE [CONTENT] verifies each signer of signed data by its certificate in FILE, and says what it is. CONTENT is
 * what a detached signature is of; a file that has content has to have the same. Both have less than 1 GiB. Whether a
 * certificate is to be trusted isn't looked at, and RSASSA-PSS isn't known. Exits with 0 where there are signers and each
 * is verified, with 2 where a file isn't read, otherwise with 1. Built by
 * cc -Ic c/examples/verify.c libder_c.a liblibc_c.a -lcrypto */
#include "der.h"
#include <openssl/x509.h>
#include <stdio.h>
#include <stdlib.h>

typedef struct { uint8_t *at; size_t len; } octets;
static octets file(const char *name) {
  octets all = {NULL, 0};
  FILE *from = fopen(name, "rb");
  for (size_t room = 1 << 16, got = 1; from && got && room <= 1 << 30 && (all.at = realloc(all.at, room)); room *= 2)
    all.len += got = fread(all.at + all.len, 1, room - all.len, from);
  if (!all.at || ferror(from) || !feof(from)) { fprintf(stderr, "%s isn't read, or has 1 GiB\n", name); exit(2); }
  fclose(from);
  return all;
}
static int algorithm(octets in, der_range range) { /* its number, as openssl counts them */
  const uint8_t *at = in.at + range.start;
  X509_ALGOR *read = d2i_X509_ALGOR(NULL, &at, (long)range.len);
  int number = read ? OBJ_obj2nid(read->algorithm) : NID_undef;
  X509_ALGOR_free(read);
  return number;
}
static const char *is_signed(const der_signer_parts *signer, octets in, octets covered, const EVP_MD *digest) {
  int hash = 0, method = algorithm(in, signer->signature_algorithm), type = method;
  int known = OBJ_find_sigid_algs(method, &hash, &type); /* else it is a key's, over the digest of the signer */
  if (method == NID_rsassaPss) return "unknown signature algorithm";
  if (known && hash && hash != EVP_MD_type(digest)) return "another digest algorithm";
  if (known && !hash) digest = NULL;
  const uint8_t *at = in.at + signer->certificate.start, *signature = in.at + signer->signature.start;
  X509 *certificate = d2i_X509(NULL, &at, (long)signer->certificate.len);
  EVP_PKEY *key = certificate ? X509_get0_pubkey(certificate) : NULL;
  EVP_MD_CTX *context = EVP_MD_CTX_new();
  int right = key && EVP_PKEY_base_id(key) == type && EVP_DigestVerifyInit(context, NULL, digest, NULL, key) == 1 &&
              EVP_DigestVerify(context, signature, signer->signature.len, covered.at, covered.len) == 1;
  EVP_MD_CTX_free(context), X509_free(certificate);
  return right ? "verified" : "wrong signature";
}
static const char *verify(const der_signer_parts *signer, octets in, octets content) {
  if (signer->status != DER_NORMAL) return der_status_word((der_status)signer->status);
  if (!signer->has_certificate) return "no certificate";
  if (signer->has_content) {
    octets own = {in.at + signer->content.start, signer->content.len};
    if (content.at && (content.len != own.len || memcmp(content.at, own.at, own.len))) return "another content";
    content = own;
  }
  if (!content.at) return "no content";
  const EVP_MD *digest = EVP_get_digestbynid(algorithm(in, signer->digest_algorithm));
  if (!digest) return "unknown digest";
  if (!signer->over_attributes) return is_signed(signer, in, content, digest);
  uint8_t made[EVP_MAX_MD_SIZE], covered[1 << 16];
  unsigned len = 0;
  if (!EVP_Digest(content.at, content.len, made, &len, digest, NULL) || len != signer->digest.len ||
      memcmp(made, in.at + signer->digest.start, len)) return "another content";
  if (signer->covered.len > sizeof covered) return "too many attributes";
  der_covered(signer, in.at, covered);
  return is_signed(signer, in, (octets){covered, signer->covered.len}, digest);
}
int main(int count, char **words) {
  if (count != 2 && count != 3) return fprintf(stderr, "usage: verify FILE [CONTENT]\n"), 2;
  octets in = file(words[1]), content = count == 3 ? file(words[2]) : (octets){NULL, 0};
  der_signer_parts one, *signers = &one;
  size_t all, place, right = 0;
  der_status status = der_signers(in.at, in.len, 0, signers, 1, &all, &place);
  if (all > 1 && !(signers = malloc(all * sizeof one))) return perror(words[1]), 2;
  if (all > 1) status = der_signers(in.at, in.len, 0, signers, all, &all, &place);
  if (status != DER_NORMAL) return printf("refused: %s at %zu\n", der_status_word(status), place), 1;
  for (size_t i = 0; i < all; i++) {
    const char *said = verify(&signers[i], in, content);
    right += printf("signer %zu: %s\n", i, said) > 0 && !strcmp(said, "verified");
  }
  return all == 0 || right != all;
}
