/* limits KIND < FILE makes each call over a file, with marks around all that the call may write, and says its status
 * and its numbers. Then it makes the call again, while one request for memory after another is refused: each comes to
 * DER_NO_MEMORY, or changes nothing. limits KIND LIMIT allows so many levels of nesting. limits alone asks for the
 * words of all kinds, and builds signed data of many certificates, revocation lists and signers, and enveloped data of
 * many recipients, with room enough and a byte less.
 * Ends with 4, and says why, where a call writes what der.h doesn't say, or keeps memory.
 * To be linked with -Wl,--wrap=malloc,--wrap=realloc,--wrap=free. */
#include "der.h"

#include <stdio.h>
#include <stdlib.h>

enum { MARK = 0xEE, MARGIN = 64, SPARE = 16, LONGEST = 1 << 20 };
/* How many octets at the front of an input are taken as those of an INTEGER: each digit of it takes memory. */
enum { LONGEST_INTEGER = 24 };

/* What follows an input of which bags, stores, signed data, indirect data and enveloped data are built: the contents
 * octets of an object identifier; a name in UTF-16, which is taken as flags too; and a SET OF Attribute, of one of that
 * type with the value NULL, and of a friendlyName without a value, which isn't written into a bag. Then the contents
 * octets of id-data; a time; an AlgorithmIdentifier; a SET OF Attribute, of a contentType that is id-data and of a
 * messageDigest; and a KeyTransRecipientInfo with nothing but its version. */
static const uint8_t rest[] = {
    0x2A, 3, 4, 0, 'a', 0xD8, 0x3D, 0xDE, 0, 0x31, 26, 0x30, 9, 6, 3, 0x2A, 3, 4, 0x31, 2, 5, 0, 0x30, 13, 6, 9, 0x2A,
    0x86, 0x48, 0x86, 0xF7, 0x0D, 1, 9, 20, 0x31, 0,
    0x2A, 0x86, 0x48, 0x86, 0xF7, 0x0D, 1, 7, 1,
    '2', '0', '5', '0', '0', '1', '0', '1', '0', '0', '0', '0', '0', '0', 'Z',
    0x30, 7, 6, 3, 0x2A, 3, 4, 5, 0,
    0x31, 46, 0x30, 24, 6, 9, 0x2A, 0x86, 0x48, 0x86, 0xF7, 0x0D, 1, 9, 3, 0x31, 11, 6, 9, 0x2A, 0x86, 0x48, 0x86, 0xF7,
    0x0D, 1, 7, 1, 0x30, 18, 6, 9, 0x2A, 0x86, 0x48, 0x86, 0xF7, 0x0D, 1, 9, 4, 0x31, 5, 4, 3, 0x2A, 3, 4,
    0x30, 3, 2, 1, 0};

/* The calls, by the word that begins their lines. */
typedef enum {
  CHECK, LOCATE, LOOSE_END, REWRITE, MAC, MAC_NUMBERS, FROM_BER, MAC_BER, MAC_PART_BER, NAME, OID, OID_OCTETS, OID_NAME,
  PART, KIND, SIGNERS, SIGNER, RANGES, ATTRIBUTES, BAGS, CERTIFICATE, INDIRECT, TRUST_LIST, TRUST_ROWS, PASSWORD, BUILD,
  BUILD_BAGS, BUILD_SAFE, BUILD_STORE, BUILD_ATTRIBUTES, BUILD_SIGNED, BUILD_INDIRECT, BUILD_RECIPIENT,
  BUILD_ENVELOPED, INTEGER, UTF16, TEXT_UTF16
} call;
static const char *const calls[] = {
    "check",     "locate",   "loose_end", "rewrite", "mac",  "mac_numbers", "from_ber", "mac_ber", "mac_part_ber",
    "name_text", "oid_text", "oid_octets", "oid_name", "part", "kind", "signers", "signer", "ranges", "attributes",
    "bags", "certificate", "indirect", "trust_list", "trust_rows", "password", "build", "build_bags", "build_safe",
    "build_store", "build_attributes", "build_signed", "build_indirect", "build_recipient", "build_enveloped",
    "integer_text", "utf16_text", "text_utf16"};

/* What a call is given: the index of a kind or of a signer, or the number of a part or of a holder, where it takes one,
 * a limit if there is one, and what it builds from: of bags, and of contents, so many. */
typedef struct {
  const char *kind;
  const uint8_t *input;
  size_t len, index;
  int is_limited;
  unsigned limit;
  der_password_parts parts;
  size_t count;
  der_bag_given bags[2];
  der_content_given contents[2];
  der_store_given store;
  der_attributes_given attributes;
  der_indirect_parts indirect;
  der_signed_given file;
  const der_range *certificates, *crls;
  const der_signer_given *signers;
  size_t certificates_len, crls_len, signers_len;
  der_recipient_given recipient;
  der_enveloped_given enveloped;
  const der_range *recipients;
  size_t recipients_len;
} given;

/* What a call answers: its status, and its numbers, 0 where it has but one. */
typedef struct {
  der_status status;
  size_t first, second, third;
} answer;

/* A number that a call writes, between marks. */
typedef struct {
  size_t before, it, behind;
} number;

static const size_t MARKS = (size_t)-1 / 0xFF * MARK;

/* The number of the request for memory that is refused, 0 for none; the requests so far; the blocks that are held. */
static size_t refused, requests, held;

void *__real_malloc(size_t size);
void *__real_realloc(void *old, size_t size);
void __real_free(void *old);

void *__wrap_malloc(size_t size) {
  void *made = ++requests == refused ? NULL : __real_malloc(size);
  held += !!made;
  return made;
}

void *__wrap_realloc(void *old, size_t size) {
  void *made = ++requests == refused ? NULL : __real_realloc(old, size);
  held += made && !old;
  return made;
}

void __wrap_free(void *old) {
  held -= !!old;
  __real_free(old);
}

static void fault(call it, const char *why) {
  fprintf(stderr, "%s: %s\n", calls[it], why);
  exit(4);
}

static int is_marked(const number *it) { return it->before == MARKS && it->behind == MARKS; }

/* Whether a call lists items, and writes how many there are and then a place. */
static int lists(call it) {
  return it == SIGNERS || it == RANGES || it == ATTRIBUTES || it == BAGS || it == TRUST_ROWS;
}

/* How many numbers a call writes. */
static int numbers_of(call it) {
  const int is_built = it == BUILD || it == BUILD_SAFE || it == BUILD_STORE || it == BUILD_ATTRIBUTES ||
                       it == BUILD_INDIRECT || it == BUILD_RECIPIENT;
  const int two = it == MAC || it == FROM_BER || it == PART || is_built || lists(it);
  const int three = it == MAC_NUMBERS || it == MAC_BER || it == BUILD_BAGS || it == BUILD_SIGNED ||
                    it == BUILD_ENVELOPED;
  return three ? 3 : two ? 2 : 1;
}

/* Whether a call writes so many bytes as its first number says. */
static int says_written(call it) {
  return it == REWRITE || it == FROM_BER || it == MAC_PART_BER || it == NAME || it == OID || it == OID_OCTETS ||
         it == OID_NAME || it == INTEGER || it == UTF16 || it == TEXT_UTF16 || it == PART || it == KIND ||
         it == BUILD || it == BUILD_BAGS || it == BUILD_SAFE || it == BUILD_STORE || it == BUILD_ATTRIBUTES ||
         it == BUILD_SIGNED || it == BUILD_INDIRECT || it == BUILD_RECIPIENT || it == BUILD_ENVELOPED;
}

/* How many bytes a call writes of signers, of which there are so many from that index on. */
static size_t bytes_of_signers(size_t count, size_t first, size_t out_len) {
  size_t room = out_len / sizeof(der_signer_parts), rest = first < count ? count - first : 0;
  return (rest < room ? rest : room) * sizeof(der_signer_parts);
}

/* Makes the call for one signer. Unless at DER_NORMAL all that it writes is 0, but for the status, which is what it
 * answers. */
static der_status one_signer(const given *its, uint8_t *out, size_t *place) {
  der_signer_parts *signer = (der_signer_parts *)(void *)out, nothing = {0};
  der_status status = der_signer(its->index, its->input, its->len, signer, place);
  nothing.status = status;
  if (!memcmp(signer, &nothing, sizeof nothing) != (status != DER_NORMAL))
    fault(SIGNER, "it writes what isn't the signer's, or nothing of it");
  return status;
}

/* Makes the call for a certificate. Unless at DER_NORMAL all that it writes is 0. */
static der_status one_certificate(const given *its, uint8_t *out, size_t *place) {
  der_certificate_parts *parts = (der_certificate_parts *)(void *)out, nothing = {0};
  der_status status = (der_status)der_certificate(its->input, its->len, parts, place);
  if (!memcmp(parts, &nothing, sizeof nothing) != (status != DER_NORMAL))
    fault(CERTIFICATE, "it writes what isn't the certificate's, or nothing of it");
  return status;
}

/* Makes the call for indirect data. Unless at DER_NORMAL all that it writes is 0. */
static der_status one_indirect(const given *its, uint8_t *out, size_t *place) {
  der_indirect_parts *parts = (der_indirect_parts *)(void *)out, nothing = {0};
  der_status status = (der_status)der_indirect(its->input, its->len, parts, place);
  if (!memcmp(parts, &nothing, sizeof nothing) != (status != DER_NORMAL))
    fault(INDIRECT, "it writes what isn't of indirect data, or nothing of it");
  return status;
}

/* Makes the call for a trust list. Unless at DER_NORMAL all that it writes is 0. */
static der_status one_trust_list(const given *its, uint8_t *out, size_t *place) {
  der_trust_list_parts *parts = (der_trust_list_parts *)(void *)out, nothing = {0};
  der_status status = (der_status)der_trust_list(its->input, its->len, parts, place);
  if (!memcmp(parts, &nothing, sizeof nothing) != (status != DER_NORMAL))
    fault(TRUST_LIST, "it writes what isn't of a trust list, or nothing of it");
  return status;
}

/* Makes the call for parameters of encryption with a password. Unless at DER_NORMAL all that it writes is 0. */
static der_status one_password(const given *its, uint8_t *out, size_t *place) {
  der_password_parts *parts = (der_password_parts *)(void *)out, nothing = {0};
  der_status status = (der_status)der_password_parameters(its->index, its->input, its->len, parts, place);
  if (!memcmp(parts, &nothing, sizeof nothing) != (status != DER_NORMAL))
    fault(PASSWORD, "it writes what isn't the holder's, or nothing of it");
  return status;
}

/* Makes a call, with so many bytes of out between marks. */
static answer made(call it, const given *its, uint8_t *room, size_t out_len) {
  number first = {MARKS, MARKS, MARKS}, second = {MARKS, numbers_of(it) > 1 ? MARKS : 0, MARKS};
  number third = {MARKS, numbers_of(it) > 2 ? MARKS : 0, MARKS};
  size_t written = 0, at, before = held;
  uint8_t *out = room + MARGIN;
  answer said = {DER_NORMAL, 0, 0, 0};
  memset(room, MARK, MARGIN + out_len + MARGIN);
  switch (it) {
  case CHECK:
    said.status = its->is_limited ? der_check_limited(its->kind, its->limit, its->input, its->len, &first.it)
                                  : der_check(its->kind, its->input, its->len, &first.it);
    break;
  case LOCATE:
    said.status = der_locate(its->kind, its->input, its->len, &first.it);
    break;
  case LOOSE_END:
    said.status = der_loose_end(its->kind, its->input, its->len, &first.it);
    break;
  case REWRITE:
    said.status = its->is_limited
                      ? der_rewrite_limited(its->kind, its->limit, its->input, its->len, out, out_len, &first.it)
                      : der_rewrite(its->kind, its->input, its->len, out, out_len, &first.it);
    break;
  case MAC:
    said.status = (der_status)der_mac_range(its->input, its->len, &first.it, &second.it);
    break;
  case MAC_NUMBERS:
    said.status = (der_status)der_mac(its->input, its->len, &first.it, &second.it, &third.it);
    break;
  case FROM_BER:
    said.status = (der_status)der_from_ber(its->input, its->len, out, out_len, &first.it, &second.it);
    break;
  case MAC_BER:
    said.status = (der_status)der_mac_ber(its->input, its->len, &first.it, &second.it, &third.it);
    break;
  case MAC_PART_BER:
    said.status = (der_status)der_mac_part_ber(its->index, its->input, its->len, out, out_len, &first.it);
    break;
  case NAME:
    said.status = (der_status)der_name_text(its->input, its->len, out, out_len, &first.it);
    break;
  case OID:
    said.status = (der_status)der_oid_text(its->input, its->len, out, out_len, &first.it);
    break;
  case OID_OCTETS:
    said.status = (der_status)der_oid_octets(its->input, its->len, out, out_len, &first.it);
    break;
  case OID_NAME:
    said.status = (der_status)der_oid_name(its->input, its->len, out, out_len, &first.it);
    break;
  case INTEGER:
    said.status = (der_status)der_integer_text(its->input, its->len, out, out_len, &first.it);
    break;
  case UTF16:
    said.status = (der_status)der_utf16_text(its->input, its->len, out, out_len, &first.it);
    break;
  case TEXT_UTF16:
    said.status = (der_status)der_text_utf16(its->input, its->len, out, out_len, &first.it);
    break;
  case PART:
    said.status =
        der_part((der_part_number)its->index, 0, its->input, its->len, out, out_len, &first.it, &second.it);
    break;
  case KIND:
    said.status = der_kind(its->index, (char *)out, out_len, &first.it);
    break;
  case SIGNERS:
    said.status = der_signers(its->input, its->len, its->index, (der_signer_parts *)(void *)out,
                              out_len / sizeof(der_signer_parts), &first.it, &second.it);
    if (said.status == DER_NORMAL)
      written = bytes_of_signers(first.it, its->index, out_len);
    break;
  case SIGNER:
    said.status = one_signer(its, out, &first.it);
    written = sizeof(der_signer_parts);
    break;
  case RANGES:
    said.status = der_ranges((der_part_number)its->index, its->input, its->len, (der_range *)(void *)out,
                             out_len / sizeof(der_range), &first.it, &second.it);
    if (said.status == DER_NORMAL)
      written = first.it * sizeof(der_range);
    break;
  case ATTRIBUTES:
    said.status = der_attributes((int)its->index, 0, its->input, its->len, (der_range *)(void *)out,
                                 out_len / sizeof(der_range), &first.it, &second.it);
    if (said.status == DER_NORMAL)
      written = first.it * sizeof(der_range);
    break;
  case BAGS:
    said.status = der_bags(its->input, its->len, (der_bag_parts *)(void *)out, out_len / sizeof(der_bag_parts),
                           &first.it, &second.it);
    if (said.status == DER_NORMAL)
      written = first.it * sizeof(der_bag_parts);
    break;
  case CERTIFICATE:
    said.status = one_certificate(its, out, &first.it);
    written = sizeof(der_certificate_parts);
    break;
  case INDIRECT:
    said.status = one_indirect(its, out, &first.it);
    written = sizeof(der_indirect_parts);
    break;
  case TRUST_LIST:
    said.status = one_trust_list(its, out, &first.it);
    written = sizeof(der_trust_list_parts);
    break;
  case TRUST_ROWS:
    said.status = der_trust_entries(its->input, its->len, (der_trust_entry_parts *)(void *)out,
                                    out_len / sizeof(der_trust_entry_parts), &first.it, &second.it);
    if (said.status == DER_NORMAL)
      written = first.it * sizeof(der_trust_entry_parts);
    break;
  case PASSWORD:
    said.status = one_password(its, out, &first.it);
    written = sizeof(der_password_parts);
    break;
  case BUILD:
    said.status = (der_status)der_build_parameters(its->index, its->input, its->len, &its->parts, out, out_len,
                                                   &first.it, &second.it);
    break;
  case BUILD_BAGS:
    said.status = (der_status)der_build_bags(its->input, its->len, its->bags, its->count, out, out_len, &first.it,
                                             &second.it, &third.it);
    break;
  case BUILD_SAFE:
    said.status = (der_status)der_build_safe(its->input, its->len, its->contents, its->count, out, out_len, &first.it,
                                             &second.it);
    break;
  case BUILD_STORE:
    said.status = (der_status)der_build_store(its->input, its->len, &its->store, out, out_len, &first.it, &second.it);
    break;
  case BUILD_ATTRIBUTES:
    said.status = (der_status)der_build_attributes(its->input, its->len, &its->attributes, out, out_len, &first.it,
                                                   &second.it);
    break;
  case BUILD_SIGNED:
    said.status = (der_status)der_build_signed(
        its->input, its->len, &its->file, its->certificates, its->certificates_len, its->crls, its->crls_len,
        its->signers, its->signers_len, out, out_len, &first.it, &second.it, &third.it);
    break;
  case BUILD_INDIRECT:
    said.status = (der_status)der_build_indirect(its->input, its->len, &its->indirect, out, out_len, &first.it,
                                                 &second.it);
    break;
  case BUILD_RECIPIENT:
    said.status = (der_status)der_build_recipient(its->input, its->len, &its->recipient, out, out_len, &first.it,
                                                  &second.it);
    break;
  case BUILD_ENVELOPED:
    said.status = (der_status)der_build_enveloped(its->input, its->len, &its->enveloped, its->recipients,
                                                  its->recipients_len, out, out_len, &first.it, &second.it, &third.it);
    break;
  }
  said.first = first.it;
  said.second = second.it;
  said.third = third.it;
  if (held != before)
    fault(it, "memory is kept");
  if (!is_marked(&first) || !is_marked(&second) || !is_marked(&third))
    fault(it, "it writes beside a number");
  if (says_written(it) && said.status == DER_NORMAL && (written = said.first) > out_len)
    fault(it, "it says that it wrote more than there is room for");
  for (at = 0; at < MARGIN + out_len + MARGIN; at++)
    if ((at < MARGIN || at >= MARGIN + written) && room[at] != MARK)
      fault(it, "it writes beside its encoding");
  return said;
}

/* Whether a call writes one struct, and then a place as its only number. */
static int fills(call it) {
  return it == SIGNER || it == CERTIFICATE || it == INDIRECT || it == TRUST_LIST || it == PASSWORD;
}

/* Whether the numbers are 0, but for a place, which has no use where memory is refused. */
static int is_without_use(call it, const answer *said) {
  const int has_place = it == FROM_BER || it == PART || lists(it);
  return (!said->first || fills(it)) && (!said->second || has_place) && !said->third;
}

/* Makes a call, says what it answers, and then refuses its requests for memory in turn, or where there are many of them
 * the first, the second, the fourth and so on. */
static answer tried_some(call it, const given *its, uint8_t *room, size_t out_len, int are_many) {
  answer ample = made(it, its, room, out_len), said;
  size_t nth, short_of = 0;
  printf("%s %d %zu %zu %zu\n", calls[it], (int)ample.status, ample.first, ample.second, ample.third);
  for (nth = 1;; nth = are_many ? 2 * nth : nth + 1) {
    requests = 0;
    refused = nth;
    said = made(it, its, room, out_len);
    refused = 0;
    if (requests < nth)
      break;
    if (said.status == DER_NO_MEMORY && is_without_use(it, &said))
      short_of++;
    else if (said.status != ample.status || said.first != ample.first || said.second != ample.second ||
             said.third != ample.third)
      fault(it, "a refused request for memory changes the answer");
  }
  if (short_of)
    printf("%s %d 0 0 0\n", calls[it], (int)DER_NO_MEMORY);
  return ample;
}

static answer tried(call it, const given *its, uint8_t *room, size_t out_len) {
  return tried_some(it, its, room, out_len, 0);
}

static void kinds(uint8_t *room) {
  given its = {0};
  answer said;
  while ((said = tried(KIND, &its, room, 64)).status == DER_NORMAL) {
    tried(KIND, &its, room, said.first);
    tried(KIND, &its, room, said.first - 1);
    its.index++;
  }
  its.index = (size_t)-1;
  tried(KIND, &its, room, 64);
}

/* Makes a call for each part, with room enough and a byte less, and for a number that no part has. */
static void parts(call it, given *its, uint8_t *room) {
  for (its->index = 0; its->index <= DER_PART_MAC_SALT + 1; its->index++) {
    answer said = tried(it, its, room, 2 * its->len);
    if (said.status == DER_NORMAL && said.first)
      tried(it, its, room, said.first - 1);
  }
}

/* Makes a call that writes text, octets of a text, or what it builds, with room enough and a byte less. */
static answer text(call it, const given *its, uint8_t *room) {
  answer said = tried(it, its, room, 8 * its->len + SPARE);
  if (said.status == DER_NORMAL && said.first)
    tried(it, its, room, said.first - 1);
  return said;
}

/* Asks for signers: for all, with room for one more, for just them, for one less and for none, for those from the
 * middle on, and past the last. And for one signer: the first, and one past the last. */
static void signers(given *its, uint8_t *room) {
  const size_t one = sizeof(der_signer_parts);
  answer said;
  its->index = 0;
  said = tried(SIGNERS, its, room, one);
  if (said.status == DER_NORMAL) {
    const size_t all = said.first, firsts[] = {all / 2, all, all + 1, (size_t)-1};
    if ((all + 1) * one > 2 * LONGEST)
      fault(SIGNERS, "there are more than this program has room for");
    tried(SIGNERS, its, room, (all + 1) * one);
    tried(SIGNERS, its, room, all * one);
    tried(SIGNERS, its, room, all ? (all - 1) * one : 0);
    tried(SIGNERS, its, room, 0);
    for (size_t nth = 0; nth < sizeof firsts / sizeof *firsts; nth++) {
      its->index = firsts[nth];
      tried(SIGNERS, its, room, (all + 1) * one);
    }
  }
  its->index = 0;
  tried(SIGNER, its, room, one);
  its->index = said.first;
  tried(SIGNER, its, room, one);
}

/* Asks for items with room for one, and where they are listed for one more than all, for just them, and for one less. */
static void listed(call it, const given *its, uint8_t *room, size_t one) {
  const answer said = tried(it, its, room, one);
  if (said.status != DER_NORMAL && said.status != DER_NO_ROOM)
    return;
  if ((said.first + 1) * one > 2 * LONGEST)
    fault(it, "there are more than this program has room for");
  tried(it, its, room, (said.first + 1) * one);
  tried(it, its, room, said.first * one);
  if (said.first)
    tried(it, its, room, (said.first - 1) * one);
}

/* Asks for the ranges of each part's items, and of a number that no part has; and for those of the first signer's
 * unsigned and signed attributes. */
static void ranges(given *its, uint8_t *room) {
  for (its->index = 0; its->index <= DER_PART_ENCRYPTED_CONTENT + 1; its->index++)
    listed(RANGES, its, room, sizeof(der_range));
  for (its->index = 0; its->index < 2; its->index++)
    listed(ATTRIBUTES, its, room, sizeof(der_range));
}

/* Builds with what can't be written in the place of each part in turn: that part is told, or isn't looked at. Then
 * without the salt where the scheme has one, and by two schemes. */
static void wrong_parts(given its, uint8_t *room, size_t size) {
  static const size_t most = (size_t)-1, wrong[][2] = {
      {DER_PASSWORD_ALGORITHM, offsetof(der_password_parts, algorithm)},
      {DER_PASSWORD_PARAMETERS, offsetof(der_password_parts, parameters)},
      {DER_PASSWORD_DERIVATION, offsetof(der_password_parts, derivation)},
      {DER_PASSWORD_DERIVATION_PARAMETERS, offsetof(der_password_parts, derivation_parameters)},
      {DER_PASSWORD_SALT, offsetof(der_password_parts, salt)},
      {DER_PASSWORD_PRF, offsetof(der_password_parts, prf)},
      {DER_PASSWORD_ENCRYPTION, offsetof(der_password_parts, encryption)},
      {DER_PASSWORD_ENCRYPTION_PARAMETERS, offsetof(der_password_parts, encryption_parameters)},
      {DER_PASSWORD_INITIALIZATION_VECTOR, offsetof(der_password_parts, initialization_vector)},
      {DER_PASSWORD_ENCRYPTED, offsetof(der_password_parts, encrypted)},
      {DER_PASSWORD_ITERATIONS, offsetof(der_password_parts, iterations)},
      {DER_PASSWORD_KEY_LENGTH, offsetof(der_password_parts, key_length)}};
  const der_password_parts right = its.parts;
  answer said;
  for (size_t nth = 0; nth < sizeof wrong / sizeof *wrong; nth++) {
    its.parts = right;
    memcpy((uint8_t *)&its.parts + wrong[nth][1], &most, sizeof most);
    said = made(BUILD, &its, room, size);
    if (said.status == DER_NORMAL ? said.first != size : said.status != DER_INVALID || said.second != wrong[nth][0])
      fault(BUILD, "it tells another part");
  }
  its.parts = right;
  its.parts.has_salt = its.parts.has_derivation_parameters = 0;
  if (right.is_pbes1 || right.is_pkcs12 || right.is_pbkdf2) {
    said = made(BUILD, &its, room, size);
    if (said.status != DER_INVALID || said.second != DER_PASSWORD_SALT)
      fault(BUILD, "it takes a scheme without its salt");
  }
  its.parts = right;
  its.parts.is_pbes1 = its.parts.is_pkcs12 = 1;
  said = made(BUILD, &its, room, size);
  if (said.status != DER_INVALID || said.second != DER_PASSWORD_SCHEME)
    fault(BUILD, "it takes two schemes");
}

/* Asks how the input is encrypted with a password, as each holder, and as a number that no holder has, and builds the
 * same from what is found. Where that is nothing, there is nothing to build from. */
static void passwords(given *its, uint8_t *room) {
  for (its->index = 0; its->index <= DER_HOLDER_CONTENTS + 1; its->index++) {
    tried(PASSWORD, its, room, sizeof(der_password_parts));
    memcpy(&its->parts, room + MARGIN, sizeof its->parts);
    const answer said = text(BUILD, its, room);
    if (said.status == DER_NORMAL)
      wrong_parts(*its, room, said.first);
  }
}

/* Builds two bags with what can't be written in the place of each part of the second in turn: that bag and that part
 * are told, or the part isn't looked at. Then the second has no attributes, and none of them is looked at. */
static void wrong_bags(given its, uint8_t *room, size_t size) {
  static const size_t most = (size_t)-1, wrong[][2] = {
      {DER_BAG_PART_KIND, offsetof(der_bag_given, kind)},
      {DER_BAG_PART_IDENTIFIER, offsetof(der_bag_given, identifier)},
      {DER_BAG_PART_VALUE, offsetof(der_bag_given, value)},
      {DER_BAG_PART_FRIENDLY_NAME, offsetof(der_bag_given, friendly_name)},
      {DER_BAG_PART_LOCAL_KEY_ID, offsetof(der_bag_given, local_key_id)},
      {DER_BAG_PART_ATTRIBUTES, offsetof(der_bag_given, attributes)}};
  const der_bag_given right = its.bags[1];
  answer said;
  for (size_t nth = 0; nth < sizeof wrong / sizeof *wrong; nth++) {
    const int is_told = wrong[nth][0] != DER_BAG_PART_IDENTIFIER || right.kind == DER_BAG_OTHER;
    its.bags[1] = right;
    memcpy((uint8_t *)&its.bags[1] + wrong[nth][1], &most, sizeof most);
    said = made(BUILD_BAGS, &its, room, size);
    if (is_told ? said.status != DER_INVALID || said.second != 1 || said.third != wrong[nth][0]
                : said.status != DER_NORMAL || said.first != size)
      fault(BUILD_BAGS, "it tells another bag, or another part");
  }
  its.bags[1] = right;
  its.bags[1].has_friendly_name = its.bags[1].has_local_key_id = its.bags[1].has_attributes = 0;
  its.bags[1].friendly_name.len = its.bags[1].local_key_id.len = its.bags[1].attributes.len = most;
  said = made(BUILD_BAGS, &its, room, size);
  if (said.status != DER_NORMAL || said.first >= size)
    fault(BUILD_BAGS, "it looks at attributes that aren't there");
}

/* Builds no bags, and of each kind, and of a number that no kind has, two bags of the input with all attributes. */
static void bags(given its, uint8_t *room) {
  const size_t at = its.len - sizeof rest;
  const der_range identifier = {at, 3}, value = {0, at}, name = {at + 3, 6}, attributes = {at + 9, 28};
  its.count = 0;
  text(BUILD_BAGS, &its, room);
  its.count = 2;
  for (size_t kind = 0; kind <= DER_BAG_OTHER_CRL + 1; kind++) {
    its.bags[0] = its.bags[1] = (der_bag_given){
        .kind = kind, .has_friendly_name = 1, .has_local_key_id = 1, .has_attributes = 1, .identifier = identifier,
        .value = value, .friendly_name = name, .local_key_id = name, .attributes = attributes};
    const answer said = text(BUILD_BAGS, &its, room);
    if (said.status == DER_NORMAL)
      wrong_bags(its, room, said.first);
  }
}

/* Builds an AuthenticatedSafe of no contents, and of the input twice, as a ContentInfo and as a SafeContents; then with
 * what can't be written in the place of the second. */
static void contents(given its, uint8_t *room) {
  its.count = 0;
  text(BUILD_SAFE, &its, room);
  its.count = 2;
  for (size_t is_data = 0; is_data < 2; is_data++) {
    its.contents[0] = its.contents[1] =
        (der_content_given){.is_data = is_data, .octets = {0, its.len - sizeof rest}};
    answer said = text(BUILD_SAFE, &its, room);
    if (said.status != DER_NORMAL)
      continue;
    its.contents[1].octets.start = (size_t)-1;
    said = made(BUILD_SAFE, &its, room, said.first);
    if (said.status != DER_INVALID || said.second != 1)
      fault(BUILD_SAFE, "it tells another content");
  }
}

/* Builds a store with what can't be written in the place of each part in turn: that part is told, or without a MAC, but
 * for the AuthenticatedSafe, it isn't looked at. Then with a MAC whose algorithm has no parameters. */
static void wrong_stores(given its, uint8_t *room, size_t size) {
  static const size_t most = (size_t)-1, wrong[][2] = {
      {DER_STORE_PART_SAFE, offsetof(der_store_given, safe)},
      {DER_STORE_PART_DIGEST_ALGORITHM, offsetof(der_store_given, digest_algorithm)},
      {DER_STORE_PART_DIGEST_PARAMETERS, offsetof(der_store_given, digest_parameters)},
      {DER_STORE_PART_DIGEST, offsetof(der_store_given, digest)},
      {DER_STORE_PART_SALT, offsetof(der_store_given, salt)},
      {DER_STORE_PART_ITERATIONS, offsetof(der_store_given, iterations)}};
  const der_store_given right = its.store;
  answer said;
  for (size_t nth = 0; nth < sizeof wrong / sizeof *wrong; nth++) {
    const int is_told = right.has_mac || wrong[nth][0] == DER_STORE_PART_SAFE;
    its.store = right;
    memcpy((uint8_t *)&its.store + wrong[nth][1], &most, sizeof most);
    said = made(BUILD_STORE, &its, room, size);
    if (is_told ? said.status != DER_INVALID || said.second != wrong[nth][0]
                : said.status != DER_NORMAL || said.first != size)
      fault(BUILD_STORE, "it tells another part");
  }
  its.store = right;
  its.store.has_digest_parameters = 0;
  its.store.digest_parameters.start = most;
  said = made(BUILD_STORE, &its, room, size);
  if (said.status != DER_NORMAL || said.first != size)
    fault(BUILD_STORE, "it writes another element than NULL for parameters that aren't there");
}

/* Builds a store around the input, without a MAC and with one. */
static void stores(given its, uint8_t *room) {
  const size_t at = its.len - sizeof rest;
  for (size_t has_mac = 0; has_mac < 2; has_mac++) {
    its.store = (der_store_given){
        .has_mac = has_mac, .has_digest_parameters = 1, .iterations = 2048, .safe = {0, at},
        .digest_algorithm = {at, 3}, .digest_parameters = {at + 20, 2}, .digest = {at, sizeof rest},
        .salt = {at + 3, 6}};
    const answer said = text(BUILD_STORE, &its, room);
    if (said.status == DER_NORMAL)
      wrong_stores(its, room, said.first);
  }
}

/* A part that is given, and what is told where it can't be written: its number, and that of a signer or an element. */
typedef struct {
  size_t part, index;
  der_range *range;
  int is_looked_at, may_be_empty;
} told;

/* Builds with ranges that aren't inside of the input in the place of a part, also where the end of one is past 2^64,
 * and without any octets: the part is told, unless it may be so, or isn't looked at. */
static void wrong_ranges(call it, const given *its, told part, uint8_t *room, size_t size) {
  static const size_t most = (size_t)-1;
  const der_range right = *part.range, wrong[] = {{most, right.len},    {most, 1},     {right.start, most}, {1, most},
                                                  {its->len - 1, most}, {its->len, 1}, {its->len + 1, 0},   {0, 0}};
  const int has_index = numbers_of(it) > 2;
  for (size_t nth = 0; nth < sizeof wrong / sizeof *wrong; nth++) {
    const int may_be = !part.is_looked_at || (part.may_be_empty && !wrong[nth].start && !wrong[nth].len);
    *part.range = wrong[nth];
    const answer said = made(it, its, room, size);
    if (may_be ? said.status != DER_NORMAL || (!part.is_looked_at && said.first != size)
               : said.status != DER_INVALID || (has_index ? said.third : said.second) != part.part ||
                     (has_index && said.second != part.index))
      fault(it, "it takes what isn't inside of the input, or tells another part");
  }
  *part.range = right;
}

/* Builds attributes with what can't be written in the place of each part in turn: that part is told, or isn't looked
 * at. Then with other flags, which mean the same. */
static void wrong_attributes(given its, uint8_t *room, size_t size) {
  static const size_t most = (size_t)-1;
  der_attributes_given *now = &its.attributes;
  const told parts[] = {
      {DER_ATTRIBUTES_PART_CONTENT_TYPE, 0, &now->content_type, !!now->has_content_type, 0},
      {DER_ATTRIBUTES_PART_MESSAGE_DIGEST, 0, &now->message_digest, !!now->has_message_digest, 1},
      {DER_ATTRIBUTES_PART_SIGNING_TIME, 0, &now->signing_time, !!now->has_signing_time, 0},
      {DER_ATTRIBUTES_PART_ATTRIBUTES, 0, &now->attributes, !!now->has_attributes, 0}};
  size_t *const flags[] = {&now->has_content_type, &now->has_message_digest, &now->has_signing_time,
                           &now->has_attributes};
  for (size_t nth = 0; nth < sizeof parts / sizeof *parts; nth++) {
    wrong_ranges(BUILD_ATTRIBUTES, &its, parts[nth], room, size);
    *flags[nth] = *flags[nth] ? most : 0;
  }
  const answer said = made(BUILD_ATTRIBUTES, &its, room, size);
  if (said.status != DER_NORMAL || said.first != size)
    fault(BUILD_ATTRIBUTES, "a flag means something else where it isn't 1");
}

/* Builds no attributes, and all of them with the input in the place of each in turn, and in the place of none. */
static void attributes(given its, uint8_t *room) {
  const size_t at = its.len - sizeof rest;
  const der_attributes_given all = {
      .has_content_type = 1, .has_message_digest = 1, .has_signing_time = 1, .has_attributes = 1,
      .content_type = {at, 3}, .message_digest = {at + 3, 6}, .signing_time = {at + 46, 15},
      .attributes = {at + 9, 28}};
  der_range *const places[] = {&its.attributes.content_type, &its.attributes.message_digest,
                               &its.attributes.signing_time, &its.attributes.attributes};
  its.attributes = (der_attributes_given){0};
  answer said = text(BUILD_ATTRIBUTES, &its, room);
  wrong_attributes(its, room, said.first);
  for (size_t nth = 0; nth <= sizeof places / sizeof *places; nth++) {
    its.attributes = all;
    if (nth < sizeof places / sizeof *places)
      *places[nth] = (der_range){0, at};
    said = text(BUILD_ATTRIBUTES, &its, room);
    if (said.status == DER_NORMAL)
      wrong_attributes(its, room, said.first);
  }
}

/* All of which signed data is built here. */
typedef struct {
  der_range certificates[2], crls[2];
  der_signer_given signers[2];
} arrays;

/* Builds signed data with what can't be written in the place of each part in turn, of the second of two: it is told,
 * or isn't looked at. */
static void wrong_parts_of_signed(given its, arrays *of, uint8_t *room, size_t size) {
  der_signer_given *signer = &of->signers[1];
  const int has_signers = its.signers_len > 1, by_key = !!signer->has_key_identifier;
  const told parts[] = {
      {DER_SIGNED_PART_CONTENT_TYPE, 0, &its.file.content_type, 1, 0},
      {DER_SIGNED_PART_CONTENT, 0, &its.file.content, !!its.file.has_content, !its.file.is_element},
      {DER_SIGNED_PART_CERTIFICATE, 1, &of->certificates[1], its.certificates_len > 1, 0},
      {DER_SIGNED_PART_CRL, 1, &of->crls[1], its.crls_len > 1, 0},
      {DER_SIGNED_PART_IDENTIFIER, 1, &signer->certificate, has_signers && !by_key, 0},
      {DER_SIGNED_PART_IDENTIFIER, 1, &signer->key_identifier, has_signers && by_key, 1},
      {DER_SIGNED_PART_DIGEST_ALGORITHM, 1, &signer->digest_algorithm, has_signers, 0},
      {DER_SIGNED_PART_SIGNED_ATTRIBUTES, 1, &signer->signed_attributes, has_signers, 0},
      {DER_SIGNED_PART_SIGNATURE_ALGORITHM, 1, &signer->signature_algorithm, has_signers, 0},
      {DER_SIGNED_PART_SIGNATURE, 1, &signer->signature, has_signers, 1},
      {DER_SIGNED_PART_UNSIGNED_ATTRIBUTES, 1, &signer->unsigned_attributes, has_signers, 0}};
  for (size_t nth = 0; nth < sizeof parts / sizeof *parts; nth++)
    wrong_ranges(BUILD_SIGNED, &its, parts[nth], room, size);
}

/* The same; and with other flags, which mean the same, and with those that say that parts aren't there, which then
 * aren't looked at. */
static void wrong_signed(given its, arrays of, uint8_t *room, size_t size) {
  static const size_t most = (size_t)-1;
  its.certificates = of.certificates;
  its.crls = of.crls;
  its.signers = of.signers;
  wrong_parts_of_signed(its, &of, room, size);
  der_signer_given *signer = &of.signers[1];
  size_t *const flags[] = {&its.file.has_content, &its.file.is_element, &signer->has_key_identifier,
                           &signer->has_signed_attributes, &signer->has_unsigned_attributes};
  for (size_t nth = 0; nth < sizeof flags / sizeof *flags; nth++)
    *flags[nth] = *flags[nth] ? most : 0;
  answer said = made(BUILD_SIGNED, &its, room, size);
  if (said.status != DER_NORMAL || said.first != size)
    fault(BUILD_SIGNED, "a flag means something else where it isn't 1");
  its.file.has_content = signer->has_signed_attributes = signer->has_unsigned_attributes = 0;
  its.file.content.len = signer->signed_attributes.len = signer->unsigned_attributes.len = most;
  said = made(BUILD_SIGNED, &its, room, size);
  if (said.status != DER_NORMAL || (its.signers_len && said.first >= size))
    fault(BUILD_SIGNED, "it looks at parts that aren't there");
}

/* Builds signed data of these parts. */
static void signed_of(given its, const arrays *of, uint8_t *room) {
  its.certificates = of->certificates;
  its.crls = of->crls;
  its.signers = of->signers;
  const answer said = text(BUILD_SIGNED, &its, room);
  if (said.status == DER_NORMAL)
    wrong_signed(its, *of, room, said.first);
}

/* Builds signed data of nothing; of two certificates and two revocation lists, without signers; and of two signers too,
 * with the input in the place of the content, as octets and as an element, of the second certificate, of the second
 * list, and of each part of the second signer. */
static void signed_data(given its, uint8_t *room) {
  const size_t at = its.len - sizeof rest;
  const der_range input = {0, at}, algorithm = {at + 61, 9};
  const der_signer_given signer = {
      .has_key_identifier = 1, .has_signed_attributes = 1, .has_unsigned_attributes = 1, .key_identifier = {at + 3, 6},
      .digest_algorithm = algorithm, .signed_attributes = {at + 70, 48}, .signature_algorithm = algorithm,
      .signature = {at + 3, 6}, .unsigned_attributes = {at + 9, 28}};
  const arrays right = {{algorithm, algorithm}, {algorithm, algorithm}, {signer, signer}};
  arrays of = right;
  der_range *const places[] = {
      &of.certificates[1], &of.crls[1], &of.signers[1].certificate, &of.signers[1].key_identifier,
      &of.signers[1].digest_algorithm, &of.signers[1].signed_attributes, &of.signers[1].signature_algorithm,
      &of.signers[1].signature, &of.signers[1].unsigned_attributes};
  its.file = (der_signed_given){.content_type = {at + 37, 9}, .content = input};
  its.certificates_len = its.crls_len = its.signers_len = 0;
  signed_of(its, &of, room);
  its.certificates_len = its.crls_len = 2;
  signed_of(its, &of, room);
  its.signers_len = 2;
  for (size_t nth = 0; nth < sizeof places / sizeof *places; nth++) {
    of = right;
    *places[nth] = input;
    of.signers[1].has_key_identifier = places[nth] != &of.signers[1].certificate;
    signed_of(its, &of, room);
  }
  its.file.has_content = 1;
  for (its.file.is_element = 0; its.file.is_element < 2; its.file.is_element++)
    signed_of(its, &right, room);
}

/* Builds signed data of many certificates, revocation lists and signers, each of two octets of its own. */
static void many_signed(uint8_t *room) {
  enum { MANY = 10000 };
  static uint8_t input[4 * MANY + 18];
  static der_range elements[MANY];
  static der_signer_given signers[MANY];
  static const uint8_t others[] = {0x2A, 0x86, 0x48, 0x86, 0xF7, 0x0D, 1, 7, 1, 0x30, 7, 6, 3, 0x2A, 3, 4, 5, 0};
  const size_t at = 4 * MANY;
  const given its = {.input = input, .len = sizeof input, .file = {.content_type = {at, 9}}, .certificates = elements,
                     .crls = elements, .signers = signers, .certificates_len = MANY, .crls_len = MANY,
                     .signers_len = MANY};
  memcpy(input + at, others, sizeof others);
  for (size_t nth = 0; nth < MANY; nth++) {
    const size_t number = MANY - nth;
    const uint8_t element[] = {0x30, 2, (uint8_t)(number / 256), (uint8_t)number};
    const der_range own = {4 * nth + 2, 2}, algorithm = {at + 9, 9};
    memcpy(input + 4 * nth, element, sizeof element);
    elements[nth] = (der_range){4 * nth, 4};
    signers[nth] = (der_signer_given){.has_key_identifier = 1, .key_identifier = own, .digest_algorithm = algorithm,
                                      .signature_algorithm = algorithm, .signature = own};
  }
  const answer said = tried_some(BUILD_SIGNED, &its, room, LONGEST, 1);
  tried_some(BUILD_SIGNED, &its, room, said.first - 1, 1);
}

/* Builds indirect data with what can't be written in the place of each part in turn: that part is told, or isn't looked
 * at. Then with other flags, which mean the same, and with those that say that parts aren't there, which then aren't
 * looked at. */
static void wrong_indirect(given its, uint8_t *room, size_t size) {
  static const size_t most = (size_t)-1;
  der_indirect_parts *now = &its.indirect;
  const int is_image = !!now->is_image;
  const told parts[] = {{DER_INDIRECT_PART_ATTRIBUTE_TYPE, 0, &now->attribute_type, !is_image, 0},
                        {DER_INDIRECT_PART_ATTRIBUTE_VALUE, 0, &now->attribute_value, !is_image, 0},
                        {DER_INDIRECT_PART_DIGEST_ALGORITHM, 0, &now->digest_algorithm, 1, 0},
                        {DER_INDIRECT_PART_DIGEST, 0, &now->digest, 1, 1},
                        {DER_INDIRECT_PART_IMAGE_FLAGS, 0, &now->image_flags, is_image, 0},
                        {DER_INDIRECT_PART_IMAGE_LINK, 0, &now->image_link, is_image, 0}};
  for (size_t nth = 0; nth < sizeof parts / sizeof *parts; nth++)
    wrong_ranges(BUILD_INDIRECT, &its, parts[nth], room, size);
  now->is_image = is_image ? most : 0;
  now->has_attribute_value = now->has_image_flags = now->has_image_link = most;
  answer said = made(BUILD_INDIRECT, &its, room, size);
  if (said.status != DER_NORMAL || said.first != size)
    fault(BUILD_INDIRECT, "a flag means something else where it isn't 1");
  now->has_attribute_value = now->has_image_flags = now->has_image_link = 0;
  now->attribute_value.len = now->image_flags.len = now->image_link.len = most;
  said = made(BUILD_INDIRECT, &its, room, size);
  if (said.status != DER_NORMAL || said.first >= size)
    fault(BUILD_INDIRECT, "it looks at parts that aren't there");
}

/* Builds indirect data of another file and of a program, with the input in the place of each part in turn, and in the
 * place of none. */
static void indirect(given its, uint8_t *room) {
  const size_t at = its.len - sizeof rest;
  const der_indirect_parts all = {
      .has_attribute_value = 1, .has_image_flags = 1, .has_image_link = 1, .attribute_type = {at, 3},
      .attribute_value = {at + 9, 28}, .digest_algorithm = {at + 61, 9}, .digest = {at + 3, 6},
      .image_flags = {at + 3, 6}, .image_link = {at + 9, 28}};
  der_range *const places[] = {&its.indirect.attribute_type, &its.indirect.attribute_value,
                               &its.indirect.digest_algorithm, &its.indirect.digest, &its.indirect.image_flags,
                               &its.indirect.image_link};
  enum { PLACES = sizeof places / sizeof *places };
  for (size_t nth = 0; nth < 2 * (PLACES + 1); nth++) {
    its.indirect = all;
    its.indirect.is_image = nth / (PLACES + 1);
    if (nth % (PLACES + 1) < PLACES)
      *places[nth % (PLACES + 1)] = (der_range){0, at};
    const answer said = text(BUILD_INDIRECT, &its, room);
    if (said.status == DER_NORMAL)
      wrong_indirect(its, room, said.first);
  }
}

/* Builds indirect data of what is found in the input. */
static void found_indirect(given its, uint8_t *room) {
  const answer said = tried(INDIRECT, &its, room, sizeof its.indirect);
  memcpy(&its.indirect, room + MARGIN, sizeof its.indirect);
  if (said.status == DER_NORMAL)
    text(BUILD_INDIRECT, &its, room);
}

/* Builds a recipient with what can't be written in the place of each part in turn: that part is told, or isn't looked
 * at. Then with other flags, which mean the same. */
static void wrong_recipient(given its, uint8_t *room, size_t size) {
  static const size_t most = (size_t)-1;
  der_recipient_given *now = &its.recipient;
  const int by_key = now->is_kek || now->has_key_identifier;
  const told parts[] = {{DER_RECIPIENT_PART_IDENTIFIER, 0, &now->certificate, !by_key, 0},
                        {DER_RECIPIENT_PART_IDENTIFIER, 0, &now->key_identifier, by_key, 1},
                        {DER_RECIPIENT_PART_ALGORITHM, 0, &now->algorithm, 1, 0},
                        {DER_RECIPIENT_PART_KEY, 0, &now->key, 1, 1}};
  for (size_t nth = 0; nth < sizeof parts / sizeof *parts; nth++)
    wrong_ranges(BUILD_RECIPIENT, &its, parts[nth], room, size);
  now->has_key_identifier = now->is_kek ? !now->has_key_identifier : now->has_key_identifier ? most : 0;
  now->is_kek = now->is_kek ? most : 0;
  const answer said = made(BUILD_RECIPIENT, &its, room, size);
  if (said.status != DER_NORMAL || said.first != size)
    fault(BUILD_RECIPIENT, "a flag means something else where it isn't 1, or of a key-encryption key");
}

/* Builds recipients with a key pair and with a key-encryption key, with the input in the place of each part in turn,
 * and in the place of none. A certificate in the input names the former. */
static void recipients(given its, uint8_t *room) {
  const size_t at = its.len - sizeof rest;
  der_range *const places[] = {&its.recipient.certificate, &its.recipient.key_identifier, &its.recipient.algorithm,
                               &its.recipient.key};
  enum { PLACES = sizeof places / sizeof *places };
  for (size_t nth = 0; nth < 2 * (PLACES + 1); nth++) {
    const size_t place = nth % (PLACES + 1);
    its.recipient = (der_recipient_given){.is_kek = nth / (PLACES + 1), .has_key_identifier = place > 0,
                                          .key_identifier = {at + 3, 6}, .algorithm = {at + 61, 9}, .key = {at + 3, 6}};
    if (place < PLACES)
      *places[place] = (der_range){0, at};
    const answer said = text(BUILD_RECIPIENT, &its, room);
    if (said.status == DER_NORMAL)
      wrong_recipient(its, room, said.first);
  }
}

/* Builds enveloped data with what can't be written in the place of each part in turn, and of each of two recipients: it
 * is told, or isn't looked at. Then without a recipient. */
static void wrong_parts_of_enveloped(given its, uint8_t *room, size_t size) {
  der_range two[] = {its.recipients[0], its.recipients[1]};
  der_enveloped_given *now = &its.enveloped;
  const told parts[] = {{DER_ENVELOPED_PART_CONTENT_TYPE, 0, &now->content_type, 1, 0},
                        {DER_ENVELOPED_PART_ALGORITHM, 0, &now->algorithm, 1, 0},
                        {DER_ENVELOPED_PART_CONTENT, 0, &now->content, !!now->has_content, 1},
                        {DER_ENVELOPED_PART_RECIPIENT, 0, &two[0], 1, 0},
                        {DER_ENVELOPED_PART_RECIPIENT, 1, &two[1], 1, 0},
                        {DER_ENVELOPED_PART_ATTRIBUTES, 0, &now->attributes, !!now->has_attributes, 0}};
  its.recipients = two;
  for (size_t nth = 0; nth < sizeof parts / sizeof *parts; nth++)
    wrong_ranges(BUILD_ENVELOPED, &its, parts[nth], room, size);
  its.recipients_len = 0;
  const answer said = made(BUILD_ENVELOPED, &its, room, size);
  if (said.status != DER_INVALID || said.second || said.third != DER_ENVELOPED_PART_RECIPIENTS)
    fault(BUILD_ENVELOPED, "it takes no recipients, or tells another part");
}

/* The same; and with other flags, which mean the same, and with those that say that parts aren't there, which then
 * aren't looked at. */
static void wrong_enveloped(given its, uint8_t *room, size_t size) {
  static const size_t most = (size_t)-1;
  der_enveloped_given *now = &its.enveloped;
  const int has_more = now->has_content || now->has_attributes;
  wrong_parts_of_enveloped(its, room, size);
  now->has_content = now->has_content ? most : 0;
  now->has_attributes = now->has_attributes ? most : 0;
  answer said = made(BUILD_ENVELOPED, &its, room, size);
  if (said.status != DER_NORMAL || said.first != size)
    fault(BUILD_ENVELOPED, "a flag means something else where it isn't 1");
  now->has_content = now->has_attributes = 0;
  now->content.len = now->attributes.len = most;
  said = made(BUILD_ENVELOPED, &its, room, size);
  if (said.status != DER_NORMAL || (has_more ? said.first >= size : said.first != size))
    fault(BUILD_ENVELOPED, "it looks at parts that aren't there");
}

/* Builds enveloped data without a recipient; and of two, without content and attributes and with both, with the input
 * in the place of the second recipient, and of each other part in turn, and in the place of none. */
static void enveloped(given its, uint8_t *room) {
  const size_t at = its.len - sizeof rest;
  const der_range recipient = {at + 118, 5};
  der_range two[2];
  der_range *const places[] = {&its.enveloped.content_type, &its.enveloped.algorithm, &its.enveloped.content, &two[1],
                               &its.enveloped.attributes};
  enum { PLACES = sizeof places / sizeof *places };
  its.recipients = two;
  for (size_t nth = 0; nth < 2 * (PLACES + 1); nth++) {
    const size_t place = nth % (PLACES + 1), has_more = nth / (PLACES + 1);
    two[0] = two[1] = recipient;
    its.enveloped = (der_enveloped_given){.has_content = has_more, .has_attributes = has_more,
                                          .content_type = {at + 37, 9}, .algorithm = {at + 61, 9},
                                          .content = {at + 3, 6}, .attributes = {at + 9, 28}};
    its.recipients_len = 0;
    if (!place)
      text(BUILD_ENVELOPED, &its, room);
    if (place < PLACES)
      *places[place] = (der_range){0, at};
    its.recipients_len = 2;
    const answer said = text(BUILD_ENVELOPED, &its, room);
    if (said.status == DER_NORMAL)
      wrong_enveloped(its, room, said.first);
  }
}

/* Builds enveloped data of many recipients, each with two octets of its own. */
static void many_enveloped(uint8_t *room) {
  enum { MANY = 10000 };
  static uint8_t input[9 * MANY + 18];
  static der_range elements[MANY];
  static const uint8_t others[] = {0x2A, 0x86, 0x48, 0x86, 0xF7, 0x0D, 1, 7, 1, 0x30, 7, 6, 3, 0x2A, 3, 4, 5, 0};
  const size_t at = 9 * MANY;
  const given its = {.input = input, .len = sizeof input, .recipients = elements, .recipients_len = MANY,
                     .enveloped = {.content_type = {at, 9}, .algorithm = {at + 9, 9}}};
  memcpy(input + at, others, sizeof others);
  for (size_t nth = 0; nth < MANY; nth++) {
    const size_t number = MANY - nth;
    const uint8_t element[] = {0x30, 7, 2, 1, 0, 4, 2, (uint8_t)(number / 256), (uint8_t)number};
    memcpy(input + 9 * nth, element, sizeof element);
    elements[nth] = (der_range){9 * nth, 9};
  }
  const answer said = tried_some(BUILD_ENVELOPED, &its, room, LONGEST, 1);
  tried_some(BUILD_ENVELOPED, &its, room, said.first - 1, 1);
}

/* Builds bags, stores, signed data, indirect data and enveloped data of the input. */
static void built(given its, uint8_t *room) {
  its.len += sizeof rest;
  bags(its, room);
  contents(its, room);
  stores(its, room);
  attributes(its, room);
  signed_data(its, room);
  indirect(its, room);
  recipients(its, room);
  enveloped(its, room);
}

int main(int count, char **words) {
  static uint8_t input[LONGEST + sizeof rest];
  static _Alignas(der_signer_parts) uint8_t room[MARGIN + 2 * LONGEST + MARGIN];
  given its = {0};
  answer said;
  if (count == 1) {
    kinds(room);
    many_signed(room);
    many_enveloped(room);
    return 0;
  }
  its.kind = words[1];
  its.input = input;
  its.is_limited = count == 3;
  if (its.is_limited)
    its.limit = (unsigned)strtoul(words[2], NULL, 10);
  its.len = fread(input, 1, LONGEST, stdin);
  if (count > 3 || its.len == LONGEST)
    return 2;
  memcpy(input + its.len, rest, sizeof rest);
  if (!its.is_limited) {
    tried(LOCATE, &its, room, 0);
    tried(LOOSE_END, &its, room, 0);
  }
  said = tried(CHECK, &its, room, 0);
  if (said.first > 2 * LONGEST - SPARE)
    return 2;
  tried(REWRITE, &its, room, (said.first ? said.first : its.len) + SPARE);
  if (said.status <= DER_LOOSE)
    tried(REWRITE, &its, room, said.first - 1);
  tried(MAC, &its, room, 0);
  tried(MAC_NUMBERS, &its, room, 0);
  said = tried(FROM_BER, &its, room, 2 * its.len);
  if (said.status == DER_NORMAL) {
    tried(FROM_BER, &its, room, said.first);
    tried(FROM_BER, &its, room, said.first - 1);
  }
  tried(MAC_BER, &its, room, 0);
  parts(PART, &its, room);
  parts(MAC_PART_BER, &its, room);
  if (8 * (its.len + sizeof rest) + SPARE > 2 * LONGEST)
    return 2;
  text(NAME, &its, room);
  text(OID, &its, room);
  text(OID_OCTETS, &its, room);
  text(OID_NAME, &its, room);
  text(UTF16, &its, room);
  text(TEXT_UTF16, &its, room);
  signers(&its, room);
  ranges(&its, room);
  listed(BAGS, &its, room, sizeof(der_bag_parts));
  tried(CERTIFICATE, &its, room, sizeof(der_certificate_parts));
  found_indirect(its, room);
  tried(TRUST_LIST, &its, room, sizeof(der_trust_list_parts));
  listed(TRUST_ROWS, &its, room, sizeof(der_trust_entry_parts));
  passwords(&its, room);
  built(its, room);
  its.len = its.len < LONGEST_INTEGER ? its.len : LONGEST_INTEGER;
  text(INTEGER, &its, room);
  return 0;
}
