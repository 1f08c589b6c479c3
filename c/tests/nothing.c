/* nothing < FILE makes each function of der.h that takes an input or a room with a null pointer for what has no octets, and
 * asks that it answers what it does with a pointer that isn't null. FILE is a PKCS #12 file. Ends with 1, and says which
 * differ, where one does. */
#include "der.h"

#include <stdio.h>

static int different;

static void same(const char *call, der_status status, der_status wanted) {
  if (status == wanted) return;
  printf("%s: %s, and not %s\n", call, der_status_word(status), der_status_word(wanted));
  different = 1;
}

/* Of an input of no octets each call refuses that an element is missing. */
static void no_input(void) {
  uint8_t out[8];
  size_t len, place;
  der_range range;
  der_signer_parts signer;
  der_bag_parts bag;
  der_trust_entry_parts entry;
  same("der_check", der_check("pfx", NULL, 0, &len), DER_MISSING);
  same("der_check_limited", der_check_limited("pfx", 3, NULL, 0, &len), DER_MISSING);
  same("der_locate", der_locate("pfx", NULL, 0, &place), DER_MISSING);
  same("der_loose_end", der_loose_end("pfx", NULL, 0, &place), DER_MISSING);
  same("der_rewrite", der_rewrite("pfx", NULL, 0, out, sizeof out, &len), DER_MISSING);
  same("der_rewrite_limited", der_rewrite_limited("pfx", 3, NULL, 0, out, sizeof out, &len), DER_MISSING);
  same("der_part", der_part(DER_PART_STORE_BAG, 0, NULL, 0, out, sizeof out, &len, &place), DER_MISSING);
  same("der_ranges", der_ranges(DER_PART_CERTIFICATE, NULL, 0, &range, 1, &len, &place), DER_MISSING);
  same("der_attributes", der_attributes(1, 0, NULL, 0, &range, 1, &len, &place), DER_MISSING);
  same("der_signers", der_signers(NULL, 0, 0, &signer, 1, &len, &place), DER_MISSING);
  same("der_signer", der_signer(0, NULL, 0, &signer, &place), DER_MISSING);
  same("der_bags", der_bags(NULL, 0, &bag, 1, &len, &place), DER_MISSING);
  same("der_trust_entries", der_trust_entries(NULL, 0, &entry, 1, &len, &place), DER_MISSING);
}

/* With no room for octets or rows each call says how many are needed, or that there are none. */
static void no_room(const uint8_t *store, size_t store_len) {
  size_t len, place;
  same("der_rewrite", der_rewrite("rawpfx", store, store_len, NULL, 0, &len), DER_NO_ROOM);
  same("der_part", der_part(DER_PART_STORE_BAG, 0, store, store_len, NULL, 0, &len, &place), DER_NO_ROOM);
  same("der_bags", der_bags(store, store_len, NULL, 0, &len, &place), DER_NO_ROOM);
  same("der_kind", der_kind(0, NULL, 0, &len), DER_NO_ROOM);
  same("der_ranges", der_ranges(DER_PART_CERTIFICATE, store, store_len, NULL, 0, &len, &place), DER_INVALID);
  same("der_attributes", der_attributes(1, 0, store, store_len, NULL, 0, &len, &place), DER_INVALID);
  same("der_signers", der_signers(store, store_len, 0, NULL, 0, &len, &place), DER_INVALID);
  same("der_trust_entries", der_trust_entries(store, store_len, NULL, 0, &len, &place), DER_INVALID);
}

int main(void) {
  static uint8_t store[1 << 16];
  size_t store_len = fread(store, 1, sizeof store, stdin);
  if (ferror(stdin) || !feof(stdin)) return 2;
  no_input();
  no_room(store, store_len);
  return different;
}
