/* Checks and rewritings of DER, the parts of containers that a verifier needs, as octets, those of certificates and of
 * the contents of signed data, the parameters of encryption with a password, conversions of BER to DER, and PKCS #12
 * files, signed data, indirect data, enveloped data and such parameters built from their parts: the static library
 * der_c. Only der_from_ber takes BER. If an input may be BER, convert it by der_from_ber, and pass what that wrote to
 * the other calls. To verify the MAC of such a PKCS #12 file, call der_mac_ber and der_mac_part_ber in place of der_mac
 * and der_part.
 *
 * What is proved of its calls der_check_word_limited, der_rewrite_word_limited, der_kind_word, der_part_octets,
 * der_signer_rows, der_part_ranges, der_attribute_ranges, der_mac_range, der_mac, der_from_ber, der_mac_ber,
 * der_mac_part_ber, der_name_text, der_oid_text, der_oid_octets, der_oid_name, der_integer_text, der_utf16_text,
 * der_text_utf16, der_bag_rows, der_certificate, der_indirect, der_trust_list, der_trust_rows, der_password_parameters,
 * der_build_parameters, der_build_bags, der_build_safe, der_build_store, der_build_attributes, der_build_signed,
 * der_build_indirect, der_build_recipient and der_build_enveloped, for all inputs, and what isn't:
 *  - A call answers no status but those that are listed at it. What it writes into numbers and into out is as said
 *    below.
 *  - DER_NORMAL, DER_LOOSE, DER_UNKNOWN_KIND, DER_NO_ROOM, DER_NO_RANGE and DER_NO_PART are true where they are
 *    answered. So is DER_TOO_LONG, unless der_bag_rows answers it, or der_part_octets for a part of a store.
 *    DER_BAD_ATTRIBUTES is true where a row of der_signer_rows has it: of an empty set of signed attributes it is proved
 *    that the signer's value has none, and that the input has the signer's algorithms with the octets A0 00 between
 *    them.
 *  - At DER_MALFORMED, DER_MISSING, DER_INVALID and DER_TOO_DEEP:
 *     - of a check or a rewriting, the input is no encoding of the kind;
 *     - of der_from_ber, the input has no DER;
 *     - of the calls for parts, signers and ranges, the input isn't what has the part;
 *     - of the calls that write text, the input has no text; of der_oid_octets, the text spells no octets; of
 *       der_text_utf16, the text isn't UTF-8;
 *     - of der_build_bags and der_build_safe, the bag or the content whose index they write can't be written;
 *     - of der_build_signed, the parts that are given can't be written;
 *     - of the other calls that build, nothing can be built from what is given.
 *    Where a call has several of the four, which of them it is isn't proved: tests tell them apart.
 *  - Of the bags of a store, and of parts of these, DER_TOO_LONG says the same as the four: the input has no such rows
 *    as der_bag_rows writes at DER_NORMAL.
 *  - That memory was refused where a call answers DER_NO_MEMORY isn't proved. Tests show that calls with memory enough
 *    don't answer it, on inputs of up to 190 KB and of hundreds of parts, and that calls keep no memory.
 *  - The functions in this file, in C, are tested and not proved, nor are der_version and der_processor.
 *
 * What a caller has to keep to:
 *  - word, input, octets, text, given, bags, contents, certificates, crls, signers, recipients, out and the pointers to
 *    numbers aren't null, also where a length is 0; but the functions in this file take null for an input or out of
 *    length 0. word, input, octets and text point to so many bytes that can be read, given to one struct that can be
 *    read, bags, contents, certificates, crls, signers and recipients to so many structs that can be read, and out to
 *    so many bytes that can be read and written. For an empty list pass any aligned pointer that isn't null, and 0.
 *  - A pointer to a number is aligned as a size_t is, and what it points to can be written. out of der_signer_rows,
 *    der_bag_rows, der_trust_rows and the calls for ranges points to out_len structs and not bytes, that of
 *    der_certificate, der_indirect, der_trust_list and der_password_parameters to one, and is aligned so too. So are
 *    given, bags, contents, certificates, crls, signers and recipients.
 *  - The string kind ends in a zero byte.
 *  - out and each number overlap nothing else that is passed, also not given, bags, contents, certificates, crls,
 *    signers or recipients, and not one another.
 *  - While a call runs nothing else reads or writes out or the numbers, and nothing writes word, input, octets, text,
 *    given, bags, contents, certificates, crls, signers or recipients: no other thread, and no signal handler.
 *  - Lengths are below 2^63.
 *  - Memory comes from malloc, realloc and free, which are those of one allocator. A block of malloc and of realloc is
 *    aligned to each power of two up to 16 that divides its size.
 *  - No call is made from a signal handler, nor from the child that a process with threads forked.
 *  - The stack has room for the nesting of the input: see DER_MAX_NESTING.
 *  - The system is Linux, and the processor is one that the library was built for, which der_processor says. Where that
 *    is x86-64, any of them is; where it is x86-64-v2, one that has SSE4.2 and POPCNT. On an older one the loader
 *    starts no program with an installed library, or an illegal instruction ends the program. package/install and
 *    .ci/library take x86-64 by default, and `rt lib` takes x86-64-v2.
 * Calls share nothing, so threads may make them side by side, each with an out and numbers of its own. */
#ifndef DER_H
#define DER_H

#include <stddef.h>
#include <stdint.h>
#include <string.h>

#ifdef __cplusplus
extern "C" {
#endif

/* A compiler that knows these attributes warns where a status isn't looked at, or a null pointer is passed to a call of
 * the library. */
#if defined(__GNUC__) || defined(__clang__)
#define DER_LOOK __attribute__((warn_unused_result))
#define DER_CALL __attribute__((warn_unused_result, nonnull))
#else
#define DER_LOOK
#define DER_CALL
#endif

/* The version of an installed library, and the processors that it was built for, as constant strings: "0.2.0", and
 * "x86-64" or "x86-64-v2". A caller compares der_version with DER_VERSION, with which an installed header begins, by
 * strcmp; DER_VERSION_NUMBER is 10000, 100 and 1 times its three numbers, for #if. A library that `rt lib` left has
 * neither call. */
#ifdef DER_VERSION
const char *der_version(void);
const char *der_processor(void);
#endif

/* The most levels of nesting that an input may have: bags in bags, signed data in time stamps, counter signatures of
 * counter signatures. A level takes 1.3 to 2.8 KB of stack, so 64 levels take up to 180, and a program that checks them
 * passes with 288 KB in all, with its environment and arguments. A caller on a smaller stack passes a lower limit to
 * der_check_limited and der_rewrite_limited. That is measured, not proved. */
#define DER_MAX_NESTING 64

typedef enum der_status {
  DER_NORMAL = 0,       /* the input is normal; of a call that writes more than a length: it is done */
  DER_LOOSE = 1,        /* the input has another encoding, which is normal */
  DER_UNKNOWN_KIND = 2, /* no kind has that word, or that index; no part, or no holder, has that number */
  DER_MALFORMED = 3,    /* 3 to 6: the input is no encoding of the kind: bytes that are no element, or too many */
  DER_MISSING = 4,      /* an element isn't there */
  DER_INVALID = 5,      /* a tag, version, object identifier, character, number or part that can't be there */
  DER_TOO_DEEP = 6,     /* more levels of nesting than the limit */
  DER_TOO_LONG = 7,     /* its normal encoding, that of the part, or what is built has 2^64 bytes or more; of a part of
                           a store, no clause says so */
  DER_NO_MEMORY = 8,    /* a request for memory was refused: nothing is said of the input */
  DER_NO_ROOM = 9,      /* out is too short: the number of bytes, or of ranges, that are needed is written */
  DER_NO_RANGE = 10,    /* authSafe isn't data, so no octets are covered by a MAC */
  DER_NO_PART = 11,     /* the container has no such part, or not so many; the file has no MAC; no name is known */
  DER_BAD_ATTRIBUTES = 12 /* of a signer: its signed attributes, or their absence, break RFC 5652 */
} der_status;

/* The parts of containers. Each is of the type that the input is read as, which is said before it. */
typedef enum der_part_number {
  /* signed data with its content type, of any CMSVersion, with signers of any CMSVersion, which isn't compared with how
   * they are named, and over content of any type (RawPkcs7Certificate; RFC 5652, 5) */
  DER_PART_HASHED_CONTENT = 0,      /* contents octets of the content, which are hashed; the index isn't looked at */
  DER_PART_CERTIFICATE = 1,         /* a certificate, or another choice, as it is in certificates: any element,
                                     * whatever its tag */
  DER_PART_SIGNED_ATTRIBUTES = 2,   /* of a signer: signedAttrs under the tag of a SET OF, which the signature covers; in
                                     * the file's order, also where that isn't DER's */
  DER_PART_ISSUER = 3,              /* of a signer: the encoding of the issuer's Name */
  DER_PART_SERIAL_NUMBER = 4,       /* of a signer: the contents octets of serialNumber, an INTEGER */
  DER_PART_KEY_IDENTIFIER = 5,      /* of a signer: the octets of subjectKeyIdentifier */
  DER_PART_DIGEST_ALGORITHM = 6,    /* of a signer: the contents octets of the object identifier */
  DER_PART_SIGNATURE_ALGORITHM = 7, /* of a signer: the encoding of signatureAlgorithm, with its parameters */
  DER_PART_SIGNATURE = 8,           /* of a signer: the octets of signature */
  /* a PKCS #12 file, in the order of der_bag_rows and with its statuses: without what is encrypted, and with bags in
   * bags (RFC 7292, 4) */
  DER_PART_STORE_CERTIFICATE = 9,    /* an X.509 certificate, as it is: any octets, or none, which aren't looked at */
  DER_PART_STORE_KEY = 10,           /* a key that isn't encrypted: a PrivateKeyInfo, as it is */
  DER_PART_STORE_ENCRYPTED_KEY = 11, /* an encrypted key: an EncryptedPrivateKeyInfo, as it is */
  DER_PART_STORE_BAG = 12,           /* a bag, as it is, with all that it holds; what is unread is no bag */
  /* "rawpfx": the MAC of a PKCS #12 file; the index isn't looked at */
  DER_PART_MAC_DIGEST_ALGORITHM = 13, /* the contents octets of the object identifier */
  DER_PART_MAC_DIGEST = 14,           /* what a verifier compares with the MAC that it makes, and first their lengths:
                                       * whoever made the file chose it, and it may have any length, also 0 */
  DER_PART_MAC_SALT = 15,             /* macSalt */
  /* of enveloped data under its content type, a ContentInfo (RFC 5652, 3 and 6.1): der_ranges alone knows these */
  DER_PART_RECIPIENT = 16,            /* a RecipientInfo of any kind, as it is: any element, whatever its tag */
  DER_PART_ENCRYPTION_ALGORITHM = 17, /* contentEncryptionAlgorithm, with its parameters: one item */
  DER_PART_ENCRYPTED_CONTENT = 18     /* the octets of encryptedContent: one item, or none where that is absent */
} der_part_number;

/* The calls themselves, which answer a der_status. The functions that follow them take strings. A limit above 64 counts
 * as 64. */
DER_CALL
uint32_t der_check_word_limited(const uint8_t *word, size_t word_len, uint8_t limit, const uint8_t *input,
                                size_t input_len, size_t *normal_len, size_t *place);
DER_CALL
uint32_t der_rewrite_word_limited(const uint8_t *word, size_t word_len, uint8_t limit, const uint8_t *input,
                                  size_t input_len, uint8_t *out, size_t out_len, size_t *written);
DER_CALL
uint32_t der_kind_word(size_t index, uint8_t *out, size_t out_len, size_t *written);
DER_CALL
uint32_t der_part_octets(size_t number, size_t index, const uint8_t *input, size_t input_len, uint8_t *out,
                         size_t out_len, size_t *written, size_t *place);

/* Octets of the input: len of them, from input + start on. All of them are inside of it. */
typedef struct der_range {
  size_t start, len;
} der_range;

/* Where the input has each item of a part, in one reading, where der_part_octets reads it anew for each. number is
 * DER_PART_CERTIFICATE: certificates of signed data, or other choices. Or it is one of the three parts of enveloped
 * data.
 *  - DER_NORMAL: *count ranges are at the front of out, in the order of the items, and the rest of out is as it was.
 *  - DER_NO_ROOM: there are *count items, and out_len is less.
 *  - DER_UNKNOWN_KIND: the items of the part with that number aren't listed, or no part has it.
 *  - DER_MALFORMED to DER_TOO_DEEP: the input is no signed or no enveloped data, and *place says where, as of
 *    der_locate.
 *  - DER_NO_MEMORY: *place is an offset without use.
 *  - DER_NO_RANGE: never.
 * Unless at DER_NORMAL out is as it was, unless at DER_NORMAL and DER_NO_ROOM *count is 0, and but for the refusals and
 * DER_NO_MEMORY *place is 0. Proved is that each item has a range, which is the place of the item itself, not only of
 * equal octets. */
DER_CALL
uint32_t der_part_ranges(size_t number, const uint8_t *input, size_t input_len, der_range *out, size_t out_len,
                         size_t *count, size_t *place);

/* Where signed data, as of DER_PART_CERTIFICATE, have each attribute of the signer with that index, an Attribute with
 * its type and values (RFC 5652, 5.3): each signed one, or, where is_signed is 0, each unsigned one, as a
 * countersignature or a time stamp. At DER_NO_PART there are fewer signers. Any other status is as of der_part_ranges,
 * but never DER_UNKNOWN_KIND. */
DER_CALL
uint32_t der_attribute_ranges(size_t is_signed, size_t index, const uint8_t *input, size_t input_len, der_range *out,
                              size_t out_len, size_t *count, size_t *place);

/* What a verification of one signer needs (RFC 5652, 5.3 to 5.6). A verifier
 *  1. takes the signer only where status is DER_NORMAL;
 *  2. where over_attributes is 1, hashes the content's octets by digest_algorithm, and compares with digest, first
 *     their lengths: digest may have any, also 0;
 *  3. verifies signature over what der_covered copies, by signature_algorithm and the certificate's key.
 * Where has_content is 0 the signature is detached, and the content's octets are the caller's. So are the octets that
 * the signature covers, where over_attributes is 0 too: covered then has none. Nothing in a signature says whether it
 * covers signed attributes or the content (RFC 5652, 5.4): where a key always signs with attributes, refuse signers
 * whose over_attributes is 0, and where it never does, those whose over_attributes is 1. That the certificate is to be
 * trusted, and may sign, isn't looked at. Where there is no signer, nobody signed anything. */
typedef struct der_signer_parts {
  size_t status;                 /* DER_NORMAL, or DER_BAD_ATTRIBUTES, or what der_signer answers: all else is 0 then */
  size_t over_attributes;        /* 1: the signature covers signed attributes, 0: the content */
  size_t has_content;            /* 1: the content is in the input */
  size_t has_certificate;        /* 1: a certificate of the input is the one that the signer names */
  der_range covered;             /* signed attributes, whose first octet is to be 0x31, not 0xA0; or the content */
  der_range digest;              /* messageDigest, which the digest of the content has to be; none without attributes */
  der_range content;             /* the contents octets of the content, which are hashed */
  der_range digest_algorithm;    /* an AlgorithmIdentifier, with its parameters */
  der_range signature_algorithm; /* the same */
  der_range signature;           /* the octets of the signature */
  der_range certificate;         /* the first that has the signer's issuer and serial number, or its key identifier */
} der_signer_parts;

/* What a verifier needs of the signers of signed data, of any CMSVersion and over content of any type (RawSignedData),
 * in one reading. out has room for out_len signers, and takes those with the index first and after.
 *  - DER_NORMAL: *count is how many signers there are in all, and where it is 0 nothing is signed. Those asked for are
 *    at the front of out, at most out_len, and the rest of out is as it was. The status of each is DER_BAD_ATTRIBUTES
 *    where signed attributes are an empty set, A0 00, lack messageDigest or contentType, have one of them several
 *    times, with no value or with several, where contentType is another than the content's, or where there are none and
 *    the content's type isn't id-data (RFC 5652, 5.3, 11.1, 11.2). A second signingTime isn't looked at.
 *  - DER_MALFORMED to DER_TOO_DEEP: the input is no signed data, and *place says where, as of der_locate.
 *  - DER_NO_MEMORY: *place is an offset without use.
 *  - DER_NO_RANGE: never.
 * Unless at DER_NORMAL out is as it was and *count is 0; at DER_NORMAL *place is 0. Proved is that each range is the
 * place of that part of that signer, and that the octets there are those of the part: steps over the headers lead there
 * from the input's first octet. Into the file's element, past its content type, into [0] and SignedData in it; past
 * version, digestAlgorithms, encapContentInfo, [0] and [1] if they are there, into signerInfos; past the signers before;
 * and in the signer past the components before the part. The content is found so in encapContentInfo, and in [0] the
 * certificate: the first that the signer names, also of two with equal octets. */
DER_CALL
uint32_t der_signer_rows(const uint8_t *input, size_t input_len, size_t first, der_signer_parts *out, size_t out_len,
                         size_t *count, size_t *place);

/* What a bag holds: up to DER_BAG_SAFE_CONTENTS the last number of its object identifier (RFC 7292, 4.2). */
typedef enum der_bag_kind {
  DER_BAG_OTHER = 0,
  DER_BAG_KEY = 1,
  DER_BAG_SHROUDED_KEY = 2,
  DER_BAG_CERTIFICATE = 3,       /* of X.509, as the bag says */
  DER_BAG_CRL = 4,               /* of X.509, as the bag says */
  DER_BAG_SECRET = 5,
  DER_BAG_SAFE_CONTENTS = 6,     /* bags, whose rows follow this one, one level down */
  DER_BAG_UNREAD = 7,            /* no bag, but a whole ContentInfo that isn't data: encrypted bags, say */
  DER_BAG_OTHER_CERTIFICATE = 8, /* a certificate of another type than X.509, as SDSI */
  DER_BAG_OTHER_CRL = 9          /* a revocation list of another type than X.509 */
} der_bag_kind;

/* Where a bag is. A range that isn't there is 0 and 0. */
typedef struct der_bag_parts {
  size_t kind;              /* a der_bag_kind */
  size_t level;             /* in how many bags it is, at most 64 */
  size_t has_friendly_name; /* 1: it has one */
  size_t has_local_key_id;  /* 1: it has one */
  der_range element;        /* the whole bag, or the ContentInfo */
  der_range value;          /* the octets that should be the DER of the X.509 certificate or revocation list: any, or
                               none, which aren't looked at; of one of another type its element; of other kinds the
                               element that the bag holds, without the [0] around it; of what is unread the
                               ContentInfo */
  der_range friendly_name;  /* in UTF-16, two octets for each unit, the high one first; it may be empty: see
                               der_utf16_text */
  der_range local_key_id;   /* its octets; a key has those of its certificate */
} der_bag_parts;

/* Where a PKCS #12 file has each bag that isn't encrypted, in one reading: bags in bags after those that hold them, in
 * at most 64 levels. The MAC isn't looked at, and nothing is decrypted: see der_mac.
 *  - DER_NORMAL: *count rows are at the front of out, in the order of the file, and the rest of out is as it was.
 *  - DER_NO_ROOM: there are *count rows, and out_len is less.
 *  - DER_MALFORMED to DER_TOO_DEEP: the input is no PFX, read as "rawpfx"; or a SafeContents, CertBag, CRLBag or
 *    encrypted key doesn't read as its type, or a friendlyName or localKeyId doesn't, or is there twice. *place says
 *    where: of an attribute, where the first of its type begins.
 *  - DER_TOO_LONG: no input is known where it is answered.
 *  - DER_NO_MEMORY: *place is an offset without use.
 *  - DER_NO_RANGE: never.
 * Unless at DER_NORMAL out is as it was, unless at DER_NORMAL and DER_NO_ROOM *count is 0, and but for the refusals and
 * DER_NO_MEMORY *place is 0. Proved is that each bag has a row, and that each range is the place of that part itself, not
 * only of equal octets; which place a refusal has is tested. */
DER_CALL
uint32_t der_bag_rows(const uint8_t *input, size_t input_len, der_bag_parts *out, size_t out_len, size_t *count,
                      size_t *place);

/* Where a certificate has its parts (RFC 5280, 4.1). A range that isn't there is 0 and 0. */
typedef struct der_certificate_parts {
  size_t has_key;                    /* 1: subject_public_key_info reads as SubjectPublicKeyInfo; unless it does, there
                                        are none of the three ranges after it */
  size_t has_key_parameters;         /* 1: the key's algorithm has parameters */
  size_t has_extensions;             /* 1: there is an element [3] after the key */
  size_t has_key_identifier;         /* 1: there is a subjectKeyIdentifier that reads as one, in extensions that do */
  der_range serial_number;           /* the contents octets of the INTEGER: see der_integer_text */
  der_range issuer;                  /* the element of the Name: see der_name_text */
  der_range validity;                /* the element with both times, whatever is in it */
  der_range subject;                 /* the element of the Name */
  der_range subject_public_key_info; /* the whole element of the key, whatever is in it */
  der_range key_algorithm;           /* the contents octets of the algorithm's object identifier: see der_oid_text */
  der_range key_parameters;          /* the element of the algorithm's parameters: of a key of EC its curve */
  der_range public_key;              /* the octets of the BIT STRING subjectPublicKey after the count of unused bits, as
                                        RFC 5280, 4.2.1.2, hashes them. The octet before them is the count */
  der_range extensions;              /* what is in the first [3]: the element of Extensions, where it is one */
  der_range key_identifier;          /* the octets of the first subjectKeyIdentifier */
} der_certificate_parts;

/* Where the input, an X.509 certificate of any version, has its parts, in one reading, without a judgement: no
 * signature and no time is looked at, and a certificate that RFC 5280 forbids may be read.
 *  - DER_NORMAL: *out has the ranges.
 *  - DER_MALFORMED to DER_TOO_DEEP: the input is no certificate, and *place says where, as of der_locate. A certificate
 *    is a SEQUENCE of tbsCertificate, AlgorithmIdentifier and BIT STRING; a tbsCertificate one of a version up to 2 in
 *    [0], which may be absent, INTEGER, AlgorithmIdentifier, Name, any element for validity, Name, any element for the
 *    key, and any elements after it.
 *  - DER_NO_MEMORY: *place is an offset without use.
 * Unless at DER_NORMAL all of *out is 0, and but for the refusals and DER_NO_MEMORY *place is 0. Proved is that each
 * range is the place of that part itself, not only of equal octets, and that a range isn't there only where the
 * certificate has no such part; which place a refusal has is tested. */
DER_CALL
uint32_t der_certificate(const uint8_t *input, size_t input_len, der_certificate_parts *out, size_t *place);

/* Where signed data has the parts of its indirect data (SpcIndirectDataContent). A range that isn't there is 0 and 0. */
typedef struct der_indirect_parts {
  size_t has_attribute_value; /* 1: the attribute has a value */
  size_t is_image;            /* 1: the attribute is SPC_PE_IMAGE_DATA_OBJID, and its value reads as image data: a
                                 SEQUENCE of flags, a BIT STRING, and file, any element in [0], each of which may be
                                 absent */
  size_t has_image_flags;     /* 1: these have flags; where they have none, they mean the bits 1 0 0 */
  size_t has_image_link;      /* 1: they have a file */
  der_range attribute_type;   /* the contents octets of the object identifier in data, which says what was hashed, a
                                 program, a cabinet, a script: see der_oid_text */
  der_range attribute_value;  /* the element of the value in data, whatever is in it */
  der_range digest_algorithm; /* the element of the digest's AlgorithmIdentifier */
  der_range digest;           /* the octets of the digest */
  der_range image_flags;      /* the contents octets of the flags, a BIT STRING: first the count of unused bits */
  der_range image_link;       /* the element in file, without the [0] around it, whatever is in it: in signatures an
                                 SpcLink */
} der_indirect_parts;

/* Which digest an Authenticode signature has, and of what: where the input, signed data with signers of every version,
 * has the parts of its content, where that is SpcIndirectDataContent, in one reading of the file and one of the
 * content; image data are read once more. Nothing is judged: no signature is looked at, and no digest is compared with
 * a file.
 *  - DER_NORMAL: *out has the ranges.
 *  - DER_MALFORMED to DER_TOO_DEEP: the input is no signed data, or its content has the type SPC_INDIRECT_DATA_OBJID and
 *    isn't a SEQUENCE of data and DigestInfo, of which data are a SEQUENCE of an object identifier and one element of any
 *    type, which may be absent. *place says where, as of der_locate.
 *  - DER_NO_PART: the content has another type, or there is none.
 *  - DER_NO_MEMORY: *place is an offset without use.
 * Unless at DER_NORMAL all of *out is 0, and but for the refusals and DER_NO_MEMORY *place is 0. Proved is that each
 * range is the place of that part itself, not only of equal octets, and that a range isn't there only where the content
 * has no such part; which place a refusal has is tested. */
DER_CALL
uint32_t der_indirect(const uint8_t *input, size_t input_len, der_indirect_parts *out, size_t *place);

/* Where signed data has the parts of its trust list (CertificateTrustList). A range that isn't there is 0 and 0. */
typedef struct der_trust_list_parts {
  size_t has_version;         /* 1: it has one; where it has none, it is v1 */
  size_t has_list_identifier; /* 1: it has one */
  size_t has_sequence_number; /* 1: it has one */
  size_t has_next_update;     /* 1: it says when the next list comes */
  size_t has_extensions;      /* 1: it has some */
  der_range version;          /* the contents octets of the INTEGER: see der_integer_text */
  der_range usages;           /* the element of subjectUsage, a SEQUENCE OF OBJECT IDENTIFIER */
  der_range list_identifier;  /* the octets of listIdentifier */
  der_range sequence_number;  /* the contents octets of the INTEGER */
  der_range this_update;      /* the element of ctlThisUpdate, a UTCTime or a GeneralizedTime */
  der_range next_update;      /* the element of ctlNextUpdate, one of these too */
  der_range algorithm;        /* the element of subjectAlgorithm, an AlgorithmIdentifier: by which the entries are named */
  der_range extensions;       /* the element in ctlExtensions, without the [0] around it, whatever is in it */
} der_trust_list_parts;

/* Where the input, signed data with signers of every version, has the parts of its content but the entries, where that is
 * a CertificateTrustList, in one reading of the file and one of the list. Nothing is judged: no signature and no time is
 * looked at.
 *  - DER_NORMAL: *out has the ranges.
 *  - DER_MALFORMED to DER_TOO_DEEP: the input is no signed data, or its content has the type szOID_CTL and is no list:
 *    a SEQUENCE of version, an INTEGER that may be absent, subjectUsage, listIdentifier, an OCTET STRING that may be
 *    absent, sequenceNumber, an INTEGER that may be absent, ctlThisUpdate, ctlNextUpdate, which may be absent,
 *    subjectAlgorithm, trustedSubjects, a SEQUENCE OF entries that may be absent, and ctlExtensions, one element of any
 *    type in [0] that may be absent. An entry is a SEQUENCE of subjectIdentifier, an OCTET STRING, and subjectAttributes,
 *    a SET OF Attribute that may be absent. *place says where, as of der_locate.
 *  - DER_NO_PART: the content has another type, or there is none.
 *  - DER_NO_MEMORY: *place is an offset without use.
 * Unless at DER_NORMAL all of *out is 0, and but for the refusals and DER_NO_MEMORY *place is 0. Proved is that each
 * range is the place of that part itself, not only of equal octets, and that a range isn't there only where the list has
 * no such part; which place a refusal has is tested. */
DER_CALL
uint32_t der_trust_list(const uint8_t *input, size_t input_len, der_trust_list_parts *out, size_t *place);

/* Where a trust list has the parts of an entry (TrustedSubject). A range that isn't there is 0 and 0. */
typedef struct der_trust_entry_parts {
  size_t has_attributes; /* 1: it has some */
  der_range identifier;  /* the octets of subjectIdentifier: of a certificate its digest, by the list's algorithm */
  der_range attributes;  /* the element of subjectAttributes, a SET OF Attribute */
} der_trust_entry_parts;

/* Where the input, signed data, has each entry of its trust list, in one reading of the file and one of the list.
 *  - DER_NORMAL: *count rows are at the front of out, in the order of the list, and the rest of out is as it was. Of a
 *    list without trustedSubjects *count is 0.
 *  - DER_NO_ROOM: there are *count rows, and out_len is less.
 *  - Any other status is as of der_trust_list, with its *place.
 * Unless at DER_NORMAL out is as it was, unless at DER_NORMAL and DER_NO_ROOM *count is 0, and but for the refusals and
 * DER_NO_MEMORY *place is 0. Proved is that each entry has a row, and that each range is the place of that part itself,
 * not only of equal octets; which place a refusal has is tested. */
DER_CALL
uint32_t der_trust_rows(const uint8_t *input, size_t input_len, der_trust_entry_parts *out, size_t out_len,
                        size_t *count, size_t *place);

/* What the input of der_password_parameters is, and what der_build_parameters writes. */
typedef enum der_password_holder {
  DER_HOLDER_ALGORITHM = 0, /* an AlgorithmIdentifier */
  DER_HOLDER_KEY = 1,       /* an EncryptedPrivateKeyInfo (RFC 5958, 3): the value of a bag of kind
                               DER_BAG_SHROUDED_KEY, or the DER of a file "ENCRYPTED PRIVATE KEY" of PKCS #8 */
  DER_HOLDER_CONTENTS = 2   /* a ContentInfo of encryptedData (RFC 2315, 13; RFC 5652, 8, of version 0 and without
                               attributes): the element of a row of kind DER_BAG_UNREAD, where it is one */
} der_password_holder;

/* How data is encrypted with a password. Where der_password_parameters wrote it a number that isn't there is 0, and a
 * range 0 and 0. */
typedef struct der_password_parts {
  size_t has_parameters;            /* 1: the algorithm has parameters */
  size_t is_pbes1;                  /* 1: the algorithm is one of the six of RFC 8018, A.3, which are
                                       1.2.840.113549.1.5.1, .3, .4, .6, .10 and .11, and they read as PBEParameter,
                                       with a salt of any length */
  size_t is_pkcs12;                 /* 1: the algorithm is one of pkcs-12PbeIds, which are 1.2.840.113549.1.12.1.1 to
                                       .6, and they read as pkcs-12PbeParams (RFC 7292, C) */
  size_t is_pbes2;                  /* 1: the algorithm is id-PBES2, and they read as PBES2-params (RFC 8018, A.4) */
  size_t has_derivation_parameters; /* 1: of PBES2, the key derivation has parameters */
  size_t is_pbkdf2;                 /* 1: of PBES2, the key derivation is id-PBKDF2, and its parameters read as
                                       PBKDF2-params (RFC 8018, A.2) */
  size_t has_salt;                  /* 1: there is a salt: of PBES1 and PKCS #12 always, of PBKDF2 where it is specified
                                       and doesn't come from another source */
  size_t has_key_length;            /* 1: of PBKDF2, keyLength is there */
  size_t has_prf;                   /* 1: of PBKDF2, prf is there; where it is left out, it is HMAC with SHA-1 */
  size_t has_encryption_parameters; /* 1: of PBES2, the encryption scheme has parameters */
  size_t has_initialization_vector; /* 1: these read as OCTET STRING, as those of AES, DES and triple DES in CBC mode */
  size_t has_encrypted;             /* 1: the input has what is encrypted: of a key always, of contents unless they are
                                       elsewhere, of an algorithm never */
  size_t iterations;                /* of PBES1, PKCS #12 and PBKDF2: the iteration count, below 2^32; it may be 0 */
  size_t key_length;                /* of PBKDF2: keyLength, in octets, below 2^32 */
  der_range algorithm;              /* the contents octets of the algorithm's object identifier: see der_oid_name */
  der_range parameters;             /* the element of its parameters, whatever is in it */
  der_range derivation;             /* of PBES2: the contents octets of the key derivation's object identifier */
  der_range derivation_parameters;  /* the element of its parameters, whatever is in it */
  der_range salt;                   /* the octets of the salt */
  der_range prf;                    /* of PBKDF2: the contents octets of the object identifier in prf */
  der_range encryption;             /* of PBES2: the contents octets of the encryption scheme's object identifier */
  der_range encryption_parameters;  /* the element of its parameters, whatever is in it */
  der_range initialization_vector;  /* the octets of that OCTET STRING */
  der_range encrypted;              /* the octets of encryptedData, or of encryptedContent */
} der_password_parts;

/* How data is encrypted with a password: the parameters of RFC 8018 and RFC 7292, as numbers and ranges of the input.
 * With them a caller opens a store by PBES1, by the algorithms of PKCS #12, or by PBES2 with PBKDF2 and a cipher whose
 * parameters are its initialization vector, as AES in CBC mode, and reads no DER but what is decrypted. holder is a
 * der_password_holder, which says what the input is. No key is derived, and nothing is decrypted. A flag says how the
 * key is derived:
 *  - is_pbes1: key and vector by PBKDF1, from the octets of the password as they are (RFC 8018, 5.1 and 6.1).
 *  - is_pkcs12: key and vector as RFC 7292, B.2, says, from the password as a BMPString that ends in two zero octets.
 *  - is_pbkdf2: the key by PBKDF2, from the octets of the password as they are (RFC 8018, 5.2 and 6.2).
 * Nothing is judged, and all of it is what the file says: limit the count before a key is derived, and compare
 * key_length and the length of initialization_vector with what the cipher takes before they are used. A vector that is
 * empty, or of 3 octets, is given as it is, and EVP_DecryptInit_ex reads a whole block from there.
 *  - DER_NORMAL: *out has the numbers and the ranges. Other algorithms are given as their object identifier and as the
 *    element of their parameters, whatever is in it, and have neither salt nor count: AES in GCM and CCM mode, PBMAC1,
 *    PBKDF2 outside of PBES2, and in PBES2 scrypt. So are parameters with a part in BER that isn't DER, and those with a
 *    count or a length that is negative, or 2^32 or more. The vector of RC2 in PBES2 is only in encryption_parameters,
 *    and parameters of the PRF are only in derivation_parameters.
 *  - DER_UNKNOWN_KIND: no holder has that number.
 *  - DER_MALFORMED to DER_TOO_DEEP: the input isn't what the holder says, and *place says where, as of der_locate. An
 *    AlgorithmIdentifier is a SEQUENCE of an object identifier and one element of any type, which may be absent, and is
 *    malformed where its tag has several octets; an EncryptedPrivateKeyInfo is a SEQUENCE of an AlgorithmIdentifier and
 *    an OCTET STRING; a ContentInfo of encryptedData one of the object identifier 1.2.840.113549.1.7.6 and, in [0], a
 *    SEQUENCE of the INTEGER 0 and EncryptedContentInfo, which is a SEQUENCE of any object identifier, an
 *    AlgorithmIdentifier, and an implicit [0] OCTET STRING, which may be absent.
 *  - DER_NO_MEMORY: *place is an offset without use.
 * Unless at DER_NORMAL all of *out is 0, and but for the refusals and DER_NO_MEMORY *place is 0. Proved is that each
 * range is the place of that part itself, not only of equal octets, that numbers are those of the parameters, and that
 * a part isn't there only where the input doesn't read as is said at its field; which place a refusal has is tested. */
DER_CALL
uint32_t der_password_parameters(size_t holder, const uint8_t *input, size_t input_len, der_password_parts *out,
                                 size_t *place);

/* Which part der_build_parameters can't write, and why. An object identifier is given as its contents octets. */
typedef enum der_password_part {
  DER_PASSWORD_ALGORITHM = 1,             /* not inside of the input, no object identifier, or not of the scheme */
  DER_PASSWORD_PARAMETERS = 2,            /* not inside of the input, or no element */
  DER_PASSWORD_DERIVATION = 3,            /* not inside of the input, or no object identifier */
  DER_PASSWORD_DERIVATION_PARAMETERS = 4, /* not inside of the input, or no element */
  DER_PASSWORD_SALT = 5,                  /* not inside of the input; or has_salt is 0, of PBES1 or PKCS #12, or of
                                             PBKDF2 that has no derivation_parameters either */
  DER_PASSWORD_PRF = 6,                   /* not inside of the input, or no object identifier */
  DER_PASSWORD_ENCRYPTION = 7,            /* not inside of the input, or no object identifier */
  DER_PASSWORD_ENCRYPTION_PARAMETERS = 8, /* not inside of the input, or no element */
  DER_PASSWORD_INITIALIZATION_VECTOR = 9, /* not inside of the input */
  DER_PASSWORD_ENCRYPTED = 10,            /* not inside of the input, or of a key not given */
  DER_PASSWORD_ITERATIONS = 11,           /* 2^32 or more */
  DER_PASSWORD_KEY_LENGTH = 12,           /* 2^32 or more */
  DER_PASSWORD_SCHEME = 13                /* more than one of is_pbes1, is_pkcs12 and is_pbes2 isn't 0 */
} der_password_part;

/* Writes an AlgorithmIdentifier, an EncryptedPrivateKeyInfo or a ContentInfo of encryptedData, which holder says, to
 * the front of out, as der_password_parameters reads it. A ContentInfo has version 0, and its content the type data
 * (1.2.840.113549.1.7.1), as in PKCS #12. given has the numbers, and says where the input has the octets of each part,
 * in any order; ranges may overlap. No key is derived, and nothing is encrypted. Set all of given to 0 first: a flag
 * is set where it isn't 0. Of is_pbes1, is_pkcs12 and is_pbes2 at most one is:
 *  - is_pbes1 or is_pkcs12: the algorithm is algorithm, one of six (see der_password_parts), with salt, for which
 *    has_salt must be set too, and iterations.
 *  - is_pbes2: the algorithm is id-PBES2. Where is_pbkdf2 and has_salt are set, the key derivation is id-PBKDF2 with
 *    salt and iterations, with key_length where has_key_length is set, and with prf where has_prf is set, whose
 *    parameters are NULL (RFC 8018, B.1). Otherwise it is derivation, with the element derivation_parameters where
 *    has_derivation_parameters is set, as it must be where is_pbkdf2 is: that is PBKDF2 whose salt is from another
 *    source, and no number is written then. The encryption scheme is encryption, with initialization_vector as an
 *    OCTET STRING where has_initialization_vector is set, and otherwise with the element encryption_parameters where
 *    has_encryption_parameters is set.
 *  - None of them: the algorithm is algorithm, with the element parameters where has_parameters is set.
 * For a key has_encrypted must be set, and encrypted is written; for contents it is written where has_encrypted is
 * set. An element has a tag of one octet and a length as DER has it, and whatever is in it. What isn't written isn't
 * looked at, and may be anything. So what der_password_parameters wrote can be given with its input, and changed
 * before. But encrypted is written as given: after a change of salt, count, PRF, scheme or vector derive the key anew,
 * and encrypt anew. Unchanged, the input is written again where it is DER, the parameters of the PRF are NULL, and
 * contents have the type data. A prf that is given is written, also HMAC with SHA-1, which DER leaves out as the
 * default (X.690, 11.5): leave has_prf 0 for that. Nothing is judged: counts and key lengths of 0, and salts and
 * vectors of any length, are written too. Take a new random salt and vector for each encryption, a count that is high
 * enough, and a key and a vector of the cipher's lengths.
 *  - DER_NORMAL: *written bytes were written, and the rest of out is as it was.
 *  - DER_NO_ROOM: *written bytes are needed, and out_len, which may be 0, is less.
 *  - DER_UNKNOWN_KIND: no holder has that number.
 *  - DER_INVALID: a part can't be written, and *part is its der_password_part: of several the first, where the scheme
 *    comes first, then the parts in the order in which they are written, and then encrypted.
 *  - DER_TOO_LONG: it would have 2^64 bytes or more.
 *  - DER_NO_MEMORY.
 * Unless at DER_NORMAL out is as it was, unless at DER_NORMAL and DER_NO_ROOM *written is 0, and unless at DER_INVALID
 * *part is 0. Proved is that what is written is normal, and reads as a value of that type, in which each part that is
 * written is in its place. So der_password_parameters gives each number and part that was written, as a range of equal
 * octets and with 1 as its flag, and the object identifiers and elements around them; of an element that was given
 * also what it finds in it. And that at DER_INVALID nothing can be built from what is given, and that *part can't be
 * written; which of several it is, is tested. */
DER_CALL
uint32_t der_build_parameters(size_t holder, const uint8_t *input, size_t input_len, const der_password_parts *given,
                              uint8_t *out, size_t out_len, size_t *written, size_t *part);

/* A bag for der_build_bags. has_attributes, identifier and attributes are what der_bag_parts lacks; each other field is
 * as der_bag_rows writes it there. */
typedef struct der_bag_given {
  size_t kind;              /* a der_bag_kind, at most DER_BAG_SAFE_CONTENTS */
  size_t has_friendly_name; /* unless 0: it has one */
  size_t has_local_key_id;  /* unless 0: it has one */
  size_t has_attributes;    /* unless 0: it has further attributes */
  der_range identifier;     /* of DER_BAG_OTHER: the contents octets of its object identifier: see der_oid_octets */
  der_range value;          /* DER of the X.509 certificate or revocation list; of other kinds the element that the bag
                               holds, without the [0] around it */
  der_range friendly_name;  /* in UTF-16, two octets for each unit, the high one first: see der_text_utf16 */
  der_range local_key_id;   /* its octets; a key has those of its certificate */
  der_range attributes;     /* the element of a SET OF Attribute, of which friendlyName and localKeyId aren't written */
} der_bag_given;

/* Which part of a bag der_build_bags can't write, and why. */
typedef enum der_bag_part {
  DER_BAG_PART_KIND = 1,          /* more than DER_BAG_SAFE_CONTENTS */
  DER_BAG_PART_IDENTIFIER = 2,    /* of DER_BAG_OTHER: not inside of the input, no object identifier, or one of the six
                                     that the other kinds have */
  DER_BAG_PART_VALUE = 3,         /* not inside of the input, no element, or not what its kind holds */
  DER_BAG_PART_FRIENDLY_NAME = 4, /* not inside of the input, or no UTF-16 */
  DER_BAG_PART_LOCAL_KEY_ID = 5,  /* not inside of the input */
  DER_BAG_PART_ATTRIBUTES = 6     /* not inside of the input, or no SET OF Attribute */
} der_bag_part;

/* Writes a SafeContents (RFC 7292, 4.2) of bags_len bags, in their order, to the front of out: octets for
 * der_build_safe, or for the caller to encrypt, or the value of a bag of kind DER_BAG_SAFE_CONTENTS. bags says of each
 * bag where the input has the octets of its parts, in any order; ranges may overlap. Set all of a bag to 0 first: a
 * flag is set where it isn't 0. kind is what the bag holds, which determines its object identifier:
 *  - DER_BAG_KEY: value is a PrivateKeyInfo, which isn't looked at. Any element is taken.
 *  - DER_BAG_SHROUDED_KEY: an EncryptedPrivateKeyInfo (RFC 5958, 3) that der_bag_rows reads. der_build_parameters
 *    writes such keys for DER_HOLDER_KEY, and others too: of PBES2 with parameters that aren't those of PBES2, say.
 *  - DER_BAG_CERTIFICATE and DER_BAG_CRL: an X.509 certificate, or revocation list, which isn't looked at. Any element
 *    is taken, and written into an OCTET STRING. der_bag_rows lists any octets there.
 *  - DER_BAG_SECRET: a SecretBag (RFC 7292, 4.2.5), a SEQUENCE of any object identifier and one element of any type in
 *    [0].
 *  - DER_BAG_SAFE_CONTENTS: a SafeContents, as this call writes it. Its bags are read, and those in bags of it, and so
 *    on: at most 64 SafeContents, with this one, may be in one another. What its other bags hold isn't looked at, nor are
 *    the values of attributes: der_bag_rows may refuse them.
 *  - DER_BAG_OTHER: any element, under the object identifier that identifier is.
 * A certificate or revocation list of another type than X.509 isn't written. An element has a tag of one octet and a
 * length as DER has it, and whatever is in it. Of the rows that der_bag_rows wrote give those of level 0: the others are
 * in the value of one of these.
 *
 * The attributes of a bag are friendlyName, where has_friendly_name is set, localKeyId, where has_local_key_id is set,
 * and those in attributes, where has_attributes is set, but for each friendlyName and localKeyId among them. So the SET
 * after the [0] in the element of a bag that was read can be given as it is, with another name or with none. Attributes
 * are written in the order of DER (X.690, 11.6). One that is given twice is written twice, and the values of one stay
 * in their order. A bag without attributes is written without the SET. An empty friendly name is written. So is one
 * with characters past U+FFFF, each as a pair of surrogates, as keytool does, though a BMPString has none: the kind
 * "pfx" refuses such a store, and openssl shows another name; der_bag_rows, the kind "rawpfx" and Java read it. A part
 * whose flag is 0 isn't looked at, nor is identifier of another kind than DER_BAG_OTHER: they may be anything.
 *  - DER_NORMAL: *written bytes were written, and the rest of out is as it was. Of no bags they are 30 00.
 *  - DER_NO_ROOM: *written bytes are needed, and out_len, which may be 0, is less.
 *  - DER_INVALID: the bag with the index *bag, from 0 on, can't be written, and *part is its der_bag_part: of several
 *    bags the first, and of several parts of it the one with the least number.
 *  - DER_TOO_LONG: the whole, or an attribute, would have 2^64 bytes or more.
 *  - DER_NO_MEMORY.
 * Unless at DER_NORMAL out is as it was, unless at DER_NORMAL and DER_NO_ROOM *written is 0, and unless at DER_INVALID
 * *bag and *part are 0. Proved is that what is written is the encoding of a SafeContents whose bags are those that are
 * given, in their order, each with its object identifier, its element and its attributes, and reads as these alone. And
 * that at DER_INVALID the bag with that index can't be written, nor *part of it, and those before it can; which of
 * several parts it is, is tested. Elements are written as they are given: if one isn't DER inside, the whole isn't, and
 * the kinds "safecontents" and "pfx" call it loose, or refuse it. */
DER_CALL
uint32_t der_build_bags(const uint8_t *input, size_t input_len, const der_bag_given *bags, size_t bags_len,
                        uint8_t *out, size_t out_len, size_t *written, size_t *bag, size_t *part);

/* An item of an AuthenticatedSafe for der_build_safe. */
typedef struct der_content_given {
  size_t is_data;   /* unless 0: octets are a SafeContents, as der_build_bags writes it, which is written as data */
  der_range octets; /* that; otherwise a ContentInfo of another type than data, which is written as it is */
} der_content_given;

/* Writes an AuthenticatedSafe (RFC 7292, 4.1) of contents_len contents, in their order, to the front of out: what
 * der_build_store takes, and all of it what a MAC covers. contents says of each where the input has it; ranges may
 * overlap. One is a SafeContents, which isn't encrypted, or a ContentInfo, as der_build_parameters writes it for
 * DER_HOLDER_CONTENTS, of a SafeContents that the caller encrypted.
 *  - DER_NORMAL: *written bytes were written, and the rest of out is as it was. Of no contents they are 30 00.
 *  - DER_NO_ROOM: *written bytes are needed, and out_len, which may be 0, is less.
 *  - DER_INVALID: the content with the index *content, from 0 on, can't be written, of several the first.
 *    - It isn't inside of the input.
 *    - is_data is set, and it is no SafeContents. Its bags are read, and those in bags of it, and so on: at most 65
 *      SafeContents, with this one, may be in one another. What its other bags hold isn't looked at, nor are the
 *      values of attributes.
 *    - is_data is 0, and it is no ContentInfo: a SEQUENCE of an object identifier and one element of any type in [0],
 *      which may be absent.
 *    - is_data is 0, and it is a ContentInfo of the type data (1.2.840.113549.1.7.1): give its SafeContents instead.
 *  - DER_TOO_LONG: it would have 2^64 bytes or more.
 *  - DER_NO_MEMORY.
 * Unless at DER_NORMAL out is as it was, unless at DER_NORMAL and DER_NO_ROOM *written is 0, and unless at DER_INVALID
 * *content is 0. Proved is that what is written is the encoding of an AuthenticatedSafe whose contents are those that
 * are given, in their order, of data the OCTET STRING of its octets, and reads as these alone; a ContentInfo has the
 * octets that are given. And that at DER_INVALID the content with that index can't be written, and those before it
 * can. */
DER_CALL
uint32_t der_build_safe(const uint8_t *input, size_t input_len, const der_content_given *contents, size_t contents_len,
                        uint8_t *out, size_t out_len, size_t *written, size_t *content);

/* A PKCS #12 file for der_build_store. */
typedef struct der_store_given {
  size_t has_mac;               /* unless 0: it has a MAC */
  size_t has_digest_parameters; /* unless 0: the MAC's digest algorithm has parameters */
  size_t iterations;            /* how often the key derivation hashes, as of der_mac; 1, the default, is left out */
  der_range safe;               /* an AuthenticatedSafe, as der_build_safe writes it: what the MAC covers */
  der_range digest_algorithm;   /* the contents octets of the object identifier: see der_oid_octets */
  der_range digest_parameters;  /* the element of its parameters, whatever is in it. NULL is written where it has none,
                                   and in place of any that SHA-1, SHA-224, SHA-256, SHA-384 or SHA-512 has */
  der_range digest;             /* the octets of the MAC */
  der_range salt;               /* the octets of macSalt */
} der_store_given;

/* Which part der_build_store can't write, and why. */
typedef enum der_store_part {
  DER_STORE_PART_SAFE = 1,              /* not inside of the input, or no SEQUENCE OF ContentInfo */
  DER_STORE_PART_DIGEST_ALGORITHM = 2,  /* not inside of the input, or no object identifier */
  DER_STORE_PART_DIGEST_PARAMETERS = 3, /* not inside of the input, or no element, also where NULL is written instead */
  DER_STORE_PART_DIGEST = 4,            /* not inside of the input */
  DER_STORE_PART_SALT = 5,              /* not inside of the input */
  DER_STORE_PART_ITERATIONS = 6         /* 2^32 or more */
} der_store_part;

/* Writes a PKCS #12 file, a PFX of version 3 whose authSafe is data (RFC 7292, 4), to the front of out: around safe,
 * and with a MAC where has_mac is set. given has the number, and says where the input has the octets of each part, in
 * any order; ranges may overlap. Set all of given to 0 first: a flag is set where it isn't 0. No MAC is made: the
 * caller makes it over the octets of safe, by HMAC with a key that RFC 7292, B, derives from the password, or by PBMAC1
 * (RFC 9579), whose parameters are digest_parameters. Nothing is judged: a MAC that is wrong, a count of 0, and digests
 * and salts of any length are written too, and what the contents of safe hold isn't looked at. Take a new random salt
 * for each file, and a count that is high enough. Where has_mac is 0 nothing of the MAC is looked at, and it may be
 * anything.
 *  - DER_NORMAL: *written bytes were written, and the rest of out is as it was.
 *  - DER_NO_ROOM: *written bytes are needed, and out_len, which may be 0, is less.
 *  - DER_INVALID: a part can't be written, and *part is its der_store_part, of several the one with the least number.
 *  - DER_TOO_LONG: it would have 2^64 bytes or more.
 *  - DER_NO_MEMORY.
 * Unless at DER_NORMAL out is as it was, unless at DER_NORMAL and DER_NO_ROOM *written is 0, and unless at DER_INVALID
 * *part is 0. Proved is that what is written is the encoding of a PFX with these parts, safe as it is given, and reads
 * as these alone. So der_mac gives the octets of safe and the count, and der_part the object identifier, the digest and
 * the salt. And that at DER_INVALID nothing can be built from what is given, and that *part can't be written; which of
 * several it is, is tested. */
DER_CALL
uint32_t der_build_store(const uint8_t *input, size_t input_len, const der_store_given *given, uint8_t *out,
                         size_t out_len, size_t *written, size_t *part);

/* Attributes of a signer for der_build_attributes. */
typedef struct der_attributes_given {
  size_t has_content_type;   /* unless 0: there is a contentType */
  size_t has_message_digest; /* unless 0: there is a messageDigest */
  size_t has_signing_time;   /* unless 0: there is a signingTime */
  size_t has_attributes;     /* unless 0: there are further attributes */
  der_range content_type;    /* the contents octets of an object identifier, the content's type: see der_oid_octets */
  der_range message_digest;  /* the octets of the content's digest */
  der_range signing_time;    /* YYYYMMDDHHMMSSZ: 15 octets of ASCII, in UTC */
  der_range attributes;      /* the element of a SET OF Attribute, of which contentType, messageDigest and signingTime
                                aren't written */
} der_attributes_given;

/* Which part der_build_attributes can't write, and why. */
typedef enum der_attributes_part {
  DER_ATTRIBUTES_PART_CONTENT_TYPE = 1,   /* not inside of the input, or no object identifier */
  DER_ATTRIBUTES_PART_MESSAGE_DIGEST = 2, /* not inside of the input */
  DER_ATTRIBUTES_PART_SIGNING_TIME = 3,   /* not inside of the input, or no such time */
  DER_ATTRIBUTES_PART_ATTRIBUTES = 4      /* not inside of the input, or no SET OF Attribute */
} der_attributes_part;

/* Writes the attributes of a signer (RFC 5652, 5.3 and 11), a SET OF Attribute, to the front of out: what the signature
 * covers (5.4), and signed_attributes of der_signer_given. With further attributes alone it puts them in order, as for
 * unsigned_attributes. given says of each part where the input has its octets, in any order; ranges may overlap. Set
 * all of given to 0 first: a flag is set where it isn't 0. A part whose flag is 0 isn't looked at. The signing time is
 * written as UTCTime in the years 1950 to 2049, and otherwise as GeneralizedTime (11.3). Attributes are written in the
 * order of DER (X.690, 11.6). contentType, messageDigest and signingTime among the further attributes are left out,
 * also where their flag is 0. A further attribute that is given twice is written twice, and the values of one stay in
 * their order: where they are given out of order, what is written isn't the DER that 5.3 asks for. No digest is made.
 *  - DER_NORMAL: *written bytes were written, and the rest of out is as it was. Of no attributes they are 31 00, which
 *    no signer may have.
 *  - DER_NO_ROOM: *written bytes are needed, and out_len, which may be 0, is less.
 *  - DER_INVALID: a part can't be written, and *part is its der_attributes_part; where several can't, one of them.
 *  - DER_TOO_LONG: it, or an attribute, would have 2^64 bytes or more.
 *  - DER_NO_MEMORY.
 * Unless at DER_NORMAL out is as it was, unless at DER_NORMAL and DER_NO_ROOM *written is 0, and unless at DER_INVALID
 * *part is 0. Proved is that what is written is the encoding of a SET OF the attributes that are given, in the order of
 * DER, and reads as these alone; that of each of the three types there is the one that is given, with one value, or
 * none; and that at DER_INVALID no attributes can be built from what is given, and that *part can't be written. */
DER_CALL
uint32_t der_build_attributes(const uint8_t *input, size_t input_len, const der_attributes_given *given, uint8_t *out,
                              size_t out_len, size_t *written, size_t *part);

/* The content of signed data for der_build_signed. */
typedef struct der_signed_given {
  size_t has_content;     /* unless 0: the content is in the file; otherwise it is elsewhere, or there is none */
  size_t is_element;      /* unless 0: content is an element, which is written as it is (PKCS #7: RFC 2315, 7) */
  der_range content_type; /* the contents octets of an object identifier: see der_oid_octets */
  der_range content;      /* the octets of the content, which are written into an OCTET STRING; or that element */
} der_signed_given;

/* A signer for der_build_signed. To give a signer that der_signer_rows listed: digest_algorithm, signature_algorithm,
 * signature and certificate can be given as they are. Where over_attributes is 1, give what der_covered copies as
 * signed_attributes. If the signer is named by issuer and serial number and has_certificate is 0, give its certificate
 * from elsewhere. If it is named by a key identifier, give the octets of DER_PART_KEY_IDENTIFIER. For unsigned
 * attributes put what der_attribute_ranges finds one after another, behind a header: 31 and their length.
 * der_build_signed refuses a signer that has two signing times, or one that isn't of the form it asks for, though
 * der_signer_rows lists it. */
typedef struct der_signer_given {
  size_t has_key_identifier;      /* unless 0: key_identifier names the signer, otherwise its certificate does */
  size_t has_signed_attributes;   /* unless 0: the signature covers signed attributes, otherwise the content */
  size_t has_unsigned_attributes; /* unless 0: it has unsigned attributes */
  der_range certificate;          /* the signer's certificate, whose issuer and serial number name it */
  der_range key_identifier;       /* the octets of the certificate's subjectKeyIdentifier */
  der_range digest_algorithm;     /* an AlgorithmIdentifier, with its parameters */
  der_range signed_attributes;    /* the element of a SET OF Attribute, as der_build_attributes writes it */
  der_range signature_algorithm;  /* an AlgorithmIdentifier, with its parameters */
  der_range signature;            /* the octets of the signature */
  der_range unsigned_attributes;  /* the element of a SET OF Attribute, which isn't empty */
} der_signer_given;

/* Which part der_build_signed can't write, and why. */
typedef enum der_signed_part {
  DER_SIGNED_PART_CONTENT_TYPE = 1,         /* not inside of the input, or no object identifier */
  DER_SIGNED_PART_CONTENT = 2,              /* not inside of the input; where is_element is set, not exactly one
                                               element, with a tag of one octet; or there are no signers, and
                                               has_content is set or the type isn't id-data (RFC 5652, 5.2) */
  DER_SIGNED_PART_CERTIFICATE = 3,          /* not inside of the input, or no element with the tag of a certificate or
                                               of another choice: 30, A0, A1, A2 or A3 (10.2.2) */
  DER_SIGNED_PART_CRL = 4,                  /* not inside of the input, or no element with the tag of a revocation list
                                               or of the other choice: 30 or A1 (10.2.1) */
  /* of a signer */
  DER_SIGNED_PART_IDENTIFIER = 5,           /* not inside of the input, or no certificate as der_certificate reads one */
  DER_SIGNED_PART_DIGEST_ALGORITHM = 6,     /* not inside of the input, or no AlgorithmIdentifier */
  DER_SIGNED_PART_SIGNED_ATTRIBUTES = 7,    /* not inside of the input, or no SET OF Attribute, or an empty one; or
                                               they, or their absence, break RFC 5652: see der_build_signed */
  DER_SIGNED_PART_SIGNATURE_ALGORITHM = 8,  /* not inside of the input, or no AlgorithmIdentifier */
  DER_SIGNED_PART_SIGNATURE = 9,            /* not inside of the input */
  DER_SIGNED_PART_UNSIGNED_ATTRIBUTES = 10  /* not inside of the input, or no SET OF Attribute, or an empty one */
} der_signed_part;

/* Writes signed data under its content type, a ContentInfo (RFC 5652, 3 and 5), to the front of out: content, or none,
 * with certificates_len certificates, crls_len revocation lists and signers_len signers. given, certificates, crls and
 * signers say of each part where the input has its octets, in any order; ranges may overlap. Set all of given and of a
 * signer to 0 first: a flag is set where it isn't 0. No digest and no signature is made or verified: the caller makes
 * the signature over the octets that der_build_attributes wrote, or over the content where has_signed_attributes is 0.
 *  - A signer is named by the issuer and the serial number of its certificate, out of which they are read, and has
 *    version 1; or by its key identifier, and has version 3. Its certificate is in the file only where certificates has
 *    it too.
 *  - The version of the whole is that of RFC 5652, 5.1; but content in the file that is an element other than an OCTET
 *    STRING is content of PKCS #7, whose type doesn't raise it (RFC 2315, 9.1). Content that is elsewhere counts as
 *    content of CMS.
 *  - digestAlgorithms are those of the signers, each encoding once: absent parameters and NULL are two. The SETs of
 *    algorithms, certificates, revocation lists and signers are in the order of DER (X.690, 11.6). So signers may be in
 *    another order than here. A certificate, a list or a signer that is given twice is written twice. The two sets of
 *    attributes of a signer stay in the order in which they are given: the signature covers the signed ones so.
 *  - The signed attributes of a signer have to have one contentType that is content_type, one messageDigest, and at
 *    most one signingTime, each with one value: an OBJECT IDENTIFIER, an OCTET STRING, and a UTCTime or GeneralizedTime
 *    in whole seconds that ends in Z (RFC 5652, 11.1 to 11.3). There have to be some unless content_type is id-data
 *    (1.2.840.113549.1.7.1; 5.3). That the digest is the content's isn't looked at, nor that a signingTime is UTCTime
 *    in the years 1950 to 2049, as der_build_attributes writes it, that none is a countersignature (11.4), nor the
 *    order of the attributes and of the values in one, which 5.3 asks to be that of DER: a verifier that sorts them
 *    finds another digest.
 *  - Without signers the file has certificates and revocation lists alone (5.2).
 * What is in a certificate, but for the signer's, in a revocation list, in an element or in unsigned attributes isn't
 * looked at. A part whose flag is 0 isn't looked at either.
 *  - DER_NORMAL: *written bytes were written, and the rest of out is as it was.
 *  - DER_NO_ROOM: *written bytes are needed, and out_len, which may be 0, is less.
 *  - DER_INVALID: a part can't be written, and *part is its der_signed_part. Of a certificate, a revocation list or a
 *    signer *index is its index, from 0 on, and otherwise 0. Where several can't, they are those of one of them.
 *  - DER_TOO_LONG: it, or a signer in it, would have 2^64 bytes or more.
 *  - DER_NO_MEMORY.
 * Unless at DER_NORMAL out is as it was, unless at DER_NORMAL and DER_NO_ROOM *written is 0, and unless at DER_INVALID
 * *index and *part are 0. Proved is that what is written is the encoding of signed data with these parts, its sets but
 * those of attributes in the order of DER and its versions as said, and reads as these alone, so that der_signer_rows
 * finds the signers with the octets that are given. And that at DER_INVALID the parts that are given can't be written,
 * as said above, and that *part and *index say one that can't. */
DER_CALL
uint32_t der_build_signed(const uint8_t *input, size_t input_len, const der_signed_given *given,
                          const der_range *certificates, size_t certificates_len, const der_range *crls,
                          size_t crls_len, const der_signer_given *signers, size_t signers_len, uint8_t *out,
                          size_t out_len, size_t *written, size_t *index, size_t *part);

/* Which part der_build_indirect can't write, and why. */
typedef enum der_indirect_part {
  DER_INDIRECT_PART_ATTRIBUTE_TYPE = 1,   /* not inside of the input, or no object identifier */
  DER_INDIRECT_PART_ATTRIBUTE_VALUE = 2,  /* not inside of the input, or no element */
  DER_INDIRECT_PART_DIGEST_ALGORITHM = 3, /* not inside of the input, or no AlgorithmIdentifier */
  DER_INDIRECT_PART_DIGEST = 4,           /* not inside of the input */
  DER_INDIRECT_PART_IMAGE_FLAGS = 5,      /* not inside of the input, or not the contents octets of a BIT STRING */
  DER_INDIRECT_PART_IMAGE_LINK = 6        /* not inside of the input, or no element */
} der_indirect_part;

/* Writes what a signature of Authenticode signs, SpcIndirectDataContent, to the front of out, as der_indirect reads it
 * in signed data: the element that der_build_signed takes as content, under the type SPC_INDIRECT_DATA_OBJID
 * (1.3.6.1.4.1.311.2.1.4). Its digest for messageDigest is over its contents octets, without tag and length (RFC 2315,
 * 9.3). given has the flags, and says where the input has the octets of each part, in any order; ranges may overlap.
 * Set all of given to 0 first: a flag is set where it isn't 0.
 *  - is_image is set: the attribute is SPC_PE_IMAGE_DATA_OBJID, and its value image data, a SEQUENCE of the flags,
 *    where has_image_flags is set, and of the link in [0], where has_image_link is set. attribute_type and
 *    attribute_value aren't looked at. Signers of programs write flags, 00 for no bits or 07 80 for includeResources,
 *    and a link. Left out, flags mean includeResources. DER leaves out that default (X.690, 11.5), whether as 07 80 or
 *    05 80; flags that are given are written as they are, also with unused bits that aren't 0, which 11.2.1 forbids.
 *  - is_image is 0: the attribute has attribute_type, and attribute_value where has_attribute_value is set.
 * What der_indirect wrote can be given with its input, and changed before: of a program its flags and its link are what
 * counts, and attribute_type and attribute_value are written only where is_image is set to 0. An element has a tag of
 * one octet and a length as DER has it, and whatever is in it. A part whose flag is 0 isn't looked at. No digest is
 * made, and none is judged.
 *  - DER_NORMAL: *written bytes were written, and the rest of out is as it was.
 *  - DER_NO_ROOM: *written bytes are needed, and out_len, which may be 0, is less.
 *  - DER_INVALID: a part can't be written, and *part is its der_indirect_part; where several can't, one of them.
 *  - DER_TOO_LONG: it would have 2^64 bytes or more.
 *  - DER_NO_MEMORY.
 * Unless at DER_NORMAL out is as it was, unless at DER_NORMAL and DER_NO_ROOM *written is 0, and unless at DER_INVALID
 * *part is 0. Proved is that what is written is the encoding of indirect data with these parts, and reads as these
 * parts alone, and image data in it as theirs; and that at DER_INVALID no indirect data can be built from what is
 * given, and that *part can't be written. */
DER_CALL
uint32_t der_build_indirect(const uint8_t *input, size_t input_len, const der_indirect_parts *given, uint8_t *out,
                            size_t out_len, size_t *written, size_t *part);

/* A recipient for der_build_recipient. */
typedef struct der_recipient_given {
  size_t is_kek;             /* unless 0: it has a key-encryption key (kekri), otherwise a key pair (ktri) */
  size_t has_key_identifier; /* of ktri, unless 0: key_identifier names it, otherwise its certificate does */
  der_range certificate;     /* of ktri: the recipient's certificate, whose issuer and serial number name it */
  der_range key_identifier;  /* of ktri: the octets of the certificate's subjectKeyIdentifier; of kekri: those that name
                                the key-encryption key */
  der_range algorithm;       /* an AlgorithmIdentifier, with its parameters: how the key is encrypted. der_build_parameters
                                writes one for DER_HOLDER_ALGORITHM: of rsaEncryption the parameters are NULL, 05 00
                                (RFC 3370, 4.2.1), of AES Key Wrap there are none (RFC 3565, 2.3.2) */
  der_range key;             /* encryptedKey: the content-encryption key, as the caller encrypted it for this recipient */
} der_recipient_given;

/* Which part der_build_recipient can't write, and why. */
typedef enum der_recipient_part {
  DER_RECIPIENT_PART_IDENTIFIER = 1, /* not inside of the input, or no certificate as der_certificate reads one */
  DER_RECIPIENT_PART_ALGORITHM = 2,  /* not inside of the input, or no AlgorithmIdentifier */
  DER_RECIPIENT_PART_KEY = 3         /* not inside of the input */
} der_recipient_part;

/* Writes a recipient of enveloped data, one RecipientInfo (RFC 5652, 6.2), to the front of out: for der_build_enveloped,
 * which takes it as a range of its input. given says of each part where the input has its octets, in any order; ranges
 * may overlap. Set all of given to 0 first: a flag is set where it isn't 0. This call encrypts nothing: the caller
 * encrypts the content-encryption key, gives the result as key, and says in algorithm how.
 *  - is_kek is 0: KeyTransRecipientInfo (6.2.1), for the key pair of a certificate. It is named by the issuer and the
 *    serial number of the certificate, out of which they are read, and has version 0; or by the key identifier, and has
 *    version 2.
 *  - is_kek is set: KEKRecipientInfo (6.2.3), of version 4, with the key identifier, and without date and other.
 *    has_key_identifier and certificate aren't looked at.
 * Recipients of other kinds, by key agreement, with a password or of a type of their own, have no call: give them to
 * der_build_enveloped as they are. That key and algorithm fit isn't looked at.
 *  - DER_NORMAL: *written bytes were written, and the rest of out is as it was.
 *  - DER_NO_ROOM: *written bytes are needed, and out_len, which may be 0, is less.
 *  - DER_INVALID: a part can't be written, and *part is its der_recipient_part; where several can't, one of them.
 *  - DER_TOO_LONG: it would have 2^64 bytes or more.
 *  - DER_NO_MEMORY.
 * Unless at DER_NORMAL out is as it was, unless at DER_NORMAL and DER_NO_ROOM *written is 0, and unless at DER_INVALID
 * *part is 0. Proved is that what is written is the encoding of a recipient with these parts, and reads as these alone,
 * and that der_build_enveloped doesn't refuse it; and that at DER_INVALID no recipient can be built from what is given,
 * and that *part can't be written. */
DER_CALL
uint32_t der_build_recipient(const uint8_t *input, size_t input_len, const der_recipient_given *given, uint8_t *out,
                             size_t out_len, size_t *written, size_t *part);

/* Enveloped data for der_build_enveloped, but for their recipients. */
typedef struct der_enveloped_given {
  size_t has_content;     /* unless 0: the encrypted content is in the file, otherwise it is elsewhere */
  size_t has_attributes;  /* unless 0: there are unprotected attributes */
  der_range content_type; /* the contents octets of an object identifier, the type of what was encrypted: see
                             der_oid_octets */
  der_range algorithm;    /* an AlgorithmIdentifier, with its parameters: how the content is encrypted. Of AES in CBC
                             mode they are the initialization vector, an OCTET STRING: 04 10 and 16 octets (RFC 3565,
                             4.1) */
  der_range content;      /* the octets of the encrypted content */
  der_range attributes;   /* the element of a SET OF Attribute, which isn't empty, as der_build_attributes writes it of
                             further attributes alone. RFC 5652, 11.1 to 11.4, allows no contentType, messageDigest,
                             signingTime and countersignature here, which isn't looked at */
} der_enveloped_given;

/* Which part der_build_enveloped can't write, and why. */
typedef enum der_enveloped_part {
  DER_ENVELOPED_PART_CONTENT_TYPE = 1, /* not inside of the input, or no object identifier */
  DER_ENVELOPED_PART_ALGORITHM = 2,    /* not inside of the input, or no AlgorithmIdentifier */
  DER_ENVELOPED_PART_CONTENT = 3,      /* not inside of the input */
  DER_ENVELOPED_PART_RECIPIENT = 4,    /* not inside of the input, or no element with the tag of a RecipientInfo: 30, A1,
                                          A2, A3 or A4 (RFC 5652, 6.2); or one with 30 whose contents don't begin with
                                          the version, 02 01 00 or 02 01 02 (6.2.1) */
  DER_ENVELOPED_PART_RECIPIENTS = 5,   /* there is none, and RFC 5652, 6.1 asks for one */
  DER_ENVELOPED_PART_ATTRIBUTES = 6    /* not inside of the input, or no SET OF Attribute, or an empty one */
} der_enveloped_part;

/* Writes enveloped data under their content type, a ContentInfo (RFC 5652, 3 and 6), to the front of out: an encrypted
 * content, or none, with recipients_len recipients and without originatorInfo. given and recipients say of each part
 * where the input has its octets, in any order; ranges may overlap. Set all of given to 0 first: a flag is set where it
 * isn't 0. A recipient is a RecipientInfo of any kind, as der_build_recipient writes it, or as der_part_ranges finds it
 * under DER_PART_RECIPIENT, which may also find elements that are refused here. Nothing is encrypted: the caller
 * encrypts the content, and its key for each recipient. Enveloped data don't say who made them, nor that nobody changed
 * them. To change a file that was read, take recipients, algorithm and encrypted content from der_part_ranges. No call
 * finds its content type, its unprotected attributes or its originatorInfo: read them yourself. A file with
 * originatorInfo can't be built again.
 *  - The version is that of RFC 5652, 6.1, where originatorInfo is absent: 3 with a recipient that has a password or is
 *    of another type (A3 or A4), else 0 where has_attributes is 0 and all recipients have the tag 30 and version 0,
 *    else 2.
 *  - Recipients are in the order of DER (X.690, 11.6), whatever order they are given in, each as it is. One that is given
 *    twice is written twice. What is in one isn't looked at, but for the version of one with the tag 30.
 *  - Unprotected attributes stay in the order in which they are given.
 * A part whose flag is 0 isn't looked at.
 *  - DER_NORMAL: *written bytes were written, and the rest of out is as it was.
 *  - DER_NO_ROOM: *written bytes are needed, and out_len, which may be 0, is less.
 *  - DER_INVALID: a part can't be written, and *part is its der_enveloped_part. Of a recipient *index is its index, from
 *    0 on, and otherwise 0. Where several can't, they are those of one of them.
 *  - DER_TOO_LONG: it would have 2^64 bytes or more.
 *  - DER_NO_MEMORY.
 * Unless at DER_NORMAL out is as it was, unless at DER_NORMAL and DER_NO_ROOM *written is 0, and unless at DER_INVALID
 * *index and *part are 0. Proved is that what is written is the encoding of enveloped data with these parts, their
 * recipients in the order of DER and their version as said, and reads as these alone, so that der_part_ranges finds the
 * recipients, the algorithm and the content with the octets that are given. And that at DER_INVALID no enveloped data
 * can be written of what is given, as said above, and that *part and *index say one part that can't. */
DER_CALL
uint32_t der_build_enveloped(const uint8_t *input, size_t input_len, const der_enveloped_given *given,
                             const der_range *recipients, size_t recipients_len, uint8_t *out, size_t out_len,
                             size_t *written, size_t *index, size_t *part);

/* Which octets of a PKCS #12 file a MAC covers: the contents octets of the OCTET STRING that is the content of
 * authSafe, without its tag and length.
 *  - DER_NORMAL: they are the *len octets from input + *start on, all of them inside of the input. Proved is that they
 *    are this part itself, and not equal octets elsewhere: these steps lead there from the input's first octet. Into the
 *    file's element, past the version; into authSafe, past its object identifier; into [0]; into the OCTET STRING. Of
 *    30 16 02 01 03 30 11 06 09 2A 86 48 86 F7 0D 01 07 01 A0 04 04 02 30 00 they are the last two octets, and *start is
 *    22. That doesn't say that there is a MAC: a file without macData answers so too, as `openssl pkcs12 -export -nomac`
 *    makes it. Nor does it say that a MAC is right.
 *  - DER_NO_RANGE: the file is a PFX, and its authSafe isn't data, but signed, say.
 *  - DER_MALFORMED to DER_TOO_DEEP: it is no PFX, read as "rawpfx", which asks of what the OCTET STRING holds only that
 *    it is one element.
 *  - DER_NO_MEMORY.
 * Unless at DER_NORMAL both numbers are 0. */
DER_CALL
uint32_t der_mac_range(const uint8_t *input, size_t input_len, size_t *start, size_t *len);

/* What a verifier of a PKCS #12 file's MAC needs beside DER_PART_MAC_DIGEST_ALGORITHM, DER_PART_MAC_DIGEST and
 * DER_PART_MAC_SALT: the range of der_mac_range, and how often the key derivation hashes, 1 where that is left out. The
 * parameters of the digest's algorithm, which PBMAC1 has (RFC 9579), no call gives.
 *  - DER_NORMAL: the file has a MAC, which covers the *len octets from input + *start on. Nothing is said of whether it
 *    is right: the caller makes it and compares, first the lengths. Limit the count before a key is derived: it is what
 *    the file says, from 0 to 4294967295.
 *  - DER_NO_PART: its authSafe is data, and it has no MAC.
 *  - DER_NO_RANGE, DER_MALFORMED to DER_TOO_DEEP, DER_NO_MEMORY: as of der_mac_range.
 * Unless at DER_NORMAL the numbers are 0. */
DER_CALL
uint32_t der_mac(const uint8_t *input, size_t input_len, size_t *start, size_t *len, size_t *iterations);

/* Writes the DER of an input in BER (X.690, 8) to the front of out, as far as lengths and the form of OCTET STRINGs go
 * (X.690, 10.1 and 10.2), with at most DER_MAX_NESTING levels of nesting. Lengths become definite, in the fewest octets,
 * and an OCTET STRING in segments becomes one piece of the same octets, which is proved of an OCTET STRING by itself: so
 * the octets of content that is one, which a digest or a MAC covers, stay. All else stays as it is: of the contents of
 * primitive elements only the lengths of BOOLEANs and NULLs are looked at, and the order of sets isn't. DER that is not
 * refused comes out as it went in.
 *  - DER_NORMAL: *written bytes were written, and the rest of out is as it was.
 *  - DER_NO_ROOM: *written bytes are needed, and out_len is less. Where contents are long, that may be some bytes more
 *    than the input has.
 *  - DER_MALFORMED to DER_TOO_DEEP: the input has no DER, and *place says where, as an offset from its first byte.
 *    Refused are also tags of several bytes, lengths of more than eight octets, and other strings in segments than
 *    OCTET STRINGs; and of the universal types, what has a form that its type doesn't have, as a primitive SEQUENCE
 *    (8.9.1) or a constructed NULL (8.8.1), a BOOLEAN of other than one octet (8.2.1), and a NULL with contents (8.8.2).
 *    - DER_MALFORMED: where an element should begin and none does, or where bytes begin that are left over.
 *    - DER_MISSING: the end of the contents, or of the input, in which an element or the end of contents is missing.
 *    - DER_INVALID: where the element begins whose tag, form or length is refused.
 *    - DER_TOO_DEEP: where the element begins that is nested too deep.
 *  - DER_NO_MEMORY: *place is an offset without use.
 * DER_TOO_LONG isn't answered, which isn't proved. Unless at DER_NORMAL out is as it was, and unless at DER_NORMAL and
 * DER_NO_ROOM *written is 0. At these two *place is 0. That it is at most input_len is proved; which place it is, is
 * tested.
 *
 * It looks into each constructed element, and so it may refuse what a kind keeps as it is. A constructed element under
 * a context tag that holds OCTET STRINGs may be an explicit tag around one, or an OCTET STRING in segments under an
 * implicit tag. One of these is taken as the second: in a SEQUENCE that begins with an OBJECT IDENTIFIER and a SEQUENCE,
 * a third element [0] of indefinite length, as in EncryptedContentInfo (RFC 5652, 6.1). All others, also of a definite
 * length, are taken as explicit tags and keep their segments. */
DER_CALL
uint32_t der_from_ber(const uint8_t *input, size_t input_len, uint8_t *out, size_t out_len, size_t *written,
                      size_t *place);

/* As der_mac, of a PKCS #12 file that der_from_ber wrote: its authSafe may hold BER, which der_from_ber keeps as it is,
 * since the MAC covers it, and which der_mac and "rawpfx" refuse unless it is one element. Of what the OCTET STRING
 * holds nothing is asked. The *len octets from input + *start on are in what der_from_ber wrote, and in the same order in
 * the file that it was given, though there they may be in pieces: that is proved of the OCTET STRING by itself, and of
 * one in a file tested. The statuses are those of der_mac. */
DER_CALL
uint32_t der_mac_ber(const uint8_t *input, size_t input_len, size_t *start, size_t *len, size_t *iterations);

/* As der_part, of the MAC of such a file. number is DER_PART_MAC_DIGEST_ALGORITHM, DER_PART_MAC_DIGEST or
 * DER_PART_MAC_SALT; at any other one the status is DER_UNKNOWN_KIND. */
DER_CALL
uint32_t der_mac_part_ber(size_t number, const uint8_t *input, size_t input_len, uint8_t *out, size_t out_len,
                          size_t *written);

/* Writes the Name (RFC 5280, 4.1.2.4) that the input encodes, as a subject or an issuer, to the front of out, as text
 * by RFC 4514 in UTF-8 without a zero byte after it: the last RelativeDistinguishedName first, and within one the last
 * attribute first, as openssl -nameopt RFC2253 orders them. Types have the short names CN, L, ST, O, OU, C, STREET, DC
 * and UID; another type is dotted, and its value # and hexadecimal. So is the value of one of these where it is no
 * UTF8String, BMPString, or PrintableString, TeletexString or IA5String in ASCII. A control character, but for NUL, is
 * written as it is. A RelativeDistinguishedName without an attribute, which a Name here may have, is written as nothing,
 * which RFC 4514 has no text for.
 *  - DER_NORMAL: *written bytes were written, and the rest of out is as it was.
 *  - DER_NO_ROOM: *written bytes are needed, and out_len is less.
 *  - DER_MALFORMED to DER_TOO_DEEP: the input is no encoding of a Name, or, at DER_INVALID, a dotted type in it has a
 *    number that 64 bits don't hold.
 *  - DER_NO_MEMORY.
 * Unless at DER_NORMAL out is as it was, and unless at DER_NORMAL and DER_NO_ROOM *written is 0. */
DER_CALL
uint32_t der_name_text(const uint8_t *input, size_t input_len, uint8_t *out, size_t out_len, size_t *written);

/* Writes an object identifier, by its contents octets, as "1.2.840.113549.1.1.11" to the front of out. What it answers
 * is as of der_name_text, and the refusal always DER_INVALID: where the octets are no object identifier's, or have a
 * number that 64 bits don't hold. */
DER_CALL
uint32_t der_oid_text(const uint8_t *octets, size_t octets_len, uint8_t *out, size_t out_len, size_t *written);

/* Writes the contents octets of an object identifier, by its text as der_oid_text writes it, to the front of out: of
 * "1.2.840.113549" 2A 86 48 86 F7 0D. The text is numbers in decimal without leading zeros, joined by dots, and
 * text_len counts no zero byte after it. What it answers is as of der_name_text, and the refusal is always DER_INVALID:
 * where the text is anything else, or has fewer than two numbers, a first one above 2, after 0 or 1 a second one above
 * 39, a number of 2^64 or more, or after 2 a second one of 2^64 - 80 or more. */
DER_CALL
uint32_t der_oid_octets(const uint8_t *text, size_t text_len, uint8_t *out, size_t out_len, size_t *written);

/* Writes the name of an object identifier, by its contents octets, as "sha256WithRSAEncryption" to the front of out, in
 * ASCII without a zero byte after it: the long name that openssl 3.0 prints, or where it has none that of the document
 * that defines it, of some 400 that people meet in containers and certificates. It takes no memory.
 *  - DER_NORMAL: *written bytes were written, and the rest of out is as it was.
 *  - DER_NO_ROOM: *written bytes are needed, and out_len is less.
 *  - DER_NO_PART: the library knows no name for these octets, and *written is 0.
 * Unless at DER_NORMAL out is as it was. */
DER_CALL
uint32_t der_oid_name(const uint8_t *octets, size_t octets_len, uint8_t *out, size_t out_len, size_t *written);

/* Writes the number that the contents octets of an INTEGER hold (X.690, 8.3), as a serial number, in decimal, after a
 * minus where it is negative, to the front of out. Octets that DER would leave out are taken too. What it answers is as
 * of der_name_text, and the refusal is always DER_INVALID: where there are no octets or more than 1,024, since the time
 * that a text takes grows by the square of their count. */
DER_CALL
uint32_t der_integer_text(const uint8_t *octets, size_t octets_len, uint8_t *out, size_t out_len, size_t *written);

/* Writes UTF-16, two octets for each unit, the high one first, as friendly_name of der_bag_parts has it, as UTF-8 to
 * the front of out, without a zero byte after it. What it answers is as of der_name_text, and the refusal is always
 * DER_INVALID: where the octets are no UTF-16: an odd number of them, or a surrogate without its other half. */
DER_CALL
uint32_t der_utf16_text(const uint8_t *octets, size_t octets_len, uint8_t *out, size_t out_len, size_t *written);

/* Writes a text in UTF-8 as UTF-16, two octets for each unit, the high one first, as friendly_name of der_bag_given
 * takes it, to the front of out: of "A" 00 41. text_len counts no zero byte after the text, and none is written; one in
 * the text is a character like others. With two zero octets after it, that is a password as RFC 7292, B.1, says. What
 * it answers is as of der_name_text, and the refusal is always DER_INVALID: where the text isn't UTF-8, as with a
 * surrogate in it. */
DER_CALL
uint32_t der_text_utf16(const uint8_t *text, size_t text_len, uint8_t *out, size_t out_len, size_t *written);

/* A limit as the calls take it: one that a byte is too small for counts as DER_MAX_NESTING too. */
static inline uint8_t der_levels(unsigned limit) {
  return (uint8_t)(limit < DER_MAX_NESTING ? limit : DER_MAX_NESTING);
}

/* The pointers as the calls take them: for null, with the length 0, one that isn't null. Nothing is read or written
 * there. */
static inline const uint8_t *der_given(const uint8_t *input, size_t input_len) {
  static const uint8_t nothing = 0;
  return input || input_len ? input : &nothing;
}

static inline void *der_room(void *out, size_t out_len) {
  static size_t nothing = 0;
  return out || out_len ? out : &nothing;
}

/* Checks an input as the kind, the name of a type in lower case, as "pfx", with at most limit levels of nesting. A
 * limit above DER_MAX_NESTING counts as DER_MAX_NESTING.
 *  - DER_NORMAL: the whole input is an encoding of the kind, and normal. *normal_len is its length.
 *  - DER_LOOSE: it is an encoding of the kind, but its normal encoding is another. *normal_len is the length of that
 *    one.
 *  - DER_UNKNOWN_KIND.
 *  - DER_MALFORMED to DER_TOO_DEEP: it is no encoding of the kind, within the limit.
 *  - DER_TOO_LONG: it is one, but its normal encoding is too long.
 *  - DER_NO_MEMORY.
 * Unless at DER_NORMAL and DER_LOOSE *normal_len is 0. */
DER_LOOK
static inline der_status der_check_limited(const char *kind, unsigned limit, const uint8_t *input, size_t input_len,
                                           size_t *normal_len) {
  size_t place;
  return (der_status)der_check_word_limited((const uint8_t *)kind, strlen(kind), der_levels(limit),
                                            der_given(input, input_len), input_len, normal_len, &place);
}

/* The same with at most DER_MAX_NESTING levels. */
DER_LOOK
static inline der_status der_check(const char *kind, const uint8_t *input, size_t input_len, size_t *normal_len) {
  return der_check_limited(kind, DER_MAX_NESTING, input, input_len, normal_len);
}

/* Checks as der_check does, and says where an input is refused, as an offset from its first byte.
 *  - DER_MALFORMED: *place is where an element should begin and none does, or where bytes begin that are left over.
 *  - DER_MISSING: the end of the contents in which an element is missing.
 *  - DER_INVALID: where the element begins whose tag or contents are refused. Of a set of one value that has two, as
 *    two friendly names of a bag, it is the first of them, which may be right itself.
 *  - DER_TOO_DEEP: where the element begins that is nested too deep.
 * At any other status *place is 0. That it is at most input_len is proved; which place it is, is tested. */
DER_LOOK
static inline der_status der_locate(const char *kind, const uint8_t *input, size_t input_len, size_t *place) {
  size_t normal_len;
  uint32_t status = der_check_word_limited((const uint8_t *)kind, strlen(kind), DER_MAX_NESTING,
                                           der_given(input, input_len), input_len, &normal_len, place);
  if (status < DER_MALFORMED || status > DER_TOO_DEEP) *place = 0;
  return (der_status)status;
}

/* Checks as der_check does, and says where an input is loose.
 *  - DER_LOOSE: from *place on the input is what its normal encoding ends in too, and no longer end is: the last
 *    difference is right before *place, in the input or in its normal encoding.
 * At any other status *place is 0. */
DER_LOOK
static inline der_status der_loose_end(const char *kind, const uint8_t *input, size_t input_len, size_t *place) {
  size_t normal_len;
  uint32_t status = der_check_word_limited((const uint8_t *)kind, strlen(kind), DER_MAX_NESTING,
                                           der_given(input, input_len), input_len, &normal_len, place);
  if (status != DER_LOOSE) *place = 0;
  return (der_status)status;
}

/* Writes the normal encoding of an input to the front of out. The limit is as of der_check_limited.
 *  - DER_NORMAL: *written bytes were written, and the rest of out is as it was.
 *  - DER_NO_ROOM: *written bytes are needed, and out_len is less.
 *  - Any other status but DER_LOOSE is as of der_check_limited, and *written is 0.
 * Unless at DER_NORMAL out is as it was. */
DER_LOOK
static inline der_status der_rewrite_limited(const char *kind, unsigned limit, const uint8_t *input, size_t input_len,
                                             uint8_t *out, size_t out_len, size_t *written) {
  return (der_status)der_rewrite_word_limited((const uint8_t *)kind, strlen(kind), der_levels(limit),
                                              der_given(input, input_len), input_len,
                                              (uint8_t *)der_room(out, out_len), out_len, written);
}

/* The same with at most DER_MAX_NESTING levels. */
DER_LOOK
static inline der_status der_rewrite(const char *kind, const uint8_t *input, size_t input_len, uint8_t *out,
                                     size_t out_len, size_t *written) {
  return der_rewrite_limited(kind, DER_MAX_NESTING, input, input_len, out, out_len, written);
}

/* Writes a part of a container, with at most DER_MAX_NESTING levels, to the front of out. Parts that a container has
 * several of, certificates, signers, keys and bags, are counted by the index from 0 on. A signer's issuer, signature
 * algorithm and signed attributes are written anew, and so normal where the input is loose; all else is octets of the
 * input.
 *  - DER_NORMAL: *written bytes were written, and the rest of out is as it was.
 *  - DER_NO_ROOM: *written bytes are needed, and out_len is less.
 *  - DER_NO_PART: the container has none of that index; or signed data have no content, since the signature is
 *    detached; or a signer has no signed attributes, is named by its key and not by its issuer, or the other way round;
 *    or the file has no MAC.
 *  - DER_MALFORMED to DER_TOO_DEEP: the input is no encoding of the type that the part is of, or, of a store, as of
 *    der_bag_rows, whatever the part is. *place says where, as there and as of der_locate.
 *  - DER_TOO_LONG: the part is too long.
 *  - DER_NO_RANGE: never.
 *  - DER_UNKNOWN_KIND: no part has that number, or it is one of the three of enveloped data, which der_ranges lists.
 *  - DER_NO_MEMORY: *place is an offset without use.
 * Unless at DER_NORMAL out is as it was, unless at DER_NORMAL and DER_NO_ROOM *written is 0, and but for the refusals
 * and DER_NO_MEMORY *place is 0. That *place is at most input_len is proved; which place it is, is tested. Each call
 * reads the input anew. */
DER_LOOK
static inline der_status der_part(der_part_number part, size_t index, const uint8_t *input, size_t input_len,
                                  uint8_t *out, size_t out_len, size_t *written, size_t *place) {
  return (der_status)der_part_octets((size_t)part, index, der_given(input, input_len), input_len,
                                     (uint8_t *)der_room(out, out_len), out_len, written, place);
}

/* The same as der_part_ranges. */
DER_LOOK
static inline der_status der_ranges(der_part_number part, const uint8_t *input, size_t input_len, der_range *out,
                                    size_t out_len, size_t *count, size_t *place) {
  return (der_status)der_part_ranges((size_t)part, der_given(input, input_len), input_len,
                                     (der_range *)der_room(out, out_len), out_len, count, place);
}

/* The same as der_attribute_ranges. */
DER_LOOK
static inline der_status der_attributes(int is_signed, size_t index, const uint8_t *input, size_t input_len,
                                        der_range *out, size_t out_len, size_t *count, size_t *place) {
  return (der_status)der_attribute_ranges(is_signed != 0, index, der_given(input, input_len), input_len,
                                          (der_range *)der_room(out, out_len), out_len, count, place);
}

/* The same as der_signer_rows. */
DER_LOOK
static inline der_status der_signers(const uint8_t *input, size_t input_len, size_t first, der_signer_parts *out,
                                     size_t out_len, size_t *count, size_t *place) {
  return (der_status)der_signer_rows(der_given(input, input_len), input_len, first,
                                     (der_signer_parts *)der_room(out, out_len), out_len, count, place);
}

/* The same of the signer with that index alone. Its status is answered, and where there are fewer signers DER_NO_PART.
 * out->status is what is answered, and unless that is DER_NORMAL all else of *out is 0. */
DER_LOOK
static inline der_status der_signer(size_t index, const uint8_t *input, size_t input_len, der_signer_parts *out,
                                    size_t *place) {
  size_t count;
  memset(out, 0, sizeof *out);
  uint32_t status = der_signer_rows(der_given(input, input_len), input_len, index, out, 1, &count, place);
  if (status != DER_NORMAL) out->status = status;
  else if (index >= count) out->status = DER_NO_PART;
  return (der_status)out->status;
}

/* The same as der_bag_rows. */
DER_LOOK
static inline der_status der_bags(const uint8_t *input, size_t input_len, der_bag_parts *out, size_t out_len,
                                  size_t *count, size_t *place) {
  return (der_status)der_bag_rows(der_given(input, input_len), input_len, (der_bag_parts *)der_room(out, out_len),
                                  out_len, count, place);
}

/* The same as der_trust_rows. */
DER_LOOK
static inline der_status der_trust_entries(const uint8_t *input, size_t input_len, der_trust_entry_parts *out,
                                           size_t out_len, size_t *count, size_t *place) {
  return (der_status)der_trust_rows(der_given(input, input_len), input_len,
                                    (der_trust_entry_parts *)der_room(out, out_len), out_len, count, place);
}

/* Copies what the signature of a signer covers to out, which has room for covered.len bytes. */
static inline void der_covered(const der_signer_parts *signer, const uint8_t *input, uint8_t *out) {
  if (signer->covered.len) memcpy(out, input + signer->covered.start, signer->covered.len);
  if (signer->over_attributes) out[0] = 0x31;
}

/* Writes the word of the kind with that index, from 0 on, to the front of out.
 *  - DER_NORMAL: *written bytes were written, without a zero byte after them, and the rest of out is as it was.
 *  - DER_NO_ROOM: *written bytes are needed, and out_len is less.
 *  - DER_UNKNOWN_KIND: there are no more kinds, and *written is 0.
 * Unless at DER_NORMAL out is as it was. It takes no memory. */
DER_LOOK
static inline der_status der_kind(size_t index, char *out, size_t out_len, size_t *written) {
  return (der_status)der_kind_word(index, (uint8_t *)der_room(out, out_len), out_len, written);
}

/* A word for each status. */
static inline const char *der_status_word(der_status status) {
  static const char *const words[] = {"normal",   "loose",    "unknown kind", "malformed", "missing", "invalid",
                                      "too deep", "too long", "no memory",    "no room",   "no range", "no part",
                                      "bad attributes"};
  return (unsigned)status <= DER_BAD_ATTRIBUTES ? words[status] : "unknown status";
}

#ifdef __cplusplus
}
#endif
#endif
