"""Object identifiers, their names and their documents. Made of asn1/object_identifiers.txt."""

TABLE = """
1.2.840.113549.2.2  md2  RFC 1319
1.2.840.113549.2.4  md4  RFC 1320
1.2.840.113549.2.5  md5  RFC 1321
1.3.14.3.2.26  sha1  RFC 3370
2.16.840.1.101.3.4.2.1  sha256  RFC 5754
2.16.840.1.101.3.4.2.2  sha384  RFC 5754
2.16.840.1.101.3.4.2.3  sha512  RFC 5754
2.16.840.1.101.3.4.2.4  sha224  RFC 5754
2.16.840.1.101.3.4.2.5  sha512-224  RFC 8017
2.16.840.1.101.3.4.2.6  sha512-256  RFC 8017
2.16.840.1.101.3.4.2.7  sha3-224  RFC 9688
2.16.840.1.101.3.4.2.8  sha3-256  RFC 9688
2.16.840.1.101.3.4.2.9  sha3-384  RFC 9688
2.16.840.1.101.3.4.2.10  sha3-512  RFC 9688
2.16.840.1.101.3.4.2.11  shake128  RFC 8702
2.16.840.1.101.3.4.2.12  shake256  RFC 8702
1.3.36.3.2.1  ripemd160  ISO/IEC 10118-3
1.0.10118.3.0.55  whirlpool  ISO/IEC 10118-3
1.2.156.10197.1.401  sm3  GB/T 32905
1.2.643.2.2.9  GOST R 34.11-94  RFC 4357
1.2.643.7.1.1.2.2  GOST R 34.11-2012 with 256 bit hash  RFC 9215
1.2.643.7.1.1.2.3  GOST R 34.11-2012 with 512 bit hash  RFC 9215
1.3.6.1.4.1.1722.12.2.1.16  blake2b512  RFC 7693
1.3.6.1.4.1.1722.12.2.2.8  blake2s256  RFC 7693
1.2.840.113549.2.6  hmacWithMD5  RSA Security
1.2.840.113549.2.7  hmacWithSHA1  RFC 8018
1.2.840.113549.2.8  hmacWithSHA224  RFC 8018
1.2.840.113549.2.9  hmacWithSHA256  RFC 8018
1.2.840.113549.2.10  hmacWithSHA384  RFC 8018
1.2.840.113549.2.11  hmacWithSHA512  RFC 8018
1.2.840.113549.2.12  hmacWithSHA512-224  RFC 8018
1.2.840.113549.2.13  hmacWithSHA512-256  RFC 8018
2.16.840.1.101.3.4.2.13  hmac-sha3-224  RFC 9688
2.16.840.1.101.3.4.2.14  hmac-sha3-256  RFC 9688
2.16.840.1.101.3.4.2.15  hmac-sha3-384  RFC 9688
2.16.840.1.101.3.4.2.16  hmac-sha3-512  RFC 9688
1.3.6.1.5.5.8.1.1  hmac-md5  IANA
1.3.6.1.5.5.8.1.2  hmac-sha1  RFC 3370
1.2.840.113533.7.66.13  password based MAC  RFC 4210
1.2.840.113533.7.66.30  Diffie-Hellman based MAC  RFC 4210
1.2.643.7.1.1.4.1  HMAC GOST 34.11-2012 256 bit  RFC 7836
1.2.643.7.1.1.4.2  HMAC GOST 34.11-2012 512 bit  RFC 7836
1.2.840.113549.1.9.16.3.28  id-alg-hkdf-with-sha256  RFC 8619
1.2.840.113549.1.9.16.3.29  id-alg-hkdf-with-sha384  RFC 8619
1.2.840.113549.1.9.16.3.30  id-alg-hkdf-with-sha512  RFC 8619
1.2.840.113549.1.12.1.1  pbeWithSHA1And128BitRC4  RFC 7292
1.2.840.113549.1.12.1.2  pbeWithSHA1And40BitRC4  RFC 7292
1.2.840.113549.1.12.1.3  pbeWithSHA1And3-KeyTripleDES-CBC  RFC 7292
1.2.840.113549.1.12.1.4  pbeWithSHA1And2-KeyTripleDES-CBC  RFC 7292
1.2.840.113549.1.12.1.5  pbeWithSHA1And128BitRC2-CBC  RFC 7292
1.2.840.113549.1.12.1.6  pbeWithSHA1And40BitRC2-CBC  RFC 7292
1.2.840.113549.1.5.1  pbeWithMD2AndDES-CBC  RFC 8018
1.2.840.113549.1.5.3  pbeWithMD5AndDES-CBC  RFC 8018
1.2.840.113549.1.5.4  pbeWithMD2AndRC2-CBC  RFC 8018
1.2.840.113549.1.5.6  pbeWithMD5AndRC2-CBC  RFC 8018
1.2.840.113549.1.5.10  pbeWithSHA1AndDES-CBC  RFC 8018
1.2.840.113549.1.5.11  pbeWithSHA1AndRC2-CBC  RFC 8018
1.2.840.113549.1.5.12  PBKDF2  RFC 8018
1.2.840.113549.1.5.13  PBES2  RFC 8018
1.2.840.113549.1.5.14  PBMAC1  RFC 8018
1.3.6.1.4.1.11591.4.11  scrypt  RFC 7914
1.2.840.113549.1.9.16.3.9  id-alg-PWRI-KEK  RFC 3211
1.2.840.113549.1.1.1  rsaEncryption  RFC 8017
1.2.840.113549.1.1.2  md2WithRSAEncryption  RFC 8017
1.2.840.113549.1.1.3  md4WithRSAEncryption  RFC 2313
1.2.840.113549.1.1.4  md5WithRSAEncryption  RFC 8017
1.2.840.113549.1.1.5  sha1WithRSAEncryption  RFC 8017
1.2.840.113549.1.1.7  rsaesOaep  RFC 8017
1.2.840.113549.1.1.8  mgf1  RFC 8017
1.2.840.113549.1.1.9  pSpecified  RFC 8017
1.2.840.113549.1.1.10  rsassaPss  RFC 8017
1.2.840.113549.1.1.11  sha256WithRSAEncryption  RFC 8017
1.2.840.113549.1.1.12  sha384WithRSAEncryption  RFC 8017
1.2.840.113549.1.1.13  sha512WithRSAEncryption  RFC 8017
1.2.840.113549.1.1.14  sha224WithRSAEncryption  RFC 8017
1.2.840.113549.1.1.15  sha512-224WithRSAEncryption  RFC 8017
1.2.840.113549.1.1.16  sha512-256WithRSAEncryption  RFC 8017
1.3.14.3.2.29  sha1WithRSA  OIW
1.3.14.3.2.3  md5WithRSA  OIW
1.3.36.3.3.1.2  ripemd160WithRSA  TeleTrusT
2.16.840.1.101.3.4.3.13  RSA-SHA3-224  RFC 9688
2.16.840.1.101.3.4.3.14  RSA-SHA3-256  RFC 9688
2.16.840.1.101.3.4.3.15  RSA-SHA3-384  RFC 9688
2.16.840.1.101.3.4.3.16  RSA-SHA3-512  RFC 9688
1.2.840.10040.4.1  dsaEncryption  RFC 3279
1.2.840.10040.4.3  dsaWithSHA1  RFC 3279
1.3.14.3.2.12  dsaEncryption-old  OIW
1.3.14.3.2.27  dsaWithSHA1-old  OIW
2.16.840.1.101.3.4.3.1  dsa_with_SHA224  RFC 5758
2.16.840.1.101.3.4.3.2  dsa_with_SHA256  RFC 5758
2.16.840.1.101.3.4.3.3  dsa_with_SHA384  NIST CSOR
2.16.840.1.101.3.4.3.4  dsa_with_SHA512  NIST CSOR
1.2.840.10045.2.1  id-ecPublicKey  RFC 5480
1.2.840.10045.4.1  ecdsa-with-SHA1  RFC 3279
1.2.840.10045.4.3.1  ecdsa-with-SHA224  RFC 5758
1.2.840.10045.4.3.2  ecdsa-with-SHA256  RFC 5758
1.2.840.10045.4.3.3  ecdsa-with-SHA384  RFC 5758
1.2.840.10045.4.3.4  ecdsa-with-SHA512  RFC 5758
2.16.840.1.101.3.4.3.9  ecdsa_with_SHA3-224  RFC 9688
2.16.840.1.101.3.4.3.10  ecdsa_with_SHA3-256  RFC 9688
2.16.840.1.101.3.4.3.11  ecdsa_with_SHA3-384  RFC 9688
2.16.840.1.101.3.4.3.12  ecdsa_with_SHA3-512  RFC 9688
1.2.840.10045.1.1  prime-field  RFC 3279
1.2.840.10045.1.2  characteristic-two-field  RFC 3279
1.2.840.10045.3.1.1  prime192v1  RFC 5480
1.3.132.0.33  secp224r1  RFC 5480
1.2.840.10045.3.1.7  prime256v1  RFC 5480
1.3.132.0.34  secp384r1  RFC 5480
1.3.132.0.35  secp521r1  RFC 5480
1.3.132.0.8  secp160r1  SEC 2
1.3.132.0.10  secp256k1  SEC 2
1.3.132.0.26  sect233k1  RFC 5480
1.3.132.0.16  sect283k1  RFC 5480
1.3.132.0.38  sect571k1  RFC 5480
1.3.36.3.3.2.8.1.1.7  brainpoolP256r1  RFC 5639
1.3.36.3.3.2.8.1.1.8  brainpoolP256t1  RFC 5639
1.3.36.3.3.2.8.1.1.11  brainpoolP384r1  RFC 5639
1.3.36.3.3.2.8.1.1.12  brainpoolP384t1  RFC 5639
1.3.36.3.3.2.8.1.1.13  brainpoolP512r1  RFC 5639
1.3.36.3.3.2.8.1.1.14  brainpoolP512t1  RFC 5639
1.2.156.10197.1.301  sm2  GB/T 32918
1.2.156.10197.1.501  SM2-with-SM3  GB/T 32918
1.3.101.110  X25519  RFC 8410
1.3.101.111  X448  RFC 8410
1.3.101.112  ED25519  RFC 8410
1.3.101.113  ED448  RFC 8410
1.2.840.113549.1.3.1  dhKeyAgreement  PKCS #3
1.2.840.10046.2.1  X9.42 DH  RFC 3279
1.2.643.2.2.19  GOST R 34.10-2001  RFC 4491
1.2.643.7.1.1.1.1  GOST R 34.10-2012 with 256 bit modulus  RFC 9215
1.2.643.7.1.1.1.2  GOST R 34.10-2012 with 512 bit modulus  RFC 9215
1.2.643.7.1.1.3.2  GOST R 34.10-2012 with GOST R 34.11-2012 (256 bit)  RFC 9215
1.2.643.7.1.1.3.3  GOST R 34.10-2012 with GOST R 34.11-2012 (512 bit)  RFC 9215
2.16.840.1.101.3.4.3.17  ML-DSA-44  RFC 9881
2.16.840.1.101.3.4.3.18  ML-DSA-65  RFC 9881
2.16.840.1.101.3.4.3.19  ML-DSA-87  RFC 9881
2.16.840.1.101.3.4.4.1  ML-KEM-512  NIST CSOR
2.16.840.1.101.3.4.4.2  ML-KEM-768  NIST CSOR
2.16.840.1.101.3.4.4.3  ML-KEM-1024  NIST CSOR
1.2.840.113549.1.9.16.3.5  id-smime-alg-ESDH  RFC 3370
1.3.133.16.840.63.0.2  dhSinglePass-stdDH-sha1kdf-scheme  RFC 5753
1.3.133.16.840.63.0.3  dhSinglePass-cofactorDH-sha1kdf-scheme  RFC 5753
1.3.132.1.11.0  dhSinglePass-stdDH-sha224kdf-scheme  RFC 5753
1.3.132.1.11.1  dhSinglePass-stdDH-sha256kdf-scheme  RFC 5753
1.3.132.1.11.2  dhSinglePass-stdDH-sha384kdf-scheme  RFC 5753
1.3.132.1.11.3  dhSinglePass-stdDH-sha512kdf-scheme  RFC 5753
1.3.132.1.14.0  dhSinglePass-cofactorDH-sha224kdf-scheme  RFC 5753
1.3.132.1.14.1  dhSinglePass-cofactorDH-sha256kdf-scheme  RFC 5753
1.3.132.1.14.2  dhSinglePass-cofactorDH-sha384kdf-scheme  RFC 5753
1.3.132.1.14.3  dhSinglePass-cofactorDH-sha512kdf-scheme  RFC 5753
1.2.840.113549.3.2  rc2-cbc  RFC 8018
1.2.840.113549.3.4  rc4  RSA Security
1.2.840.113549.3.7  des-ede3-cbc  RFC 8018
1.2.840.113549.3.8  rc5-cbc  RFC 8018
1.3.14.3.2.7  des-cbc  RFC 8018
2.16.840.1.101.3.4.1.1  aes-128-ecb  NIST CSOR
2.16.840.1.101.3.4.1.2  aes-128-cbc  RFC 3565
2.16.840.1.101.3.4.1.5  id-aes128-wrap  RFC 3565
2.16.840.1.101.3.4.1.6  aes-128-gcm  RFC 5084
2.16.840.1.101.3.4.1.7  aes-128-ccm  RFC 5084
2.16.840.1.101.3.4.1.8  id-aes128-wrap-pad  RFC 5649
2.16.840.1.101.3.4.1.22  aes-192-cbc  RFC 3565
2.16.840.1.101.3.4.1.25  id-aes192-wrap  RFC 3565
2.16.840.1.101.3.4.1.26  aes-192-gcm  RFC 5084
2.16.840.1.101.3.4.1.27  aes-192-ccm  RFC 5084
2.16.840.1.101.3.4.1.28  id-aes192-wrap-pad  RFC 5649
2.16.840.1.101.3.4.1.42  aes-256-cbc  RFC 3565
2.16.840.1.101.3.4.1.45  id-aes256-wrap  RFC 3565
2.16.840.1.101.3.4.1.46  aes-256-gcm  RFC 5084
2.16.840.1.101.3.4.1.47  aes-256-ccm  RFC 5084
2.16.840.1.101.3.4.1.48  id-aes256-wrap-pad  RFC 5649
1.2.840.113549.1.9.16.3.6  id-smime-alg-CMS3DESwrap  RFC 3370
1.2.840.113549.1.9.16.3.7  id-smime-alg-CMSRC2wrap  RFC 3370
1.2.840.113549.1.9.16.3.8  zlib compression  RFC 3274
1.2.840.113549.1.9.16.3.18  id-alg-AEADChaCha20Poly1305  RFC 8103
1.2.392.200011.61.1.1.1.2  camellia-128-cbc  RFC 3657
1.2.392.200011.61.1.1.1.3  camellia-192-cbc  RFC 3657
1.2.392.200011.61.1.1.1.4  camellia-256-cbc  RFC 3657
1.2.392.200011.61.1.1.3.2  id-camellia128-wrap  RFC 3657
1.2.392.200011.61.1.1.3.3  id-camellia192-wrap  RFC 3657
1.2.392.200011.61.1.1.3.4  id-camellia256-wrap  RFC 3657
1.2.410.200004.1.4  seed-cbc  RFC 4010
1.2.410.200046.1.1.2  aria-128-cbc  RFC 5794
1.2.410.200046.1.1.7  aria-192-cbc  RFC 5794
1.2.410.200046.1.1.12  aria-256-cbc  RFC 5794
1.3.6.1.4.1.188.7.1.1.2  idea-cbc  RFC 3058
1.2.840.113533.7.66.10  cast5-cbc  RFC 2984
1.2.156.10197.1.104.2  sm4-cbc  GB/T 32907
1.2.643.2.2.21  GOST 28147-89  RFC 4357
1.2.643.2.2.31.1  id-Gost28147-89-CryptoPro-A-ParamSet  RFC 4357
1.2.643.7.1.1.5.1.1  magma-ctr-acpkm  RFC 9337
1.2.643.7.1.1.5.1.2  magma-ctr-acpkm-omac  RFC 9337
1.2.643.7.1.1.5.2.1  kuznyechik-ctr-acpkm  RFC 9337
1.2.643.7.1.1.5.2.2  kuznyechik-ctr-acpkm-omac  RFC 9337
1.2.840.113549.1.7.1  pkcs7-data  RFC 5652
1.2.840.113549.1.7.2  pkcs7-signedData  RFC 5652
1.2.840.113549.1.7.3  pkcs7-envelopedData  RFC 5652
1.2.840.113549.1.7.4  pkcs7-signedAndEnvelopedData  RFC 2315
1.2.840.113549.1.7.5  pkcs7-digestData  RFC 5652
1.2.840.113549.1.7.6  pkcs7-encryptedData  RFC 5652
1.2.840.113549.1.9.16.1.1  id-smime-ct-receipt  RFC 2634
1.2.840.113549.1.9.16.1.2  id-smime-ct-authData  RFC 5652
1.2.840.113549.1.9.16.1.4  id-smime-ct-TSTInfo  RFC 3161
1.2.840.113549.1.9.16.1.6  id-smime-ct-contentInfo  RFC 5652
1.2.840.113549.1.9.16.1.7  id-smime-ct-DVCSRequestData  RFC 3029
1.2.840.113549.1.9.16.1.8  id-smime-ct-DVCSResponseData  RFC 3029
1.2.840.113549.1.9.16.1.9  id-smime-ct-compressedData  RFC 3274
1.2.840.113549.1.9.16.1.19  id-smime-ct-contentCollection  RFC 4073
1.2.840.113549.1.9.16.1.23  id-smime-ct-authEnvelopedData  RFC 5083
1.2.840.113549.1.9.16.1.24  id-ct-routeOriginAuthz  RFC 9582
1.2.840.113549.1.9.16.1.26  id-ct-rpkiManifest  RFC 9286
1.2.840.113549.1.9.16.1.27  id-ct-asciiTextWithCRLF  RFC 5485
1.2.840.113549.1.9.16.1.28  id-ct-xml  RFC 5485
1.2.840.113549.1.9.16.1.35  id-ct-rpkiGhostbusters  RFC 6493
1.3.6.1.5.5.7.16.2  id-ri-ocsp-response  RFC 5940
1.2.840.113549.1.9.1  emailAddress  RFC 2985
1.2.840.113549.1.9.2  unstructuredName  RFC 2985
1.2.840.113549.1.9.3  contentType  RFC 5652
1.2.840.113549.1.9.4  messageDigest  RFC 5652
1.2.840.113549.1.9.5  signingTime  RFC 5652
1.2.840.113549.1.9.6  countersignature  RFC 5652
1.2.840.113549.1.9.7  challengePassword  RFC 2985
1.2.840.113549.1.9.8  unstructuredAddress  RFC 2985
1.2.840.113549.1.9.9  extendedCertificateAttributes  RFC 2985
1.2.840.113549.1.9.14  Extension Request  RFC 2985
1.2.840.113549.1.9.15  S/MIME Capabilities  RFC 8551
1.2.840.113549.1.9.25.3  randomNonce  RFC 2985
1.2.840.113549.1.9.25.4  sequenceNumber  RFC 2985
1.2.840.113549.1.9.52  id-aa-CMSAlgorithmProtection  RFC 6211
1.3.6.1.5.5.7.9.1  id-pda-dateOfBirth  RFC 3739
1.3.6.1.5.5.7.9.2  id-pda-placeOfBirth  RFC 3739
1.3.6.1.5.5.7.9.3  id-pda-gender  RFC 3739
1.3.6.1.5.5.7.9.4  id-pda-countryOfCitizenship  RFC 3739
1.3.6.1.5.5.7.9.5  id-pda-countryOfResidence  RFC 3739
1.2.840.113583.1.1.8  adbe-revocationInfoArchival  Adobe
1.2.840.113549.1.9.16.2.1  id-smime-aa-receiptRequest  RFC 2634
1.2.840.113549.1.9.16.2.2  id-smime-aa-securityLabel  RFC 2634
1.2.840.113549.1.9.16.2.3  id-smime-aa-mlExpandHistory  RFC 2634
1.2.840.113549.1.9.16.2.4  id-smime-aa-contentHint  RFC 2634
1.2.840.113549.1.9.16.2.5  id-smime-aa-msgSigDigest  RFC 2634
1.2.840.113549.1.9.16.2.7  id-smime-aa-contentIdentifier  RFC 2634
1.2.840.113549.1.9.16.2.9  id-smime-aa-equivalentLabels  RFC 2634
1.2.840.113549.1.9.16.2.10  id-smime-aa-contentReference  RFC 2634
1.2.840.113549.1.9.16.2.11  id-smime-aa-encrypKeyPref  RFC 8551
1.2.840.113549.1.9.16.2.12  id-smime-aa-signingCertificate  RFC 2634
1.2.840.113549.1.9.16.2.14  id-smime-aa-timeStampToken  RFC 3161
1.2.840.113549.1.9.16.2.15  id-smime-aa-ets-sigPolicyId  RFC 5126
1.2.840.113549.1.9.16.2.16  id-smime-aa-ets-commitmentType  RFC 5126
1.2.840.113549.1.9.16.2.17  id-smime-aa-ets-signerLocation  RFC 5126
1.2.840.113549.1.9.16.2.18  id-smime-aa-ets-signerAttr  RFC 5126
1.2.840.113549.1.9.16.2.19  id-smime-aa-ets-otherSigCert  RFC 5126
1.2.840.113549.1.9.16.2.20  id-smime-aa-ets-contentTimestamp  RFC 5126
1.2.840.113549.1.9.16.2.21  id-smime-aa-ets-CertificateRefs  RFC 5126
1.2.840.113549.1.9.16.2.22  id-smime-aa-ets-RevocationRefs  RFC 5126
1.2.840.113549.1.9.16.2.23  id-smime-aa-ets-certValues  RFC 5126
1.2.840.113549.1.9.16.2.24  id-smime-aa-ets-revocationValues  RFC 5126
1.2.840.113549.1.9.16.2.25  id-smime-aa-ets-escTimeStamp  RFC 5126
1.2.840.113549.1.9.16.2.26  id-smime-aa-ets-certCRLTimestamp  RFC 5126
1.2.840.113549.1.9.16.2.27  id-smime-aa-ets-archiveTimeStamp  RFC 5126
1.2.840.113549.1.9.16.2.47  id-smime-aa-signingCertificateV2  RFC 5035
1.2.840.113549.1.9.16.2.48  id-aa-ets-archiveTimestampV2  RFC 5126
1.2.840.113549.1.9.16.6.1  id-smime-cti-ets-proofOfOrigin  RFC 5126
1.2.840.113549.1.9.16.6.2  id-smime-cti-ets-proofOfReceipt  RFC 5126
1.2.840.113549.1.12.10.1.1  keyBag  RFC 7292
1.2.840.113549.1.12.10.1.2  pkcs8ShroudedKeyBag  RFC 7292
1.2.840.113549.1.12.10.1.3  certBag  RFC 7292
1.2.840.113549.1.12.10.1.4  crlBag  RFC 7292
1.2.840.113549.1.12.10.1.5  secretBag  RFC 7292
1.2.840.113549.1.12.10.1.6  safeContentsBag  RFC 7292
1.2.840.113549.1.9.20  friendlyName  RFC 2985
1.2.840.113549.1.9.21  localKeyID  RFC 2985
1.2.840.113549.1.9.22.1  x509Certificate  RFC 7292
1.2.840.113549.1.9.22.2  sdsiCertificate  RFC 7292
1.2.840.113549.1.9.23.1  x509Crl  RFC 7292
1.3.6.1.4.1.311.17.1  Microsoft CSP Name  Microsoft
1.3.6.1.4.1.311.17.2  Microsoft Local Key set  Microsoft
2.16.840.1.113894.746875.1.1  Trusted key usage (Oracle)  Oracle JDK
2.5.4.3  commonName  RFC 4519
2.5.4.4  surname  RFC 4519
2.5.4.5  serialNumber  RFC 4519
2.5.4.6  countryName  RFC 4519
2.5.4.7  localityName  RFC 4519
2.5.4.8  stateOrProvinceName  RFC 4519
2.5.4.9  streetAddress  RFC 4519
2.5.4.10  organizationName  RFC 4519
2.5.4.11  organizationalUnitName  RFC 4519
2.5.4.12  title  RFC 4519
2.5.4.13  description  RFC 4519
2.5.4.15  businessCategory  RFC 4519
2.5.4.16  postalAddress  RFC 4519
2.5.4.17  postalCode  RFC 4519
2.5.4.18  postOfficeBox  RFC 4519
2.5.4.20  telephoneNumber  RFC 4519
2.5.4.41  name  RFC 4519
2.5.4.42  givenName  RFC 4519
2.5.4.43  initials  RFC 4519
2.5.4.44  generationQualifier  RFC 4519
2.5.4.45  x500UniqueIdentifier  RFC 4519
2.5.4.46  dnQualifier  RFC 4519
2.5.4.49  distinguishedName  RFC 4519
2.5.4.65  pseudonym  RFC 3039
2.5.4.72  role  X.520
2.5.4.97  organizationIdentifier  X.520
0.9.2342.19200300.100.1.1  userId  RFC 4519
0.9.2342.19200300.100.1.3  rfc822Mailbox  RFC 4524
0.9.2342.19200300.100.1.25  domainComponent  RFC 4519
1.3.6.1.4.1.311.60.2.1.1  jurisdictionLocalityName  CA/Browser Forum
1.3.6.1.4.1.311.60.2.1.2  jurisdictionStateOrProvinceName  CA/Browser Forum
1.3.6.1.4.1.311.60.2.1.3  jurisdictionCountryName  CA/Browser Forum
2.5.29.9  X509v3 Subject Directory Attributes  RFC 5280
2.5.29.14  X509v3 Subject Key Identifier  RFC 5280
2.5.29.15  X509v3 Key Usage  RFC 5280
2.5.29.16  X509v3 Private Key Usage Period  X.509
2.5.29.17  X509v3 Subject Alternative Name  RFC 5280
2.5.29.18  X509v3 Issuer Alternative Name  RFC 5280
2.5.29.19  X509v3 Basic Constraints  RFC 5280
2.5.29.20  X509v3 CRL Number  RFC 5280
2.5.29.21  X509v3 CRL Reason Code  RFC 5280
2.5.29.23  Hold Instruction Code  X.509
2.5.29.24  Invalidity Date  RFC 5280
2.5.29.27  X509v3 Delta CRL Indicator  RFC 5280
2.5.29.28  X509v3 Issuing Distribution Point  RFC 5280
2.5.29.29  X509v3 Certificate Issuer  RFC 5280
2.5.29.30  X509v3 Name Constraints  RFC 5280
2.5.29.31  X509v3 CRL Distribution Points  RFC 5280
2.5.29.32  X509v3 Certificate Policies  RFC 5280
2.5.29.32.0  X509v3 Any Policy  RFC 5280
2.5.29.33  X509v3 Policy Mappings  RFC 5280
2.5.29.35  X509v3 Authority Key Identifier  RFC 5280
2.5.29.36  X509v3 Policy Constraints  RFC 5280
2.5.29.37  X509v3 Extended Key Usage  RFC 5280
2.5.29.46  X509v3 Freshest CRL  RFC 5280
2.5.29.54  X509v3 Inhibit Any Policy  RFC 5280
2.5.29.55  X509v3 AC Targeting  RFC 5755
2.5.29.56  X509v3 No Revocation Available  RFC 5755
1.3.6.1.5.5.7.1.1  Authority Information Access  RFC 5280
1.3.6.1.5.5.7.1.2  Biometric Info  RFC 3739
1.3.6.1.5.5.7.1.3  qcStatements  RFC 3739
1.3.6.1.5.5.7.1.7  sbgp-ipAddrBlock  RFC 3779
1.3.6.1.5.5.7.1.8  sbgp-autonomousSysNum  RFC 3779
1.3.6.1.5.5.7.1.11  Subject Information Access  RFC 5280
1.3.6.1.5.5.7.1.14  Proxy Certificate Information  RFC 3820
1.3.6.1.5.5.7.1.24  TLS Feature  RFC 7633
1.3.6.1.5.5.7.2.1  Policy Qualifier CPS  RFC 5280
1.3.6.1.5.5.7.2.2  Policy Qualifier User Notice  RFC 5280
1.3.6.1.5.5.7.21.1  Inherit all  RFC 3820
1.3.6.1.5.5.7.11.1  id-qcs-pkixQCSyntax-v1  RFC 3739
1.3.6.1.4.1.11129.2.4.2  CT Precertificate SCTs  RFC 6962
1.3.6.1.4.1.11129.2.4.3  CT Precertificate Poison  RFC 6962
1.3.6.1.4.1.11129.2.4.4  CT Precertificate Signer  RFC 6962
1.3.6.1.4.1.11129.2.4.5  CT Certificate SCTs  RFC 6962
2.16.840.1.113730.1.1  Netscape Cert Type  Netscape
2.16.840.1.113730.1.2  Netscape Base Url  Netscape
2.16.840.1.113730.1.3  Netscape Revocation Url  Netscape
2.16.840.1.113730.1.4  Netscape CA Revocation Url  Netscape
2.16.840.1.113730.1.7  Netscape Renewal Url  Netscape
2.16.840.1.113730.1.8  Netscape CA Policy Url  Netscape
2.16.840.1.113730.1.12  Netscape SSL Server Name  Netscape
2.16.840.1.113730.1.13  Netscape Comment  Netscape
2.5.29.37.0  Any Extended Key Usage  RFC 5280
1.3.6.1.5.5.7.3.1  TLS Web Server Authentication  RFC 5280
1.3.6.1.5.5.7.3.2  TLS Web Client Authentication  RFC 5280
1.3.6.1.5.5.7.3.3  Code Signing  RFC 5280
1.3.6.1.5.5.7.3.4  E-mail Protection  RFC 5280
1.3.6.1.5.5.7.3.5  IPSec End System  RFC 2459
1.3.6.1.5.5.7.3.6  IPSec Tunnel  RFC 2459
1.3.6.1.5.5.7.3.7  IPSec User  RFC 2459
1.3.6.1.5.5.7.3.8  Time Stamping  RFC 5280
1.3.6.1.5.5.7.3.9  OCSP Signing  RFC 5280
1.3.6.1.5.5.7.3.10  dvcs  RFC 3029
1.3.6.1.5.5.7.3.17  ipsec Internet Key Exchange  RFC 4945
1.3.6.1.5.5.7.3.21  SSH Client  RFC 6187
1.3.6.1.5.5.7.3.22  SSH Server  RFC 6187
1.3.6.1.5.5.7.3.27  CMC Certificate Authority  RFC 6402
1.3.6.1.5.5.7.3.28  CMC Registration Authority  RFC 6402
1.3.6.1.5.5.7.3.30  BGPsec Router  RFC 8209
1.3.6.1.5.2.3.4  PKINIT Client Auth  RFC 4556
1.3.6.1.5.2.3.5  Signing KDC Response  RFC 4556
1.3.6.1.4.1.311.10.3.1  Microsoft Trust List Signing  Microsoft
1.3.6.1.4.1.311.10.3.3  Microsoft Server Gated Crypto  Microsoft
1.3.6.1.4.1.311.10.3.4  Microsoft Encrypted File System  Microsoft
1.3.6.1.4.1.311.20.2.2  Microsoft Smartcard Login  Microsoft
2.16.840.1.113730.4.1  Netscape Server Gated Crypto  Netscape
1.3.6.1.5.5.7.48.1  OCSP  RFC 5280
1.3.6.1.5.5.7.48.1.1  Basic OCSP Response  RFC 6960
1.3.6.1.5.5.7.48.1.2  OCSP Nonce  RFC 6960
1.3.6.1.5.5.7.48.1.3  OCSP CRL ID  RFC 6960
1.3.6.1.5.5.7.48.1.4  Acceptable OCSP Responses  RFC 6960
1.3.6.1.5.5.7.48.1.5  OCSP No Check  RFC 6960
1.3.6.1.5.5.7.48.1.6  OCSP Archive Cutoff  RFC 6960
1.3.6.1.5.5.7.48.1.7  OCSP Service Locator  RFC 6960
1.3.6.1.5.5.7.48.2  CA Issuers  RFC 5280
1.3.6.1.5.5.7.48.3  AD Time Stamping  RFC 3161
1.3.6.1.5.5.7.48.4  ad dvcs  RFC 3029
1.3.6.1.5.5.7.48.5  CA Repository  RFC 5280
1.3.6.1.5.5.7.48.10  RPKI Manifest  RFC 6487
1.3.6.1.5.5.7.48.11  Signed Object  RFC 6487
1.3.6.1.5.5.7.48.13  RPKI Notify  RFC 8182
1.2.840.10040.2.1  Hold Instruction None  RFC 5280
1.2.840.10040.2.2  Hold Instruction Call Issuer  RFC 5280
1.2.840.10040.2.3  Hold Instruction Reject  RFC 5280
1.3.6.1.4.1.311.2.1.4  SpcIndirectDataContent  Authenticode
1.3.6.1.4.1.311.2.1.10  SpcAgencyInfo  Authenticode
1.3.6.1.4.1.311.2.1.11  SpcStatementType  Authenticode
1.3.6.1.4.1.311.2.1.12  SpcSpOpusInfo  Authenticode
1.3.6.1.4.1.311.2.1.14  Microsoft Extension Request  Microsoft
1.3.6.1.4.1.311.2.1.15  SpcPeImageData  Authenticode
1.3.6.1.4.1.311.2.1.21  Microsoft Individual Code Signing  Authenticode
1.3.6.1.4.1.311.2.1.22  Microsoft Commercial Code Signing  Authenticode
1.3.6.1.4.1.311.2.1.25  SpcCabData  Authenticode
1.3.6.1.4.1.311.2.1.30  SpcSipInfo  Authenticode
1.3.6.1.4.1.311.2.3.1  SpcPageHashesV1  Authenticode
1.3.6.1.4.1.311.2.3.2  SpcPageHashesV2  Authenticode
1.3.6.1.4.1.311.2.4.1  nestedSignature  Microsoft
1.3.6.1.4.1.311.3.3.1  timestampToken  Microsoft
1.3.6.1.4.1.311.10.1  certTrustList  Microsoft
1.3.6.1.4.1.311.10.2  nextUpdateLocation  Microsoft
1.3.6.1.4.1.311.10.3.9  rootListSigner  Microsoft
1.3.6.1.4.1.311.12.1.1  catalogList  Microsoft
1.3.6.1.4.1.311.12.1.2  catalogListMember  Microsoft
1.3.6.1.4.1.311.20.2  certificateTemplateName  Microsoft
1.3.6.1.4.1.311.20.2.3  Microsoft User Principal Name  Microsoft
1.3.6.1.4.1.311.21.1  cAVersion  Microsoft
1.3.6.1.4.1.311.21.7  Microsoft certificate template  Microsoft
1.3.6.1.4.1.311.21.10  Microsoft Application Policies Extension  Microsoft
1.3.6.1.4.1.311.25.2  Microsoft NTDS CA Extension  Microsoft
"""
