import java.io.ByteArrayOutputStream;
import java.io.FileReader;
import java.io.OutputStream;
import java.nio.file.Files;
import java.nio.file.Path;
import java.security.KeyStore;
import java.security.PrivateKey;
import java.security.cert.Certificate;
import java.security.cert.X509Certificate;
import java.util.List;
import org.bouncycastle.asn1.pkcs.PrivateKeyInfo;
import org.bouncycastle.cert.X509CertificateHolder;
import org.bouncycastle.cert.jcajce.JcaCertStore;
import org.bouncycastle.cert.jcajce.JcaX509CertificateConverter;
import org.bouncycastle.cms.CMSAlgorithm;
import org.bouncycastle.cms.CMSEnvelopedDataStreamGenerator;
import org.bouncycastle.cms.CMSSignedDataStreamGenerator;
import org.bouncycastle.cms.jcajce.JcaSimpleSignerInfoGeneratorBuilder;
import org.bouncycastle.cms.jcajce.JceCMSContentEncryptorBuilder;
import org.bouncycastle.cms.jcajce.JceKeyTransRecipientInfoGenerator;
import org.bouncycastle.jce.provider.BouncyCastleProvider;
import org.bouncycastle.openssl.PEMParser;
import org.bouncycastle.openssl.jcajce.JcaPEMKeyConverter;

/** Has Bouncy Castle sign and encrypt the file `text` by rsa.pem and rsa.key, and keep these in a store, each in BER. */
class BouncyCastle {
    static final BouncyCastleProvider PROVIDER = new BouncyCastleProvider();

    static Object pem(String file) throws Exception {
        try (PEMParser parser = new PEMParser(new FileReader(file))) {
            return parser.readObject();
        }
    }

    static void put(String file, OutputStream through, ByteArrayOutputStream made) throws Exception {
        through.write(Files.readAllBytes(Path.of("text")));
        through.close();
        Files.write(Path.of(file), made.toByteArray());
    }

    static void sign(PrivateKey key, X509Certificate certificate) throws Exception {
        var signed = new CMSSignedDataStreamGenerator();
        var signer = new JcaSimpleSignerInfoGeneratorBuilder().setProvider(PROVIDER);
        signed.addSignerInfoGenerator(signer.build("SHA256withRSA", key, certificate));
        signed.addCertificates(new JcaCertStore(List.of(certificate)));
        var made = new ByteArrayOutputStream();
        put("bc.signed", signed.open(made, true), made);
    }

    static void encrypt(X509Certificate certificate) throws Exception {
        var enveloped = new CMSEnvelopedDataStreamGenerator();
        enveloped.addRecipientInfoGenerator(new JceKeyTransRecipientInfoGenerator(certificate).setProvider(PROVIDER));
        var how = new JceCMSContentEncryptorBuilder(CMSAlgorithm.AES256_CBC).setProvider(PROVIDER).build();
        var made = new ByteArrayOutputStream();
        put("bc.enveloped", enveloped.open(made, how), made);
    }

    static void keep(PrivateKey key, X509Certificate certificate) throws Exception {
        var store = KeyStore.getInstance("PKCS12", PROVIDER);
        store.load(null, null);
        store.setKeyEntry("bc", key, null, new Certificate[] {certificate});
        try (OutputStream out = Files.newOutputStream(Path.of("bc.p12"))) {
            store.store(out, "password".toCharArray());
        }
    }

    public static void main(String[] words) throws Exception {
        PrivateKey key = new JcaPEMKeyConverter().setProvider(PROVIDER).getPrivateKey((PrivateKeyInfo) pem("rsa.key"));
        var certificate = new JcaX509CertificateConverter().getCertificate((X509CertificateHolder) pem("rsa.pem"));
        sign(key, certificate);
        encrypt(certificate);
        keep(key, certificate);
    }
}
