/* Makes the files of this folder with BouncyCastle: java -cp bcprov.jar:bcpkix.jar:bcutil.jar Make.java FOLDER. */
import java.math.BigInteger;
import java.nio.file.*;
import java.security.*;
import java.security.spec.ECGenParameterSpec;
import java.util.*;
import org.bouncycastle.asn1.nist.NISTObjectIdentifiers;
import org.bouncycastle.asn1.x500.X500Name;
import org.bouncycastle.asn1.x509.*;
import org.bouncycastle.cert.*;
import org.bouncycastle.cert.jcajce.*;
import org.bouncycastle.cms.*;
import org.bouncycastle.cms.jcajce.*;
import org.bouncycastle.operator.*;
import org.bouncycastle.operator.jcajce.*;
import org.bouncycastle.pqc.crypto.lms.*;
import org.bouncycastle.pqc.jcajce.spec.*;

class Make {
    static final Date BEGIN = new Date(1767225600000L), END = new Date(4102444800000L);    // 2026-01-01, 2100-01-01
    static Path folder;

    static void write(String name, byte[] content) throws Exception { Files.write(folder.resolve(name), content); }

    static void authority(String name, java.security.spec.AlgorithmParameterSpec set) throws Exception {
        KeyPairGenerator maker = KeyPairGenerator.getInstance("LMS", "BCPQC");
        maker.initialize(set, new SecureRandom());
        KeyPair pair = maker.generateKeyPair();
        ContentSigner signer = new JcaContentSignerBuilder("LMS").setProvider("BCPQC").build(pair.getPrivate());
        X500Name subject = new X500Name("CN=" + name);
        JcaX509ExtensionUtils ids = new JcaX509ExtensionUtils();
        X509CertificateHolder root = new JcaX509v3CertificateBuilder(subject, BigInteger.valueOf(1), BEGIN, END, subject, pair.getPublic())
            .addExtension(Extension.basicConstraints, true, new BasicConstraints(true))
            .addExtension(Extension.keyUsage, true, new KeyUsage(KeyUsage.digitalSignature | KeyUsage.keyCertSign | KeyUsage.cRLSign))
            .addExtension(Extension.subjectKeyIdentifier, false, ids.createSubjectKeyIdentifier(pair.getPublic()))
            .build(signer);
        write(name + ".root.der", root.getEncoded());
        KeyPairGenerator other = KeyPairGenerator.getInstance("EC");
        other.initialize(new ECGenParameterSpec("secp256r1"));
        PublicKey device = other.generateKeyPair().getPublic();
        write(name + ".device.der", new JcaX509v3CertificateBuilder(subject, BigInteger.valueOf(7), BEGIN, END, new X500Name("CN=device"), device)
            .addExtension(Extension.basicConstraints, true, new BasicConstraints(false))
            .addExtension(Extension.keyUsage, true, new KeyUsage(KeyUsage.digitalSignature))
            .addExtension(Extension.authorityKeyIdentifier, false, ids.createAuthorityKeyIdentifier(pair.getPublic()))
            .build(signer).getEncoded());
        write(name + ".crl.der", new X509v2CRLBuilder(subject, BEGIN).setNextUpdate(END)
            .addCRLEntry(BigInteger.valueOf(7), BEGIN, CRLReason.keyCompromise)
            .addExtension(Extension.authorityKeyIdentifier, false, ids.createAuthorityKeyIdentifier(pair.getPublic()))
            .addExtension(Extension.cRLNumber, false, new CRLNumber(BigInteger.ONE))
            .build(signer).getEncoded());
        for (boolean inside : new boolean[]{true, false}) {
            CMSSignedDataGenerator it = new CMSSignedDataGenerator();
            it.addSignerInfoGenerator(new JcaSignerInfoGeneratorBuilder(new JcaDigestCalculatorProviderBuilder().build())
                .setContentDigest(new AlgorithmIdentifier(NISTObjectIdentifiers.id_sha256)).build(signer, root));
            CMSSignedData signed = it.generate(new CMSProcessableByteArray("a firmware image\n".getBytes()), inside);
            write(name + (inside ? ".cms" : ".detached.cms"), signed.toASN1Structure().getEncoded("DER"));
        }
    }

    public static void main(String[] words) throws Exception {
        Security.addProvider(new org.bouncycastle.jce.provider.BouncyCastleProvider());
        Security.addProvider(new org.bouncycastle.pqc.jcajce.provider.BouncyCastlePQCProvider());
        folder = Path.of(words[0]);
        LMSKeyGenParameterSpec w4 = new LMSKeyGenParameterSpec(LMSigParameters.lms_sha256_n32_h5, LMOtsParameters.sha256_n32_w4);
        LMSKeyGenParameterSpec w8 = new LMSKeyGenParameterSpec(LMSigParameters.lms_sha256_n24_h5, LMOtsParameters.sha256_n24_w8);
        authority("10-8", w8);
        authority("two", new LMSHSSKeyGenParameterSpec(w4, w4));
    }
}
