package svid;

import java.nio.ByteBuffer;
import java.security.NoSuchAlgorithmException;
import java.security.Provider;
import java.security.Security;
import java.security.Signature;
import java.security.SignatureException;
import java.security.SignatureSpi;
import java.util.Map;
import java.util.concurrent.ConcurrentHashMap;

/** A provider that has each signature of ES256 verified once by that of Java, and remembers its answer: a verification takes long. */
final class Remembering extends Provider {
    private static final long serialVersionUID = 1;
    private static final String NAME = "SHA256withECDSAinP1363Format";

    private final transient Map<ByteBuffer, Boolean> answers = new ConcurrentHashMap<>();

    Remembering() {
        super("Remembering", "1", "for a test");
        Provider other = Security.getProvider("SunEC");
        putService(new Service(this, "Signature", NAME, SignatureSpi.class.getName(), null, null) {
            @Override
            public Object newInstance(Object unused) throws NoSuchAlgorithmException {
                return new ThreadsTest.Verifying(Signature.getInstance(NAME, other), () -> null) {
                    @Override
                    protected boolean engineVerify(byte[] signature) throws SignatureException {
                        Boolean answer = answers.get(ByteBuffer.wrap(signature));
                        if (answer == null) {
                            answer = super.engineVerify(signature);
                            answers.put(ByteBuffer.wrap(signature.clone()), answer);
                        }
                        return answer;
                    }
                };
            }
        });
    }
}
