package svid;

import com.google.protobuf.CodedInputStream;
import io.grpc.CallOptions;
import io.grpc.ClientInterceptors;
import io.grpc.ManagedChannel;
import io.grpc.Metadata;
import io.grpc.MethodDescriptor;
import io.grpc.Status;
import io.grpc.StatusRuntimeException;
import io.grpc.netty.NettyChannelBuilder;
import io.grpc.stub.ClientCalls;
import io.grpc.stub.MetadataUtils;
import io.netty.channel.Channel;
import io.netty.channel.EventLoopGroup;
import io.netty.channel.nio.NioEventLoopGroup;
import io.netty.channel.socket.nio.NioSocketChannel;
import io.netty.util.NetUtil;
import io.netty.util.concurrent.DefaultThreadFactory;
import io.netty.util.concurrent.Future;
import java.io.ByteArrayInputStream;
import java.io.Closeable;
import java.io.IOException;
import java.io.InputStream;
import java.io.UncheckedIOException;
import java.net.InetAddress;
import java.net.InetSocketAddress;
import java.net.SocketAddress;
import java.net.URI;
import java.net.UnixDomainSocketAddress;
import java.net.UnknownHostException;
import java.util.Iterator;
import java.util.List;
import java.util.Map;
import java.util.TreeMap;
import java.util.concurrent.TimeUnit;
import java.util.regex.Matcher;
import java.util.regex.Pattern;

/**
 * A stream of FetchJWTBundles of a SPIFFE Workload API (section 6.2.2), as SPIRE's agent serves it. HTTP/2 and gRPC are those of netty and
 * grpc-java.
 */
final class Workload implements Closeable {
    /** How many bytes a message may have: bundles of some hundred trust domains. */
    private static final int MOST = 16 << 20;
    /**
     * After so many milliseconds of silence the server is asked whether it is still there. A server hangs up on a client that asks more
     * often than each five minutes.
     */
    static final long IDLE = 360_000;
    private static final Pattern PATH = Pattern.compile("unix:(?://)?(/[^?#]*)");
    /** The tags of the fields of a JWTBundlesResponse: {@code map<string, bytes> bundles = 1}. */
    private static final int BUNDLES = 1 << 3 | 2, KEY = 1 << 3 | 2, VALUE = 2 << 3 | 2;

    private static final Metadata HEADERS = new Metadata();
    private static final MethodDescriptor<Map<String, byte[]>, Map<String, byte[]>> METHOD =
            MethodDescriptor.<Map<String, byte[]>, Map<String, byte[]>>newBuilder()
                    .setType(MethodDescriptor.MethodType.SERVER_STREAMING)
                    .setFullMethodName("SpiffeWorkloadAPI/FetchJWTBundles")
                    .setRequestMarshaller(new Form())
                    .setResponseMarshaller(new Form())
                    .build();

    /** Classes of each package that this needs: where one is not there, a use of this class throws NoClassDefFoundError at once. */
    private static final List<Class<?>> NEEDS = List.of(NettyChannelBuilder.class, ClientCalls.class, CodedInputStream.class);

    static {
        HEADERS.put(
                Metadata.Key.of("workload.spiffe.io", Metadata.ASCII_STRING_MARSHALLER), "true"); // (SPIFFE Workload Endpoint, section 3)
    }

    private final int limit;
    private final EventLoopGroup threads = new NioEventLoopGroup(1, new DefaultThreadFactory(Follower.THREAD, true));
    private final ManagedChannel channel;
    private Iterator<Map<String, byte[]>> messages;
    private Future<?> late;
    private volatile boolean isLate;

    /** The server refuses the call itself, so it is not made again. */
    static final class ForGood extends IOException {
        private static final long serialVersionUID = 1;

        ForGood(String message, Throwable why) {
            super(message, why);
        }
    }

    /**
     * Connects to nothing before {@link #next}.
     *
     * @param limit how many milliseconds the first message may take, and the answer of a silent server
     * @param idle after how many milliseconds of silence the server is asked whether it is still there
     */
    Workload(String address, int limit, long idle) {
        this.limit = limit;
        try {
            SocketAddress at = addressOf(address);
            NettyChannelBuilder builder = NettyChannelBuilder.forAddress(at);
            builder = at instanceof UnixDomainSocketAddress ? builder.channelFactory(Workload::unix)
                                                            : builder.channelType(NioSocketChannel.class);
            channel = builder.eventLoopGroup(threads)
                              .directExecutor()
                              .usePlaintext()
                              .overrideAuthority("localhost")
                              .proxyDetector(none -> null)
                              .maxInboundMessageSize(MOST)
                              .keepAliveTime(idle, TimeUnit.MILLISECONDS)
                              .keepAliveTimeout(limit, TimeUnit.MILLISECONDS)
                              .build();
        } catch (Throwable why) {
            endThreads();
            throw why;
        }
    }

    private static Channel unix() {
        try {
            return new UnixChannel();
        } catch (IOException why) {
            throw new UncheckedIOException(why);
        }
    }

    /**
     * Reads unix:PATH, where PATH begins with a slash, or tcp://IP:PORT (SPIFFE Workload Endpoint, section 4).
     *
     * @throws IllegalArgumentException of another text
     */
    static SocketAddress addressOf(String text) {
        Matcher path = PATH.matcher(text);
        if (path.matches()) {
            return UnixDomainSocketAddress.of(path.group(1));
        }
        try {
            URI address = URI.create(text);
            byte[] host = NetUtil.createByteArrayFromIpAddressString(address.getHost() == null ? "" : address.getHost());
            String whole = "tcp://" + address.getHost() + ":" + address.getPort();
            if (text.equals(whole) && host != null && address.getPort() > 0) {
                return new InetSocketAddress(InetAddress.getByAddress(host), address.getPort());
            }
        } catch (IllegalArgumentException | UnknownHostException none) {
            // (it is said below)
        }
        throw new IllegalArgumentException('"' + text + "\" is not like unix:///run/spire/agent.sock or tcp://127.0.0.1:8081");
    }

    /**
     * Waits for the next message: the bundles of all trust domains, by what the server calls these.
     *
     * @throws ForGood where the server does not want this call again
     * @throws IOException where the stream has ended, or nothing came in time
     */
    Map<String, byte[]> next() throws IOException {
        try {
            if (messages == null) {
                late = threads.schedule(this::isSilent, limit, TimeUnit.MILLISECONDS);
                messages = ClientCalls.blockingServerStreamingCall(
                        ClientInterceptors.intercept(channel, MetadataUtils.newAttachHeadersInterceptor(HEADERS)), METHOD,
                        CallOptions.DEFAULT, Map.of());
            }
            if (messages.hasNext()) {
                late.cancel(false);
                return messages.next();
            }
        } catch (StatusRuntimeException why) {
            throw isLate ? new IOException("it sent no bundles within " + limit + " milliseconds", why) : fault(why);
        }
        throw new IOException("it has ended the stream");
    }

    private static IOException fault(StatusRuntimeException why) {
        String said = why.getMessage();
        switch (why.getStatus().getCode()) {
            case INVALID_ARGUMENT:
                return new ForGood("it refuses the call itself: " + said, why);
            case PERMISSION_DENIED:
                return new IOException("it has no identity for this process: register it as a workload: " + said, why);
            case UNAVAILABLE:
            case CANCELLED: // (by this side: of a message that can't be read)
                return new IOException(why.getCause() == null ? said : why.getCause().getMessage(), why);
            default:
                return new IOException(said, why);
        }
    }

    private void isSilent() {
        isLate = true;
        channel.shutdownNow();
    }

    /** Ends the stream, from whatever thread. Waits for nothing. */
    @Override
    public void close() {
        channel.shutdownNow();
        endThreads();
    }

    private void endThreads() {
        threads.shutdownGracefully(0, limit, TimeUnit.MILLISECONDS);
    }

    /** Writes an empty message, and reads a JWTBundlesResponse. */
    private static final class Form implements MethodDescriptor.Marshaller<Map<String, byte[]>> {
        @Override
        public InputStream stream(Map<String, byte[]> none) {
            return new ByteArrayInputStream(new byte[0]);
        }

        @Override
        public Map<String, byte[]> parse(InputStream message) {
            try {
                return read(message);
            } catch (IOException why) {
                throw Status.INTERNAL.withDescription("it sends what is no JWTBundlesResponse").withCause(why).asRuntimeException();
            }
        }
    }

    /** Reads a JWTBundlesResponse. Throws IOException where the bytes are none. */
    static Map<String, byte[]> read(InputStream message) throws IOException {
        Map<String, byte[]> bundles = new TreeMap<>();
        CodedInputStream in = CodedInputStream.newInstance(message);
        for (int tag = in.readTag(); tag != 0; tag = in.readTag()) {
            if (tag == BUNDLES) {
                readEntry(CodedInputStream.newInstance(in.readByteArray()), bundles);
            } else {
                skip(in, tag);
            }
        }
        return bundles;
    }

    private static void readEntry(CodedInputStream in, Map<String, byte[]> bundles) throws IOException {
        String name = "";
        byte[] bundle = {};
        for (int tag = in.readTag(); tag != 0; tag = in.readTag()) {
            if (tag == KEY) {
                name = in.readStringRequireUtf8();
            } else if (tag == VALUE) {
                bundle = in.readByteArray();
            } else {
                skip(in, tag);
            }
        }
        bundles.put(name, bundle);
    }

    /** Passes over a field that nobody knows. */
    private static void skip(CodedInputStream in, int tag) throws IOException {
        if (!in.skipField(tag)) {
            throw new IOException("a group ends that has not begun");
        }
    }
}
