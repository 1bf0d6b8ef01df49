package svid;

import io.netty.buffer.ByteBuf;
import io.netty.channel.ChannelConfig;
import io.netty.channel.ChannelFuture;
import io.netty.channel.ChannelOption;
import io.netty.channel.DefaultChannelConfig;
import io.netty.channel.FileRegion;
import io.netty.channel.nio.AbstractNioByteChannel;
import java.io.IOException;
import java.net.SocketAddress;
import java.net.StandardProtocolFamily;
import java.nio.channels.SelectionKey;
import java.nio.channels.SocketChannel;

/** A client's Unix socket, by Java's own calls, as a channel of netty, whose own ones need a native library. */
final class UnixChannel extends AbstractNioByteChannel {
    private final ChannelConfig config = new DefaultChannelConfig(this) {
        @Override
        public <T> boolean setOption(ChannelOption<T> option, T value) {
            // (gRPC sets SO_KEEPALIVE on each socket)
            return super.setOption(option, value) || option == ChannelOption.SO_KEEPALIVE;
        }
    };

    UnixChannel() throws IOException {
        super(null, SocketChannel.open(StandardProtocolFamily.UNIX));
    }

    private SocketChannel socket() {
        return (SocketChannel) javaChannel();
    }

    @Override
    public ChannelConfig config() {
        return config;
    }

    @Override
    public boolean isActive() {
        return socket().isConnected();
    }

    @Override
    protected SocketAddress localAddress0() {
        return null;
    }

    @Override
    protected SocketAddress remoteAddress0() {
        return null;
    }

    @Override
    protected boolean doConnect(SocketAddress remote, SocketAddress local) throws IOException {
        try {
            boolean isDone = socket().connect(remote);
            if (!isDone) {
                selectionKey().interestOps(SelectionKey.OP_CONNECT);
            }
            return isDone;
        } catch (Throwable why) {
            doClose();
            throw why;
        }
    }

    @Override
    protected void doFinishConnect() throws IOException {
        socket().finishConnect();
    }

    @Override
    protected void doBind(SocketAddress local) {
        throw new UnsupportedOperationException("a client has no address");
    }

    @Override
    protected void doDisconnect() throws IOException {
        doClose();
    }

    @Override
    protected void doClose() throws IOException {
        socket().close();
    }

    @Override
    protected ChannelFuture shutdownInput() {
        return close();
    }

    @Override
    protected int doReadBytes(ByteBuf to) throws IOException {
        int most = to.writableBytes();
        unsafe().recvBufAllocHandle().attemptedBytesRead(most);
        return to.writeBytes(socket(), most);
    }

    @Override
    protected int doWriteBytes(ByteBuf from) throws IOException {
        return from.readBytes(socket(), from.readableBytes());
    }

    @Override
    protected long doWriteFileRegion(FileRegion region) throws IOException {
        return region.transferTo(socket(), region.transferred());
    }
}
