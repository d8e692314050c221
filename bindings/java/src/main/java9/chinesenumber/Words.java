package chinesenumber;

import java.lang.invoke.MethodHandles;
import java.lang.invoke.VarHandle;
import java.nio.ByteOrder;

/**
 * Numbers of several bytes in an array, the least byte first; for Java from 9 on, where this is
 * faster.
 */
final class Words {
    private static final VarHandle SHORTS =
        MethodHandles.byteArrayViewVarHandle(short[].class, ByteOrder.LITTLE_ENDIAN);
    private static final VarHandle INTS =
        MethodHandles.byteArrayViewVarHandle(int[].class, ByteOrder.LITTLE_ENDIAN);
    private static final VarHandle LONGS =
        MethodHandles.byteArrayViewVarHandle(long[].class, ByteOrder.LITTLE_ENDIAN);

    private Words() {}

    static short get16(byte[] b, int at) {
        return (short) SHORTS.get(b, at);
    }

    static int get32(byte[] b, int at) {
        return (int) INTS.get(b, at);
    }

    static long get64(byte[] b, int at) {
        return (long) LONGS.get(b, at);
    }

    static void put16(byte[] b, int at, short word) {
        SHORTS.set(b, at, word);
    }

    static void put32(byte[] b, int at, int word) {
        INTS.set(b, at, word);
    }

    static void put64(byte[] b, int at, long word) {
        LONGS.set(b, at, word);
    }
}
