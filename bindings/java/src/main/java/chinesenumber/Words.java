package chinesenumber;

/** Numbers of several bytes in an array, the least byte first. */
final class Words {
    private Words() {}

    static short get16(byte[] b, int at) {
        return (short) (b[at] & 0xff | b[at + 1] << 8);
    }

    static int get32(byte[] b, int at) {
        return b[at] & 0xff | (b[at + 1] & 0xff) << 8 | (b[at + 2] & 0xff) << 16 | b[at + 3] << 24;
    }

    static long get64(byte[] b, int at) {
        return get32(b, at) & 0xffffffffL | (long) get32(b, at + 4) << 32;
    }

    static void put16(byte[] b, int at, short word) {
        b[at] = (byte) word;
        b[at + 1] = (byte) (word >> 8);
    }

    static void put32(byte[] b, int at, int word) {
        b[at] = (byte) word;
        b[at + 1] = (byte) (word >> 8);
        b[at + 2] = (byte) (word >> 16);
        b[at + 3] = (byte) (word >> 24);
    }

    static void put64(byte[] b, int at, long word) {
        put32(b, at, (int) word);
        put32(b, at + 4, (int) (word >> 32));
    }
}
