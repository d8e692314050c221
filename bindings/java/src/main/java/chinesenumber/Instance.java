package chinesenumber;

import java.math.BigInteger;
import java.nio.ByteBuffer;
import java.nio.charset.StandardCharsets;
import java.util.Arrays;
import java.util.Objects;
import java.util.concurrent.atomic.AtomicReferenceArray;

/**
 * An instance of the module, which one call uses at a time: the module's memory with the call's
 * arguments and results.
 *
 * <p>A pool keeps up to 16 of them for later calls, at slots that depend on the thread's number.
 * None belongs to a thread, so no thread keeps this class loaded. A call that ends by an exception
 * other than a refusal does not return its instance to the pool.
 */
final class Instance extends State {
    // The addresses of arguments and results: a quantity (56 bytes, which are enough for any other
    // single result too), a length (8), the second quantity of a range (56 of 64), spans (24 each)
    // or phrases (56 each; 224 bytes of them hold what may come next), and the text.
    static final int RESULT = (HEAP + 15) / 16 * 16;
    static final int LENGTH = RESULT + 56;
    static final int SECOND_RESULT = LENGTH + 8;
    static final int SPANS = SECOND_RESULT + 64;
    static final int SPAN_BYTES = 24;
    static final int PHRASE_BYTES = 56;
    static final int MOST_SPANS = 64;
    static final int TEXT = SPANS + PHRASE_BYTES * MOST_SPANS;

    private static final int TEXT_INDEX = TEXT - BASE;
    private static final int LEAST_TEXT_BYTES = 1024;
    private static final int MOST_POOLED_BYTES = 1 << 17;
    private static final int SLOTS = 16;
    /** A cache line of a processor has at most this many references, so no two slots share one. */
    private static final int SLOT_DISTANCE = 16;
    private static final AtomicReferenceArray<Instance> POOL =
        new AtomicReferenceArray<>(SLOTS * SLOT_DISTANCE);
    private static final char REPLACEMENT = '\ufffd';

    /** Some units of a text in UTF-16, while it is written or read. */
    private final char[] units = new char[512];

    /** How many bytes the text has. */
    int textBytes;

    private Instance() {
        super(TEXT_INDEX + LEAST_TEXT_BYTES);
    }

    @SuppressWarnings("deprecation") // since Java 19, which has threadId() for it
    private static int slot() {
        return ((int) Thread.currentThread().getId() & SLOTS - 1) * SLOT_DISTANCE;
    }

    static Instance acquire() {
        Instance pooled = POOL.getAndSet(slot(), null);
        return pooled == null ? new Instance() : pooled;
    }

    /** An instance with a text. */
    static Instance with(CharSequence text) {
        return with(text, 0);
    }

    /** An instance with a text and a buffer of so many bytes after it. */
    static Instance with(CharSequence text, long bufferBytes) {
        Objects.requireNonNull(text, "text");
        Instance instance = acquire();
        instance.reserve(3L * text.length() + bufferBytes);
        instance.textBytes = instance.write(text, TEXT_INDEX) - TEXT_INDEX;
        return instance;
    }

    void release() {
        if (bytes.length <= MOST_POOLED_BYTES) {
            POOL.lazySet(slot(), this);
        }
    }

    /** The address of the buffer after the text. */
    int buffer() {
        return TEXT + textBytes;
    }

    /** Makes room for so many bytes from the text on. */
    void reserve(long bytesFromText) {
        long size = TEXT_INDEX + bytesFromText;
        if (size > Integer.MAX_VALUE - 16) {
            throw new IllegalArgumentException("the text is too long");
        }
        if (size > bytes.length) {
            bytes = Arrays.copyOf(bytes, (int) size);
        }
    }

    /**
     * Writes a text in UTF-8 at an index of the memory, an unpaired surrogate as U+FFFD. Returns
     * the index after it.
     */
    int write(CharSequence text, int index) {
        String whole = text.toString();
        int length = whole.length();
        int at = index;
        for (int from = 0; from < length; from += units.length) {
            int end = Math.min(from + units.length, length);
            whole.getChars(from, end, units, 0);
            at = write(whole, from, end, at);
        }
        return at;
    }

    /** Writes a part of a text, which is in {@code units} too, since these are faster. */
    private int write(String whole, int from, int end, int index) {
        int at = index;
        for (int unit = from; unit < end; unit++) {
            char value = units[unit - from];
            at = value < 0x800 || Character.isSurrogate(value)
                ? writeOther(whole, unit, at) : writeThree(value, at);
        }
        return at;
    }

    private int writeThree(char value, int at) {
        bytes[at] = (byte) (0xe0 | value >> 12);
        bytes[at + 1] = (byte) (0x80 | value >> 6 & 0x3f);
        bytes[at + 2] = (byte) (0x80 | value & 0x3f);
        return at + 3;
    }

    /** Writes a character of one, two or four bytes; one of four at its second surrogate. */
    private int writeOther(String whole, int unit, int at) {
        char value = whole.charAt(unit);
        if (value < 0x80) {
            bytes[at] = (byte) value;
            return at + 1;
        }
        if (value < 0x800) {
            bytes[at] = (byte) (0xc0 | value >> 6);
            bytes[at + 1] = (byte) (0x80 | value & 0x3f);
            return at + 2;
        }
        if (isPair(whole, unit)) {
            return at;
        }
        return isPair(whole, unit - 1)
            ? writePair(whole.codePointAt(unit - 1), at) : writeThree(REPLACEMENT, at);
    }

    private static boolean isPair(String text, int first) {
        return first >= 0 && first + 1 < text.length()
            && Character.isSurrogatePair(text.charAt(first), text.charAt(first + 1));
    }

    private int writePair(int codePoint, int at) {
        bytes[at] = (byte) (0xf0 | codePoint >> 18);
        bytes[at + 1] = (byte) (0x80 | codePoint >> 12 & 0x3f);
        bytes[at + 2] = (byte) (0x80 | codePoint >> 6 & 0x3f);
        bytes[at + 3] = (byte) (0x80 | codePoint & 0x3f);
        return at + 4;
    }

    /** The text between two indices; most texts have only characters of three bytes. */
    String text(int index, int end) {
        int count = 0;
        for (int at = index; at < end; at += 3) {
            if ((bytes[at] & 0xf0) != 0xe0 || count == units.length) {
                return new String(bytes, index, end - index, StandardCharsets.UTF_8);
            }
            units[count++] =
                (char) (bytes[at] << 12 | (bytes[at + 1] & 0x3f) << 6 | bytes[at + 2] & 0x3f);
        }
        return new String(units, 0, count);
    }

    // What a call has written.

    int getInt(int address) {
        return Words.get32(bytes, address - BASE);
    }

    long getLong(int address) {
        return Words.get64(bytes, address - BASE);
    }

    /** An integer of 128 bits. */
    BigInteger getInteger(int address, boolean isSigned) {
        long low = getLong(address);
        long high = getLong(address + 8);
        if (high == 0 && low >= 0 || isSigned && high == -1 && low < 0) {
            return BigInteger.valueOf(low);
        }
        byte[] bigEndian = ByteBuffer.allocate(17).put((byte) (isSigned ? high >> 63 : 0))
            .putLong(high).putLong(low).array();
        return new BigInteger(bigEndian);
    }

    Quantity getQuantity(int address) {
        QuantityForm form = Quantity.FORMS[getInt(address + 32)];
        return new Quantity(getInteger(address, true), getInteger(address + 16, false), form);
    }

    void put(int address, Quantity quantity) {
        put(address, quantity.numerator());
        put(address + 16, quantity.denominator());
        Words.put32(bytes, address + 32 - BASE, quantity.form().ordinal());
    }

    private void put(int address, BigInteger number) {
        Words.put64(bytes, address - BASE, number.longValue());
        Words.put64(bytes, address + 8 - BASE, number.shiftRight(64).longValue());
    }

    /** The index in the {@code CharSequence} of the character at a byte of the text. */
    int indexOf(int byteIndex) {
        int index = 0;
        for (int at = 0; at < byteIndex; index++) {
            int count = bytesOfCharacter(at);
            at += count;
            index += count == 4 ? 1 : 0;
        }
        return index;
    }

    /** How many bytes the character at a byte of the text has. */
    int bytesOfCharacter(int byteIndex) {
        int first = bytes[TEXT_INDEX + byteIndex] & 0xff;
        return first < 0x80 ? 1 : first < 0xe0 ? 2 : first < 0xf0 ? 3 : 4;
    }

    /** The text that a call has written at an address; releases the instance. */
    String printed(int address) {
        int index = address - BASE;
        String text = text(index, index + getInt(LENGTH));
        release();
        return text;
    }

    /** The refusal of a text, whose place is at an address; releases the instance. */
    ChineseNumberException refusal(int code, ReadText read, int address) {
        Status status = Status.values()[code];
        boolean hasPlace = status == Status.INCORRECT;
        int charIndex = hasPlace ? getInt(address) : -1;
        int index = hasPlace ? indexOf(getInt(address + 8)) : -1;
        release();
        return new ChineseNumberException(status, read, charIndex, index);
    }
}
