package chinesenumber;

import java.io.BufferedInputStream;
import java.io.DataInputStream;
import java.io.FileDescriptor;
import java.io.FileOutputStream;
import java.io.IOException;
import java.io.OutputStream;
import java.lang.reflect.Method;
import java.nio.ByteBuffer;
import java.nio.ByteOrder;
import java.util.HashMap;
import java.util.Map;

/**
 * Makes the calls of the module that same.c asks for through calls.c: of each the name, the count
 * of the arguments, and these: a number, or how many bytes a pointer leads to, and these bytes. The
 * answer is the status and all these bytes.
 */
public final class Same extends State {
    private static final int MEMORY = 1 << 17;
    private static final int FIRST_ADDRESS = (HEAP + 15) / 16 * 16;

    private final DataInputStream in =
        new DataInputStream(new BufferedInputStream(System.in, 1 << 16));
    private final OutputStream out = new FileOutputStream(FileDescriptor.out);
    private final Map<String, Method> calls = new HashMap<>();
    private final ByteBuffer answer = ByteBuffer.allocate(MEMORY).order(ByteOrder.LITTLE_ENDIAN);

    private Same() {
        super(MEMORY);
        for (Method it : Core.class.getDeclaredMethods()) {
            calls.put(it.getName(), it);
        }
    }

    private long number() throws IOException {
        return Long.reverseBytes(in.readLong());
    }

    private void call(int length) throws IOException, ReflectiveOperationException {
        byte[] name = new byte[length];
        in.readFully(name);
        Method call = calls.get(new String(name, "US-ASCII"));
        int count = in.read();
        Object[] given = new Object[count + 1];
        int[] starts = new int[count];
        int[] sizes = new int[count];
        given[0] = this;
        int free = FIRST_ADDRESS;
        for (int at = 0; at < count; at++) {
            boolean isPointer = in.read() == 1;
            long value = number();
            if (isPointer) {
                starts[at] = free - BASE;
                sizes[at] = (int) value;
                in.readFully(bytes, starts[at], sizes[at]);
                value = free;
                free += (sizes[at] + 31) / 16 * 16;
            }
            boolean isInt = call.getParameterTypes()[at + 1] == int.class;
            given[at + 1] = isInt ? (Object) (int) value : (Object) value;
        }
        answer.clear();
        answer.putInt((int) call.invoke(null, given));
        for (int at = 0; at < count; at++) {
            answer.put(bytes, starts[at], sizes[at]);
        }
        out.write(answer.array(), 0, answer.position());
    }

    public static void main(String[] arguments) throws Exception {
        Same same = new Same();
        for (int length = same.in.read(); length >= 0; length = same.in.read()) {
            same.call(length);
        }
    }
}
