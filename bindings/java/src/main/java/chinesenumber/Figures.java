package chinesenumber;

import static chinesenumber.Instance.LENGTH;
import static chinesenumber.Instance.TEXT;
import static java.util.Objects.requireNonNull;

/** Writes texts in figures, or as they are spoken, by a call of the module. */
final class Figures {
    private static final char REPLACEMENT = '\ufffd';

    private Figures() {}

    /** A call of the module that writes a new text into a buffer. */
    interface Call {
        int write(State module, long text, long textBytes, int upper, int greatest, int method,
            int flags, long buffer, long bufferBytes, long length);
    }

    /** Calls the module with a buffer for the new text, at an address, and returns the status. */
    private interface Writer {
        int write(Instance instance, long buffer, long bufferBytes);
    }

    static String written(Call call, CharSequence text, TextOptions options) {
        return written(text, 0, (instance, buffer, bufferBytes) ->
            call.write(instance, TEXT, instance.textBytes, options.wanted.upper(),
                options.wanted.greatest.ordinal(), options.method.ordinal(), options.flags,
                buffer, bufferBytes, LENGTH));
    }

    /** The text as it is spoken. Before the buffer for it is one with as many bytes as the text. */
    static String spoken(CharSequence text, Voice voice) {
        int options = voice.isYao ? Codes.YAO : 0;
        return written(text, 1, (instance, buffer, bufferBytes) ->
            Core.chinese_text_to_speech(instance, TEXT, instance.textBytes, 0,
                NumeralUnit.ZHAO.ordinal(), voice.method.ordinal(), voice.script.ordinal(),
                options, instance.buffer(), instance.textBytes, buffer, bufferBytes, LENGTH));
    }

    /** The new text, whose buffer is after so many others with as many bytes as the text. */
    private static String written(CharSequence text, int others, Writer writer) {
        // The new text seldom has more bytes than the old one. If so, the call says how many.
        long most = 3L * requireNonNull(text, "text").length();
        long bufferBytes = most + Codes.MOST_FIGURES_BYTES;
        while (true) {
            Instance instance = Instance.with(text, others * most + bufferBytes);
            int buffer = instance.buffer() + others * instance.textBytes;
            int status = writer.write(instance, buffer, bufferBytes);
            if (status != Status.NO_ROOM.ordinal()) {
                ChineseNumbers.requireDone(instance, status);
                return withSurrogates(instance.printed(buffer), text);
            }
            bufferBytes = instance.getLong(LENGTH);
            instance.release();
        }
    }

    /**
     * Restores unpaired surrogates, which are U+FFFD in the new text. No expression has one, so
     * those of the new text and of the text are the same, in order.
     */
    private static String withSurrogates(String written, CharSequence text) {
        if (written.indexOf(REPLACEMENT) < 0) {
            return written;
        }
        StringBuilder restored = new StringBuilder(written);
        int at = 0;
        for (int index = 0; index < text.length(); index++) {
            char unit = text.charAt(index);
            boolean isPair = Character.isHighSurrogate(unit) && index + 1 < text.length()
                && Character.isLowSurrogate(text.charAt(index + 1));
            if (isPair) {
                index++;
            } else if (Character.isSurrogate(unit) || unit == REPLACEMENT) {
                at = restored.indexOf("\ufffd", at);
                restored.setCharAt(at++, unit);
            }
        }
        return restored.toString();
    }
}
