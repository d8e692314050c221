package chinesenumber;

import static chinesenumber.Instance.LENGTH;
import static chinesenumber.Instance.MOST_SPANS;
import static chinesenumber.Instance.PHRASE_BYTES;
import static chinesenumber.Instance.RESULT;
import static chinesenumber.Instance.SECOND_RESULT;
import static chinesenumber.Instance.SPANS;
import static chinesenumber.Instance.SPAN_BYTES;
import static chinesenumber.Instance.TEXT;
import static java.util.Objects.requireNonNull;

import java.math.BigDecimal;
import java.time.Duration;
import java.time.LocalDate;
import java.time.LocalTime;
import java.util.ArrayList;
import java.util.List;

/**
 * A search of a text, which is searched to its end at once, since an instance serves one call.
 */
final class Search<T extends Found> {
    private static final PhraseKind[] KINDS = PhraseKind.values();
    private static final PhraseState[] STATES = PhraseState.values();
    private static final int LEAST_YEAR = 1000;

    /** A call of the module that writes up to {@code most} spans or phrases, and their count. */
    interface Call {
        int find(State module, long text, long textBytes, long from, int upper, int greatest,
            long spans, long most, long count);
    }

    /** Makes an object of the span or the phrase at an address. */
    interface Reader<T> {
        T read(Instance instance, int address, Found.Place place);
    }

    static final Search<FoundNumber> NUMBERS = new Search<>(
        Core::chinese_number_find_utf8, false, SPAN_BYTES,
        (instance, address, place) -> new FoundNumber(place, instance.getInt(address + 16)));
    static final Search<FoundQuantity> QUANTITIES = new Search<>(
        Core::chinese_quantity_find_utf8, false, SPAN_BYTES,
        (instance, address, place) -> new FoundQuantity(place, instance.getInt(address + 16)));
    static final Search<Found> PHRASES = new Search<>(
        Core::chinese_phrase_find_utf8, false, PHRASE_BYTES, Search::phrase);
    /** After the text is a buffer with as many bytes. */
    static final Search<FoundQuantity> UNSPOKEN = new Search<>(
        (module, text, textBytes, from, upper, greatest, spans, most, count) ->
            Core.chinese_speech_left(module, text, textBytes, from, upper, greatest,
                text + textBytes, textBytes, spans, most, count),
        true, SPAN_BYTES, QUANTITIES.reader);

    /** How many spans such a search finds in a call in a short text. */
    private static final int FEW_SPANS = 8;

    private final Call call;
    /**
     * Whether the call works in a buffer after the text. Each call then goes through the whole text,
     * so it finds many spans at once, for which there is room after the buffer.
     */
    private final boolean works;
    private final int bytes;
    private final Reader<T> reader;

    private Search(Call call, boolean works, int bytes, Reader<T> reader) {
        this.call = call;
        this.works = works;
        this.bytes = bytes;
        this.reader = reader;
    }

    List<T> findAll(CharSequence text, Wanted wanted) {
        int upper = requireNonNull(wanted, "wanted").upper();
        int greatest = wanted.greatest.ordinal();
        requireNonNull(text, "text");
        Instance instance = Instance.with(text, works ? workBytes(text) : 0);
        int spans = works ? (TEXT + 2 * instance.textBytes + 7) / 8 * 8 : SPANS;
        int most = works ? FEW_SPANS + instance.textBytes / 8 : MOST_SPANS;
        List<T> found = new ArrayList<>();
        Cursor cursor = new Cursor(instance, text);
        int count;
        do {
            call.find(instance, TEXT, instance.textBytes, cursor.byteIndex, upper, greatest, spans,
                most, LENGTH);
            count = instance.getInt(LENGTH);
            for (int at = 0; at < count; at++) {
                int address = spans + at * bytes;
                Found.Place place =
                    cursor.place(instance.getInt(address), instance.getInt(address + 8));
                found.add(reader.read(instance, address, place));
            }
        } while (count == most);
        instance.release();
        return found;
    }

    /** The buffer, three bytes for each unit of UTF-16, and the spans. */
    private static long workBytes(CharSequence text) {
        return 12L * text.length() + SPAN_BYTES * FEW_SPANS + 8;
    }

    /** How far the text was searched, in bytes, in UTF-16 and in characters. */
    private static final class Cursor {
        private final Instance instance;
        private final CharSequence text;
        private int byteIndex;
        private int index;
        private int charIndex;

        Cursor(Instance instance, CharSequence text) {
            this.instance = instance;
            this.text = text;
        }

        /** The place of what is between two bytes; the cursor moves to its end. */
        Found.Place place(int startByte, int endByte) {
            moveTo(startByte);
            int start = index;
            int charStart = charIndex;
            moveTo(endByte);
            return new Found.Place(text.subSequence(start, index).toString(), start, charStart);
        }

        private void moveTo(int endByte) {
            while (byteIndex < endByte) {
                int count = instance.bytesOfCharacter(byteIndex);
                byteIndex += count;
                index += count == 4 ? 2 : 1;
                charIndex++;
            }
        }
    }

    private static Found phrase(Instance instance, int address, Found.Place place) {
        PhraseKind kind = KINDS[instance.getInt(address + 24)];
        PhraseState state = STATES[instance.getInt(address + 28)];
        int flags = instance.getInt(address + 32);
        if (kind == PhraseKind.EXPRESSION) {
            return new FoundQuantity(place, flags);
        }
        Object value = state == PhraseState.REFUSED ? null : value(instance, address, kind);
        return new Phrase(place, flags, kind, state, value);
    }

    private static Object value(Instance instance, int address, PhraseKind kind) {
        int first = instance.getInt(address + 36);
        int second = instance.getInt(address + 40);
        int third = instance.getInt(address + 44);
        int fourth = instance.getInt(address + 48);
        switch (kind) {
            case DATE:
                return date(first, second, third, fourth);
            case TIME:
                return time(first, second, third, fourth);
            case DURATION:
                return Duration.ofHours(first).plusMinutes(second).plusSeconds(third);
            case HALF:
                return Quantity.of(BigDecimal.valueOf(10 * (first & 0xffffffffL) + 5, 1));
            case LENGTH:
                return length(first, second, third);
            case RANGE:
                return range(instance, address);
            case MONEY:
                return third == 0 ? null : money(first, second);
            default:
                return new ValuePair<>(first, second);
        }
    }

    private static Object date(int year, int month, int day, int given) {
        boolean isWhole = given == PartialDate.ALL_GIVEN && year >= LEAST_YEAR;
        return isWhole ? LocalDate.of(year, month, day) : new PartialDate(year, month, day, given);
    }

    private static Object time(int hour, int minute, int second, int hourOfDay) {
        if (hourOfDay < 24) {
            return LocalTime.of(hourOfDay, minute, second);
        }
        return new ClockTime(hour, minute, second, hourOfDay);
    }

    private static Quantity length(int number, int decimals, int count) {
        BigDecimal whole = new BigDecimal(number & 0xffffffffL).setScale(count);
        return Quantity.of(whole.add(BigDecimal.valueOf(decimals & 0xffffffffL, count)));
    }

    /** A number of fen by its lower and its upper 32 bits, in yuan. */
    private static Quantity money(int low, int high) {
        return Quantity.of(BigDecimal.valueOf(((long) high << 32) + (low & 0xffffffffL), 2));
    }

    /**
     * The two quantities of a range, which are before and after its link, one character.
     */
    private static ValuePair<Quantity> range(Instance instance, int address) {
        int start = instance.getInt(address);
        int end = instance.getInt(address + 8);
        int split = instance.getInt(address + 16);
        int second = start + split + instance.bytesOfCharacter(start + split);
        Core.chinese_range_read(instance, TEXT + start, split, TEXT + second, end - second, RESULT,
            SECOND_RESULT);
        return new ValuePair<>(instance.getQuantity(RESULT), instance.getQuantity(SECOND_RESULT));
    }
}
