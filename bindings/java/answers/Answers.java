import static chinesenumber.ChineseNumbers.*;

import chinesenumber.*;
import java.io.BufferedReader;
import java.io.InputStreamReader;
import java.io.PrintStream;
import java.math.BigInteger;
import java.nio.charset.StandardCharsets;
import java.time.Duration;
import java.time.LocalDate;
import java.time.LocalTime;
import java.util.HashMap;
import java.util.Locale;
import java.util.Map;
import java.util.Optional;
import java.util.function.Function;
import java.util.function.Supplier;
import java.util.function.UnaryOperator;
import java.util.stream.Collectors;
import java.util.stream.Stream;

/** Answers the questions of test.py, which says what they are, a line each. */
public final class Answers {
    /** The answer to the words of a question; the first word names the call. */
    interface Call {
        Object answer(String[] words);
    }

    private static final Map<String, Call> CALLS = new HashMap<>();
    private static final Map<String, UnaryOperator<AmountForm>> FORMS = new HashMap<>();
    private static final Map<String, UnaryOperator<TextOptions>> OPTIONS = new HashMap<>();

    static {
        FORMS.put("plain", it -> it);
        FORMS.put("currency", AmountForm::withCurrency);
        FORMS.put("round_yuan", AmountForm::withRoundYuan);
        FORMS.put("upright_closing", AmountForm::withUprightClosing);
        FORMS.put("bracketed_sign", AmountForm::withBracketedSign);
        OPTIONS.put("none", it -> it);
        OPTIONS.put("about", TextOptions::withAbout);
        OPTIONS.put("one", TextOptions::withOneCharacter);
        OPTIONS.put("doubtful", TextOptions::withDoubtful);
        OPTIONS.put("expanded", TextOptions::withExpanded);
        OPTIONS.put("canonical", TextOptions::withCanonical);
        OPTIONS.put("compact", TextOptions::withCompact);
        OPTIONS.put("codes", TextOptions::withCodes);
        addNumbers();
        addCapitals();
        addQuantities();
        addTexts();
        addReasons();
    }

    private static void addNumbers() {
        CALLS.put("read", w -> toBigInteger(w[3], way(w[2]), of(Kind.class, w[1])));
        CALLS.put("print",
            w -> toChinese(new BigInteger(w[5]), style(w[2], w[3], w[4]), of(Kind.class, w[1])));
        CALLS.put("find", w -> inPlace(w[1], findNumbers(w[1]), it -> outcome(it::bigInteger)));
        CALLS.put("flags", w -> inPlace(w[1], findNumbers(w[1]), Answers::flags));
        CALLS.put("explain", w -> word(explainNumber(w[3], way(w[2]), of(Kind.class, w[1]))));
    }

    private static void addCapitals() {
        CALLS.put("read_amount", w -> chineseToAmount(w[1]));
        CALLS.put("print_amount", w -> amountToChinese(fen(w[2]), form(w[1], "plain")));
        CALLS.put("print_amount_as", w -> amountToChinese(fen(w[3]), form(w[1], w[2])));
        CALLS.put("read_typed_amount", w -> chineseToAmountAsTyped(w[1]));
        CALLS.put("read_signed_amount", w -> chineseToSignedAmount(w[1]));
        CALLS.put("read_typed_signed_amount", w -> chineseToSignedAmountAsTyped(w[1]));
        CALLS.put("print_signed_amount", w -> signedAmountToChinese(fen(w[2]), form(w[1], "plain")));
        CALLS.put("print_signed_amount_as", w -> signedAmountToChinese(fen(w[3]), form(w[1], w[2])));
        CALLS.put("yuan_to_fen", w -> yuanToFen(w[1]));
        CALLS.put("read_date", w -> chineseToDate(w[1]));
        CALLS.put("print_date", w -> dateToChinese(LocalDate.parse(w[2]), script(w[1])));
    }

    private static void addQuantities() {
        CALLS.put("read_quantity", w -> shown(toQuantity(w[2], way(w[1]))));
        CALLS.put("find_quantities",
            w -> inPlace(w[1], findQuantities(w[1]), it -> outcome(() -> shown(it.quantity()))));
        CALLS.put("doubts", w -> inPlace(w[1], findQuantities(w[1]), it -> word(it.doubt())));
        CALLS.put("print_quantity", w -> quantity(w[4]).toChinese(style(w[1], w[2], w[3])));
        CALLS.put("quantity_figures", w -> quantity(w[1]).toFigures());
        CALLS.put("trim_quantity", w -> shown(quantity(w[1]).trimmed()));
        CALLS.put("explain_quantity", w -> word(explainQuantity(w[2], way(w[1]))));
    }

    private static void addTexts() {
        CALLS.put("quantities_to_figures", w -> quantitiesToFigures(w[2], options(w[1])));
        CALLS.put("text_to_figures", w -> textToFigures(w[2], options(w[1])));
        CALLS.put("text_to_speech",
            w -> textToSpeech(w[2], Voice.DEFAULT.withScript(script(w[1]))));
        CALLS.put("find_unspoken", w -> inPlace(w[1], findUnspoken(w[1]), Found::text));
        CALLS.put("replace_quantities",
            w -> replaceQuantities(w[2], Answers::numeralsUnlessFraction, options(w[1])));
        CALLS.put("phrases", w -> findPhrases(w[1]).filter(it -> it instanceof Phrase)
            .map(it -> shown((Phrase) it)).collect(Collectors.joining("\t")));
    }

    private static void addReasons() {
        CALLS.put("expected", w -> shown(inputExpected(w[2], of(Input.class, w[1]))));
        CALLS.put("repair",
            w -> inputRepair(w[2], of(Input.class, w[1])).map(Answers::shown).orElse("none"));
        CALLS.put("input_message", w -> inputMessage(w[3], of(Input.class, w[2]), locale(w[1])));
        CALLS.put("number_message",
            w -> numberMessage(w[4], locale(w[1]), way(w[3]), of(Kind.class, w[2])));
        CALLS.put("quantity_message", w -> quantityMessage(w[3], locale(w[1]), way(w[2])));
    }

    // The choices that words name.

    private static <T extends Enum<T>> T of(Class<T> type, String word) {
        return Enum.valueOf(type, word.toUpperCase(Locale.ROOT));
    }

    private static Way way(String word) {
        return word.equals("naive") ? Way.DIGITS : of(Way.class, word);
    }

    private static Script script(String word) {
        return word.equals("simple") ? Script.SIMPLIFIED : of(Script.class, word);
    }

    private static Style style(String way, String script, String letterCase) {
        Style style = Style.DEFAULT.withWay(way(way)).withScript(script(script));
        return style.withCase(of(Case.class, letterCase));
    }

    private static AmountForm form(String script, String words) {
        AmountForm form = AmountForm.DEFAULT.withScript(script(script));
        for (String word : words.split("\\+")) {
            form = FORMS.get(word).apply(form);
        }
        return form;
    }

    private static TextOptions options(String words) {
        TextOptions options = TextOptions.DEFAULT;
        for (String word : words.split("\\+")) {
            options = OPTIONS.get(word).apply(options);
        }
        return options;
    }

    private static Locale locale(String tag) {
        return Locale.forLanguageTag(tag);
    }

    /** The fen of a word. More than a long holds is as much too large as the greatest one. */
    private static long fen(String word) {
        BigInteger most = BigInteger.valueOf(Long.MAX_VALUE);
        return new BigInteger(word).min(most).max(most.not()).longValueExact();
    }

    private static Quantity quantity(String words) {
        String[] parts = words.split("[/ ]");
        BigInteger denominator = new BigInteger(parts[1]);
        return new Quantity(new BigInteger(parts[0]), denominator, of(QuantityForm.class, parts[2]));
    }

    // Results in words.

    private static String word(Enum<?> it) {
        return it.name().toLowerCase(Locale.ROOT);
    }

    private static String word(Optional<? extends Enum<?>> it) {
        return it.isPresent() ? word(it.get()) : "none";
    }

    private static String exact(Quantity it) {
        return it.numerator() + "/" + it.denominator();
    }

    private static String shown(Quantity it) {
        return exact(it) + " " + word(it.form());
    }

    private static String shown(Expected it) {
        String end = it.mayEnd() ? "end" : "-";
        String space = it.whiteSpace() ? "space" : "-";
        return String.join(" ", "" + it.charIndex(), end, space, it.characters()).trim();
    }

    private static String shown(Repair it) {
        return (word(it.change()) + " " + it.charIndex() + " " + it.character()).trim();
    }

    private static String shown(Phrase it) {
        String value = it.value().map(value_ -> shown(it, value_)).orElse("-");
        return String.join(" ", word(it.kind()), word(it.state()), it.text(), value);
    }

    private static String shown(Phrase it, Object value) {
        if (value instanceof LocalDate) {
            LocalDate date = (LocalDate) value;
            return date.getYear() + "-" + date.getMonthValue() + "-" + date.getDayOfMonth();
        }
        if (value instanceof LocalTime) {
            LocalTime time = (LocalTime) value;
            return hourOf(it) + ":" + time.getMinute() + ":" + time.getSecond() + " =" + time.getHour();
        }
        if (value instanceof ClockTime) {
            ClockTime time = (ClockTime) value;
            String hour = time.hourOfDay().isPresent() ? "" + time.hourOfDay().getAsInt() : "?";
            return time.hour() + ":" + time.minute() + ":" + time.second() + " =" + hour;
        }
        if (value instanceof Duration) {
            long seconds = ((Duration) value).getSeconds();
            return seconds / 3600 + ":" + seconds / 60 % 60 + ":" + seconds % 60;
        }
        if (value instanceof ValuePair) {
            ValuePair<?> both = (ValuePair<?>) value;
            String between = it.kind() == PhraseKind.SCORE ? ":" : "..";
            return exactOf(both.first()) + between + exactOf(both.second());
        }
        return exactOf(value);
    }

    private static String exactOf(Object it) {
        return it instanceof Quantity ? exact((Quantity) it) : it.toString();
    }

    /**
     * The hour as it is written, which a LocalTime does not have; a weekday before it has a number
     * too.
     */
    private static long hourOf(Phrase it) {
        String text = it.text().replaceFirst("^(周|週|星期|[礼禮]拜).", "");
        return findNumbers(text).findFirst().get().number();
    }

    private static String flags(FoundNumber it) {
        Stream<String> words = Stream.of(it.isPlain() ? "plain" : "", it.standsAlone() ? "alone" : "",
            it.isAbout() ? "about" : "", it.isOneCharacter() ? "one" : "");
        return words.filter(word -> !word.isEmpty()).collect(Collectors.joining(" "));
    }

    private static String numeralsUnlessFraction(FoundQuantity found) {
        Quantity quantity = found.quantity();
        return quantity.form() == QuantityForm.FRACTION ? found.text() : quantity.toChinese();
    }

    /** The text, with a description of everything found in its place. */
    private static <T extends Found> String inPlace(String text, Stream<T> all,
        Function<T, String> describe) {
        StringBuilder replaced = new StringBuilder();
        int end = 0;
        for (T found : all.collect(Collectors.toList())) {
            replaced.append(text, end, found.start()).append('[').append(describe.apply(found));
            replaced.append(']');
            end = found.end();
        }
        return replaced.append(text, end, text.length()).toString();
    }

    private static String outcome(Supplier<Object> call) {
        try {
            return "ok " + call.get();
        } catch (ChineseNumberException refusal) {
            return "err " + refusal.getMessage();
        }
    }

    public static void main(String[] arguments) throws Exception {
        PrintStream out = new PrintStream(System.out, false, "UTF-8");
        InputStreamReader in = new InputStreamReader(System.in, StandardCharsets.UTF_8);
        BufferedReader lines = new BufferedReader(in);
        for (String line = lines.readLine(); line != null; line = lines.readLine()) {
            String[] words = line.split("\t", -1);
            out.print(outcome(() -> CALLS.get(words[0]).answer(words)) + "\n");
        }
        out.flush();
    }
}
