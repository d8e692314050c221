import static chinesenumber.ChineseNumbers.*;

import chinesenumber.*;
import java.io.ByteArrayInputStream;
import java.io.ByteArrayOutputStream;
import java.io.File;
import java.io.ObjectInputStream;
import java.io.ObjectOutputStream;
import java.lang.ref.WeakReference;
import java.lang.reflect.InvocationTargetException;
import java.lang.reflect.Method;
import java.lang.reflect.Modifier;
import java.math.BigDecimal;
import java.math.BigInteger;
import java.net.URL;
import java.net.URLClassLoader;
import java.time.LocalDate;
import java.time.LocalTime;
import java.util.Arrays;
import java.util.HashSet;
import java.util.List;
import java.util.Locale;
import java.util.Random;
import java.util.concurrent.ExecutorService;
import java.util.concurrent.Executors;
import java.util.concurrent.atomic.AtomicReference;
import java.util.function.Function;
import java.util.stream.Collectors;
import java.util.stream.LongStream;
import java.util.stream.Stream;

/**
 * Tests of the Java binding beside its answers. The argument is how many rounds of threads there
 * are, or {@code lines} for the answer to each line of the input.
 */
public final class Limits {
    private static final List<String> PARAMETERS = Arrays.asList("text", "way", "kind", "number",
        "style", "yuan", "form", "date", "script", "method", "wanted", "options", "replacement",
        "input", "locale", "status", "line", "numbers", "texts", "fen", "dates", "statuses", "voice");

    private static void same(Object found, Object wanted) {
        if (!found.equals(wanted)) {
            throw new AssertionError("found " + found + ", wanted " + wanted);
        }
    }

    private static ChineseNumberException refusal(Runnable call) {
        try {
            call.run();
        } catch (ChineseNumberException refusal) {
            return refusal;
        }
        throw new AssertionError("a call has not been refused");
    }

    private static void refused(Runnable call, Status status) {
        same(refusal(call).status(), status);
    }

    private static void yuan() {
        same(yuanToChinese(new BigDecimal("1409.50")), "壹仟肆佰零玖元伍角整");
        same(yuanToChinese(new BigDecimal("1.5E+3"), AmountForm.DEFAULT.withCurrency()), "人民币壹仟伍佰元整");
        same(signedYuanToChinese(new BigDecimal("-15.000")), "负壹拾伍元整");
        AmountForm bracketed = AmountForm.DEFAULT.withBracketedSign();
        same(signedYuanToChinese(new BigDecimal("-15"), bracketed), "（负数）壹拾伍元整");
        same(yuanToFen(new BigDecimal("9999999999999999.99")), 999_999_999_999_999_999L);
        same(yuanToFen(BigDecimal.ZERO.setScale(1000)), 0L);
        same(fenToYuan(140950), new BigDecimal("1409.50"));
        same(fenToYuan(chineseToAmount("壹拾伍元整")), new BigDecimal("15.00"));
        refused(() -> yuanToChinese(new BigDecimal("-15")), Status.TOO_SMALL);
        refused(() -> yuanToFen(new BigDecimal(0.1)), Status.INCORRECT);
        same(refusal(() -> yuanToFen(new BigDecimal("15.005"))).charIndex(), 5);
        same(chineseToYuan("壹拾伍元伍角"), new BigDecimal("15.50"));
        same(chineseToSignedYuan("负壹拾伍元整"), new BigDecimal("-15.00"));
        same(chineseToYuanAsTyped("⊗ 人民币：壹拾 伍元整"), new BigDecimal("15.00"));
        same(chineseToSignedYuanAsTyped("⊗（负数）壹拾伍元整"), new BigDecimal("-15.00"));
    }

    /** All amounts are refused like the same figures in a text, of any size and scale. */
    private static void refusedYuan() {
        String large = refusal(() -> yuanToFen("10000000000000000")).messageIn(Locale.CHINA);
        char[] figures = new char[101];
        Arrays.fill(figures, '9');
        String nines = new String(figures);
        for (String sign : new String[] {"", "-"}) {
            for (String it : new String[] {"1E+16", "1E+17", "1E+99", "1E+101", "1E+2147483647",
                "100E+2147483646", nines}) {
                ChineseNumberException refusal = refusal(() -> yuanToFen(new BigDecimal(sign + it)));
                same(refusal.status(), Status.TOO_LARGE);
                same(refusal.messageIn(Locale.CHINA), large);
            }
            for (String it : new String[] {"1E-3", "1E-100", "1E-101", "1E-2147483647",
                "0." + nines, "10000000000000000.005", nines + ".005", nines + "." + nines}) {
                ChineseNumberException refusal = refusal(() -> yuanToFen(new BigDecimal(sign + it)));
                same(refusal.status(), Status.INCORRECT);
                same(refusal.messageIn(Locale.ENGLISH).contains("At most two decimals"), true);
            }
            ChineseNumberException third = refusal(() -> yuanToFen(new BigDecimal(sign + "1E-3")));
            same(third.charIndex(), 4 + sign.length());
        }
        same(yuanToFen(new BigDecimal("0E+2147483647")), 0L);
        same(yuanToFen(new BigDecimal("0E-2147483647")), 0L);
        same(yuanToFen(new BigDecimal("15.5").setScale(1000)), 1550L);
        same(yuanToFen(new BigDecimal("15E+2")), 150_000L);
        BigDecimal least = new BigDecimal(BigInteger.TEN, Integer.MIN_VALUE);
        refused(() -> yuanToFen(least), Status.TOO_LARGE);
    }

    private static void numbers() {
        same(toNumber(toChinese(Long.MIN_VALUE)), Long.MIN_VALUE);
        BigInteger below = BigInteger.valueOf(Long.MIN_VALUE).subtract(BigInteger.ONE);
        refused(() -> toNumber(toChinese(below)), Status.TOO_SMALL);
        BigInteger most = BigInteger.ONE.shiftLeft(127);
        same(toBigInteger(toChinese(most.negate())), most.negate());
        same(toBigInteger(toChinese(most.subtract(BigInteger.ONE))), most.subtract(BigInteger.ONE));
        BigInteger unsigned = most.shiftLeft(1).subtract(BigInteger.ONE);
        same(toBigInteger(toChinese(unsigned, Style.DEFAULT, Kind.U128), Way.ANY, Kind.U128), unsigned);
        refused(() -> toChinese(unsigned), Status.NOT_HELD);
        refused(() -> toChinese(BigInteger.valueOf(256), Style.DEFAULT, Kind.U8), Status.NOT_HELD);
        same(refusal(() -> toChinese(BigInteger.valueOf(256), Style.DEFAULT, Kind.U8)).getMessage(),
            "u8 does not hold the number");
        same(toChinese(1_000_000_000_000L), "一万亿");
        same(toNumber(new StringBuilder("一百二")), 120L);
    }

    private static void dates() {
        same(chineseToDate(dateToChinese(LocalDate.of(9999, 12, 31))), LocalDate.of(9999, 12, 31));
        for (int year : new int[] {10000, 0, -1, 999_999_999, -999_999_999}) {
            refused(() -> dateToChinese(LocalDate.of(year, 1, 1)), Status.NOT_A_DATE);
        }
        same(refusal(() -> chineseToDate("贰零贰伍年零贰月贰拾玖日")).charIndex(), 10);
    }

    private static void quantities() {
        same(Quantity.of(new BigDecimal("3.10")).toChinese(), "三点一零");
        same(Quantity.of(new BigDecimal("3.10")).trimmed(), Quantity.of(new BigDecimal("3.1")));
        same(Quantity.of(35).form(), QuantityForm.WHOLE);
        same(Quantity.of(new BigDecimal("35E+2")).toFigures(), "3500");
        same(Quantity.ofPercent(new BigDecimal("12.5")).toChinese(), "百分之十二点五");
        same(Quantity.ofFraction(1, 3).toChinese(Style.DEFAULT.withCase(Case.UPPER)), "叁分之壹");
        same(toQuantity("3.5万").toWhole().get(), BigInteger.valueOf(35000));
        same(toQuantity("3.5").toWhole().isPresent(), false);
        same(toQuantity("12.5%").toBigDecimal(), new BigDecimal("0.125"));
        refused(() -> Quantity.ofFraction(1, 0), Status.NOT_A_QUANTITY);
        refused(() -> Quantity.ofFraction(1, -3), Status.NOT_A_QUANTITY);
        same(toQuantity("3.10").toBigDecimal(), new BigDecimal("3.1"));
        refused(() -> toQuantity(Quantity.ofFraction(1, 3).toFigures()), Status.INCORRECT);
        refused(() -> Quantity.of(new BigDecimal("1E-1000000000")), Status.NOT_HELD);
        refused(() -> Quantity.of(new BigDecimal("1E+1000000000")), Status.NOT_HELD);
    }

    private static void places() {
        String text = "😀第二十三回，😀占12.5%";
        List<FoundQuantity> all = findQuantities(text).collect(Collectors.toList());
        FoundQuantity last = all.get(1);
        FoundQuantity first = all.get(0);
        same(first + " " + first.start() + " " + first.end() + " " + first.charStart(), "二十三 3 6 2");
        same(text.substring(last.start(), last.end()), "12.5%");
        same(last.charStart() + " " + last.charEnd(), "9 14");
        ChineseNumberException refusal = refusal(() -> toNumber("一𠀀百x"));
        same(refusal.charIndex() + " " + refusal.index(), "1 1");
        same(refusal(() -> toNumber("𠀀")).index(), 0);
        same(refusal(() -> chineseToAmount("壹佰元")).index(), -1);
        List<Found> phrases = findPhrases("二零二六年一月五日下午三点半，二十人").collect(Collectors.toList());
        same(phrases.get(0).value(LocalDate.class).get(), LocalDate.of(2026, 1, 5));
        same(phrases.get(1).value(LocalTime.class).get(), LocalTime.of(15, 30));
        same(phrases.get(2).value().get(), toQuantity("20"));
        same(((FoundQuantity) findPhrases("五一假期").findFirst().get()).doubt().get(), Doubt.DIGITS);
        same(findNumbers("百分之五十的人").filter(it -> it.value().isPresent()).count(), 1L);
    }

    private static void texts() {
        same(textToFigures("\ud800三点五万\udc00，\ufffd三成\ud800"), "\ud8003.5万\udc00，\ufffd三成\ud800");
        same(replaceQuantities("占12.5%\ud800", found -> found.quantity().toChinese()), "占百分之十二点五\ud800");
        StringBuilder many = new StringBuilder();
        for (int at = 0; at < 70; at++) {
            many.append("二十三，");
        }
        same(findNumbers(many).count(), 70L);
        TextOptions upper = TextOptions.DEFAULT.withWanted(Wanted.DEFAULT.withUpper());
        same(textToFigures("壹佰", upper), "100");
        TextOptions compact = TextOptions.DEFAULT.withCompact();
        same(textToFigures("二零二六年一月五日下午三点半", compact), "2026-01-05 15:30");
        TextOptions codes = TextOptions.DEFAULT.withCodes();
        same(textToFigures("打幺幺零", codes), "打110");
        same(textToSpeech("15:30到，\ud800", Voice.DEFAULT.withScript(Script.TRADITIONAL)),
            "十五點三十分到，\ud800");
        same(textToSpeech("请拨打110", Voice.DEFAULT.withYao()), "请拨打幺幺零");
        same(findUnspoken("共3人，x86").findFirst().get().text(), "86");
        StringBuilder left = new StringBuilder();
        for (int at = 0; at < 2000; at++) {
            left.append("x8");
        }
        same(findUnspoken(left).count(), 2000L);
        same(findUnspoken(left).mapToLong(it -> it.start()).sum(), 2000L * 2000);
        illegal(() -> quantitiesToFigures("一", compact), "quantitiesToFigures has no option compact");
        illegal(() -> quantitiesToFigures("一", codes), "quantitiesToFigures has no option codes");
        illegal(() -> replaceQuantities("一", it -> "", compact), "replaceQuantities has no option compact");
        illegal(() -> TextOptions.DEFAULT.withMethod(Way.DIGITS), "DIGITS is no method of quantities");
    }

    private static void lines() {
        same(answerLine("print u128 naive traditional lower 123"), "ok 一二三");
        same(answerLine(new StringBuilder("read u8 any")), "bad line");
        same(answerLine("read u64 naive \ud800"), "err the chinese number is incorrect (position: 0)");
        char[] zeros = new char[200_000];
        Arrays.fill(zeros, '零');
        same(answerLine("read u128 naive " + new String(zeros) + "五"), "ok 5");
    }

    private static void answerLines() throws Exception {
        StringBuilder answers = new StringBuilder();
        for (String line : new String(System.in.readAllBytes(), "UTF-8").split("\n")) {
            answers.append(answerLine(line)).append('\n');
        }
        System.out.write(answers.toString().getBytes("UTF-8"));
    }

    private static void illegal(Runnable call, String wanted) {
        try {
            call.run();
        } catch (IllegalArgumentException error) {
            same(error.getMessage(), wanted);
            return;
        }
        throw new AssertionError("not refused: " + wanted);
    }

    private static void messages() throws Exception {
        ChineseNumberException refusal = refusal(() -> chineseToAmount("壹佰贰元整"));
        ChineseNumberException again = (ChineseNumberException) copy(refusal);
        same(again.messageIn(Locale.CHINA), "第3个字“贰”前缺“零”。");
        same(again.repair().get().toString(), "INSERT 零 at index 2 (charIndex 2)");
        same(again.expected().get().charIndex(), 3);
        same(again.fault().isPresent(), false);
        same(refusal(() -> toNumber("一百十")).fault().get(), Fault.UNITS);
        same(refusal(() -> toQuantity("零分之一")).fault().get(), Fault.DENOMINATOR);
        same(refusal(() -> toChinese(BigInteger.ONE.shiftLeft(200))).messageIn(Locale.ENGLISH),
            statusMessage(Status.NOT_HELD, Locale.US));
    }

    private static void locales() {
        String[] tags = {"zh zh-CN zh-SG zh-Hans zh-Hans-HK cmn cmn-Hans-TW yue-CN yue-Hans yue-Hans-HK",
            "zh-TW zh-HK zh-MO zh-Hant zh-Hant-HK zh-Hant-CN cmn-Hant cmn-TW"
                + " yue yue-HK yue-Hant-CN zh-yue",
            "en fr ja und de-CN"};
        String[] messages = {"缺少数字。", "缺少數字。", numberMessage("", Locale.ENGLISH)};
        for (int at = 0; at < tags.length; at++) {
            for (String tag : tags[at].split(" ")) {
                same(tag + numberMessage("", Locale.forLanguageTag(tag)), tag + messages[at]);
            }
        }
    }

    private static void repairs() {
        same(inputRepair("壹佰贰元整", Input.AMOUNT).get().applyTo("壹佰贰元整"), "壹佰零贰元整");
        String pair = "壹佰零贰元😀整";
        Repair deleted = inputRepair(pair, Input.AMOUNT).get();
        same(deleted.toString(), "DELETE at index 5 (charIndex 5)");
        same(deleted.applyTo(new StringBuilder(pair)), "壹佰零贰元整");
        same(inputRepair("壹百元整", Input.AMOUNT).get().applyTo("壹百元整"), "壹佰元整");
        for (String text : new String[] {"", "壹佰零贰元"}) {
            try {
                deleted.applyTo(text);
                throw new AssertionError("a repair outside of the text");
            } catch (IndexOutOfBoundsException error) {
                continue;
            }
        }
        try {
            deleted.applyTo(null);
            throw new AssertionError("a repair of null");
        } catch (NullPointerException error) {
            same(error.getMessage(), "text");
        }
    }

    private static Object copy(Object it) throws Exception {
        ByteArrayOutputStream bytes = new ByteArrayOutputStream();
        new ObjectOutputStream(bytes).writeObject(it);
        return new ObjectInputStream(new ByteArrayInputStream(bytes.toByteArray())).readObject();
    }

    /** Objects of several classes, each unlike all others. */
    private static List<Object> values() {
        Stream<Object> own = Stream.of(Style.DEFAULT, Style.DEFAULT.withWay(Way.LOW),
            Style.DEFAULT.withScript(Script.TRADITIONAL), Style.DEFAULT.withCase(Case.UPPER),
            AmountForm.DEFAULT, AmountForm.DEFAULT.withCurrency().withBracketedSign(),
            TextOptions.DEFAULT, TextOptions.DEFAULT.withAbout().withCompact(),
            TextOptions.DEFAULT.withMethod(Way.LOW), Wanted.DEFAULT, Wanted.DEFAULT.withUpper(),
            TextOptions.DEFAULT.withWanted(Wanted.DEFAULT.withUpper()),
            Wanted.DEFAULT.withGreatest(NumeralUnit.JING), Quantity.of(5),
            Quantity.ofFraction(1, 2), Quantity.ofFraction(2, 4),
            inputRepair("壹佰贰元整", Input.AMOUNT).get(), inputRepair("壹佰x元整", Input.AMOUNT).get());
        Stream<Object> found = findPhrases("一月五日三点半，24点，三到五万元").map(it -> it.value().get());
        return Stream.concat(own, found).collect(Collectors.toList());
    }

    private static void equality() throws Exception {
        List<Object> all = values();
        List<Object> again = values();
        String text = "一月五日，五十，五十，三点半";
        List<Object> found = Stream.of(findNumbers(text), findQuantities(text), findPhrases(text))
            .flatMap(it -> it).collect(Collectors.toList());
        same(found, Stream.of(findNumbers(text), findQuantities(text), findPhrases(text))
            .flatMap(it -> it).collect(Collectors.toList()));
        for (int at = 0; at < all.size(); at++) {
            same(copy(all.get(at)), all.get(at));
            same(all.get(at).hashCode(), again.get(at).hashCode());
            same(all.indexOf(again.get(at)), at);
            same(all.get(at).equals(null), false);
        }
        // The quantities 五十 are found by two of the calls.
        same(new HashSet<>(found).size(), found.size() - 2);
        same(inputExpected("壹佰", Input.AMOUNT), inputExpected("壹佰", Input.AMOUNT));
        same(inputExpected("壹佰", Input.AMOUNT).equals(inputExpected("壹", Input.AMOUNT)), false);
        same(Style.DEFAULT.toString(), "Style[ANY, SIMPLIFIED, LOWER]");
        same(AmountForm.DEFAULT.withCurrency().withBracketedSign().toString(),
            "AmountForm[SIMPLIFIED, [currency, bracketedSign]]");
        same(TextOptions.DEFAULT.withAbout().withCompact().toString(),
            "TextOptions[Wanted[lower, ZHAO], ANY, [about, compact]]");
    }

    /** Each argument of each call is refused by its name if it is null. */
    private static void nulls() throws ReflectiveOperationException {
        for (Method call : Stream.of(ChineseNumbers.class, ChineseColumns.class)
            .flatMap(it -> Stream.of(it.getMethods())).toArray(Method[]::new)) {
            Class<?>[] types = call.getParameterTypes();
            for (int at = 0; Modifier.isStatic(call.getModifiers()) && at < types.length; at++) {
                Object[] given = new Object[types.length];
                for (int other = 0; other < types.length; other++) {
                    given[other] = other == at ? null : some(types[other]);
                }
                if (types[at].isPrimitive()) {
                    continue;
                }
                try {
                    call.invoke(null, given);
                    throw new AssertionError(call + " accepts null");
                } catch (InvocationTargetException error) {
                    same(error.getCause().getClass(), NullPointerException.class);
                    same(PARAMETERS.contains(error.getCause().getMessage()), true);
                }
            }
        }
    }

    private static Object some(Class<?> type) {
        Function<FoundQuantity, String> function = Found::text;
        Object[] all = {"", 1L, BigInteger.ONE, BigDecimal.ONE, Style.DEFAULT, AmountForm.DEFAULT,
            Wanted.DEFAULT, TextOptions.DEFAULT, Voice.DEFAULT, LocalDate.of(2026, 1, 5), Way.ANY,
            Kind.I128, Script.SIMPLIFIED, Input.AMOUNT, Locale.ENGLISH, Status.EMPTY, function, new long[1],
            new String[] {"壹元整"}, new LocalDate[1], new Status[1], LongStream.of(1), Stream.of()};
        for (Object it : all) {
            if (type.isInstance(it) || type == long.class && it instanceof Long) {
                return it;
            }
        }
        throw new AssertionError("no argument of " + type);
    }

    private static void random(long seed, int count) {
        Random random = new Random(seed);
        for (int at = 0; at < count; at++) {
            long number = random.nextLong() >> random.nextInt(64);
            same(toNumber(toChinese(number)), number);
            long fen = (number >>> 1) % 1_000_000_000_000_000_000L;
            same(chineseToAmount(amountToChinese(fen)), fen);
            same(yuanToFen(fenToYuan(fen)), fen);
            LocalDate date = LocalDate.of(1 + random.nextInt(9998), 1, 1).plusDays(random.nextInt(365));
            same(chineseToDate(dateToChinese(date)), date);
            same(refusal(() -> toNumber("一𠀀百x")).index(), 1);
            same(textToFigures("共三点五亿元\ud800，三到五万元"), "共3.5亿元\ud800，3万到5万元");
        }
    }

    private static void threads(int rounds) throws InterruptedException {
        AtomicReference<Throwable> failed = new AtomicReference<>();
        for (int round = 0; round < rounds; round++) {
            Thread[] threads = new Thread[20];
            for (int at = 0; at < threads.length; at++) {
                long seed = 100 * round + at;
                threads[at] = new Thread(() -> {
                    try {
                        random(seed, 20);
                    } catch (Throwable error) {
                        failed.set(error);
                    }
                });
                threads[at].start();
            }
            for (Thread it : threads) {
                it.join();
            }
        }
        if (failed.get() != null) {
            throw new AssertionError(failed.get());
        }
    }

    /** Threads that go on keep no class of the library, so its class loader can be collected. */
    private static void unloaded() throws Exception {
        ExecutorService pool = Executors.newFixedThreadPool(4);
        WeakReference<ClassLoader> loader = new WeakReference<>(loaderOfCalls(pool));
        for (int at = 0; loader.get() != null && at < 100; at++) {
            System.gc();
            Thread.sleep(20);
        }
        same(loader.get() == null, true);
        pool.shutdown();
    }

    private static ClassLoader loaderOfCalls(ExecutorService pool) throws Exception {
        String path = System.getProperty("java.class.path").split(File.pathSeparator)[0];
        URL[] places = {new File(path).toURI().toURL()};
        ClassLoader loader = new URLClassLoader(places, null);
        Class<?> library = loader.loadClass("chinesenumber.ChineseNumbers");
        Method call = library.getMethod("toChinese", long.class);
        for (int at = 0; at < 20; at++) {
            same(pool.submit(() -> call.invoke(null, 120L)).get(), "一百二十");
        }
        return loader;
    }

    /**
     * Four million characters are searched, some of them rewritten; then their memory is free.
     */
    private static void longText() {
        String part = "市值三点五亿元，占12.5%。";
        StringBuilder text = new StringBuilder();
        while (text.length() < 4_000_000) {
            text.append(part);
        }
        long count = text.length() / part.length();
        same(findQuantities(text).count(), 2 * count);
        int some = 5000 * part.length();
        same(textToFigures(text.substring(0, some)).length(), 5000 * "市值3.5亿元，占12.5%。".length());
        text = null;
        System.gc();
        Runtime runtime = Runtime.getRuntime();
        same(runtime.totalMemory() - runtime.freeMemory() < 8 << 20, true);
    }

    public static void main(String[] words) throws Exception {
        if (words[0].equals("lines")) {
            answerLines();
            return;
        }
        int rounds = Integer.parseInt(words[0]);
        yuan();
        numbers();
        dates();
        quantities();
        places();
        texts();
        lines();
        refusedYuan();
        messages();
        locales();
        repairs();
        equality();
        nulls();
        threads(rounds);
        unloaded();
        if (rounds > 1) {
            longText();
        }
    }
}
