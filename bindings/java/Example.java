import static chinesenumber.ChineseNumbers.*;

import chinesenumber.*;
import java.math.BigDecimal;
import java.time.LocalDate;
import java.util.Locale;

class Example {
    public static void main(String[] words) {
        System.out.println(toNumber("一百二") + " " + toChinese(105_000)); // 120 十万五千
        Style style = Style.DEFAULT.withScript(Script.TRADITIONAL).withCase(Case.UPPER);
        System.out.println(toChinese(120, style)); // 壹佰貳拾
        String[] texts = ChineseColumns.numbersToChinese(new long[] {120, -7});
        System.out.println(texts[0] + " " + texts[1]); // 一百二十 负七

        System.out.println(yuanToChinese(new BigDecimal("1409.50"))); // 壹仟肆佰零玖元伍角整
        System.out.println(chineseToYuan("壹仟肆佰零玖元伍角")); // 1409.50
        System.out.println(dateToChinese(LocalDate.of(2026, 1, 15))); // 贰零贰陆年零壹月壹拾伍日
        try {
            chineseToAmount("壹佰贰元整");
        } catch (ChineseNumberException refusal) {
            System.out.println(refusal.status() + " " + refusal.index()); // INCORRECT 3
            System.out.println(refusal.messageIn(Locale.SIMPLIFIED_CHINESE)); // 第3个字“贰”前缺“零”。
            System.out.println(refusal.repair().get().applyTo("壹佰贰元整")); // 壹佰零贰元整
        }

        System.out.println(toQuantity("3.5万").toFigures()); // 35000
        System.out.println(textToFigures("一月五日下午三点半，市值三点五亿元")); // 1月5日下午3点半，市值3.5亿元
        findPhrases("二零二六年一月五日下午三点半")
            .forEach(it -> System.out.println(it + " " + it.value().get()));
        // 二零二六年一月五日 2026-01-05
        // 下午三点半 15:30
    }
}
