import chinesenumber.*
import chinesenumber.ChineseNumbers.*
import java.math.BigDecimal
import java.time.LocalTime
import java.util.Locale

// Uses the library from Kotlin, whose own Unit and Pair keep their names.
fun main() {
    val show: (Any?) -> Unit = { println(it) }
    show(toNumber("一百二") to toChinese(105_000))
    show(toChinese(120, Style.DEFAULT.withScript(Script.TRADITIONAL).withCase(Case.UPPER)))
    show(yuanToChinese(BigDecimal("1409.50")))
    show(findPhrases("下午三点半").findFirst().get().value(LocalTime::class.java).get())
    show(replaceQuantities("占12.5%") { it.quantity().toChinese() })
    try {
        chineseToAmount("壹佰贰元整")
    } catch (refusal: ChineseNumberException) {
        show("${refusal.status()} ${refusal.index()} ${refusal.messageIn(Locale.CHINA)}")
    }
    try {
        toNumber(null)
    } catch (refusal: NullPointerException) {
        show(refusal.message)
    }
}
