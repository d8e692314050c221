// Command answers answers the questions of test.py, one per line; test.py describes them.
package main

import (
	"bufio"
	"fmt"
	"math/big"
	"os"
	"strings"
	"time"

	cn "chinese-number-proved/chinesenumber"
)

var ways = map[string]cn.Way{
	"naive":        cn.Digits,
	"low":          cn.Low,
	"ten_thousand": cn.TenThousand,
	"middle":       cn.Middle,
	"high":         cn.High,
	"any":          cn.Any,
}

var scripts = map[string]cn.Script{
	"traditional": cn.Traditional, "simple": cn.Simplified, "simplified": cn.Simplified,
}

var cases = map[string]cn.Case{"upper": cn.Upper, "lower": cn.Lower}

// The names of forms, in the order of the forms.
var forms = []string{"whole", "decimal", "percent", "fraction"}

// The names of doubts, in the order of the doubts.
var doubts = []string{"none", "word", "digits", "term", "part", "time", "range"}

// named returns the input or the language with a word.
func named[T cn.Input | cn.Language](word string) T {
	for it := T(0); it < 10; it++ {
		if fmt.Sprint(it) == word {
			return it
		}
	}
	panic("nothing is named " + word)
}

// told describes the result of a call.
func told[T any](answer T, err error) string {
	if err != nil {
		return "err " + err.Error()
	}
	return fmt.Sprint("ok ", answer)
}

func bigNumber(decimal string) *big.Int {
	number, isNumber := new(big.Int).SetString(decimal, 10)
	if !isNumber {
		panic("no number: " + decimal)
	}
	return number
}

func signed(decimal string) int64 {
	return bigNumber(decimal).Int64()
}

func unsigned(decimal string) uint64 {
	return bigNumber(decimal).Uint64()
}

// style returns the style with a way, a script and a case.
func style(words []string) *cn.Style {
	return &cn.Style{Way: ways[words[0]], Script: scripts[words[1]], Case: cases[words[2]]}
}

func write[T cn.Integer](number *big.Int, style *cn.Style) (string, error) {
	value := T(number.Uint64())
	if number.Sign() < 0 {
		value = T(number.Int64())
	}
	return cn.ToChinese(value, style)
}

// calls are the answers of the calls for an integer type. Each takes the words after the type.
type calls struct {
	read, write, explain, message func([]string) string
}

func callsOf[T any](
	read func(string, cn.Way) (T, error),
	write func(*big.Int, *cn.Style) (string, error),
	explain func(string, cn.Way) (cn.Fault, error),
	message func(string, cn.Way, cn.Language) (string, error),
) calls {
	return calls{
		func(words []string) string { return told(read(words[1], ways[words[0]])) },
		func(words []string) string { return told(write(bigNumber(words[3]), style(words))) },
		func(words []string) string { return told(explain(words[1], ways[words[0]])) },
		func(words []string) string {
			return told(message(words[2], ways[words[1]], named[cn.Language](words[0])))
		},
	}
}

func of[T cn.Integer]() calls {
	return callsOf(cn.ToNumber[T], write[T], cn.ExplainNumber[T], cn.NumberMessage[T])
}

var kinds = map[string]calls{
	"u8": of[uint8](), "u16": of[uint16](), "u32": of[uint32](), "u64": of[uint64](),
	"i8": of[int8](), "i16": of[int16](), "i32": of[int32](), "i64": of[int64](),
	"u128": callsOf(cn.ToBigUint, cn.BigIntToChinese, cn.ExplainBigUint, cn.BigUintMessage),
	"i128": callsOf(cn.ToBigInt, cn.BigIntToChinese, cn.ExplainBigInt, cn.BigIntMessage),
}

// has says whether a word is among others that + separates.
func has(words, word string) bool {
	return strings.Contains("+"+words+"+", "+"+word+"+")
}

func amountForm(script, words string) *cn.AmountForm {
	return &cn.AmountForm{
		Script:         scripts[script],
		Currency:       has(words, "currency"),
		RoundYuan:      has(words, "round_yuan"),
		UprightClosing: has(words, "upright_closing"),
		BracketedSign:  has(words, "bracketed_sign"),
	}
}

// expected describes what may come next in a text.
func expected(input, text string) string {
	it, err := cn.InputExpected(text, named[cn.Input](input))
	end, space := "-", "-"
	if it.MayEnd {
		end = "end"
	}
	if it.WhiteSpace {
		space = "space"
	}
	line := fmt.Sprintln(it.CharIndex, end, space, it.Characters)
	return told(strings.TrimSpace(line), err)
}

// repair describes the change that repairs a text.
func repair(input, text string) string {
	it, err := cn.InputRepair(text, named[cn.Input](input))
	switch it.Change {
	case cn.NoChange:
		return told(it.Change, err)
	case cn.Delete:
		return told(fmt.Sprint(it.Change, " ", it.CharIndex), err)
	}
	return told(fmt.Sprintf("%v %d %c", it.Change, it.CharIndex, it.Character), err)
}

func writeDate(script, date string) string {
	day, err := time.Parse("2006-01-02", date)
	if err != nil {
		panic(err)
	}
	return told(cn.DateToChinese(cn.DateOf(day), scripts[script]))
}

// ratio describes the numerator and the denominator of a quantity.
func ratio(it cn.Quantity) string {
	return fmt.Sprintf("%v/%v", it.Numerator(), it.Denominator())
}

func shown(it cn.Quantity) string {
	return ratio(it) + " " + forms[it.Form()]
}

// shownQuantity describes the result of a call, with the quantity in words.
func shownQuantity(it cn.Quantity, err error) string {
	if err != nil {
		return told("", err)
	}
	return told(shown(it), nil)
}

// quantity returns the quantity of words such as 350000/10 decimal.
func quantity(words string) cn.Quantity {
	numbers, name, _ := strings.Cut(words, " ")
	numerator, denominator, _ := strings.Cut(numbers, "/")
	for form, its := range forms {
		if its == name {
			it, err := cn.NewQuantity(bigNumber(numerator), bigNumber(denominator), cn.Form(form))
			if err != nil {
				panic(err)
			}
			return it
		}
	}
	panic("no form is named " + name)
}

func replacing(words string) *cn.Replacing {
	return &cn.Replacing{
		About:        has(words, "about"),
		OneCharacter: has(words, "one"),
		Doubtful:     has(words, "doubtful"),
		Expanded:     has(words, "expanded"),
		Canonical:    has(words, "canonical"),
		Compact:      has(words, "compact"),
		Codes:        has(words, "codes"),
	}
}

func speak(script, text string) (string, error) {
	return cn.TextToSpeech(text, &cn.Voice{Script: scripts[script], Method: cn.TenThousand})
}

func inNumerals(found cn.Found) (string, bool) {
	it, err := found.Quantity(cn.TenThousand)
	if err != nil || it.Form() == cn.Fraction {
		return "", false
	}
	text, err := it.ToChinese(nil)
	return text, err == nil
}

func flags(found cn.Found) string {
	var told []string
	for _, flag := range []struct {
		isTold bool
		name   string
	}{
		{found.IsPlain, "plain"},
		{found.StandsAlone, "alone"},
		{found.IsAbout, "about"},
		{found.IsOneCharacter, "one"},
	} {
		if flag.isTold {
			told = append(told, flag.name)
		}
	}
	return strings.Join(told, " ")
}

// inPlace returns the text with each run replaced by its description, in brackets.
func inPlace(text string, all []cn.Found, err error, show func(cn.Found) string) string {
	var done strings.Builder
	at := 0
	for _, found := range all {
		done.WriteString(text[at:found.Start] + "[" + show(found) + "]")
		at = found.End
	}
	return told(done.String()+text[at:], err)
}

func showNumber(found cn.Found) string {
	return told(found.BigInt(cn.TenThousand))
}

func showQuantity(found cn.Found) string {
	return shownQuantity(found.Quantity(cn.TenThousand))
}

func find(text string, show func(cn.Found) string) string {
	all, err := cn.FindNumbers(text, nil)
	return inPlace(text, all, err, show)
}

func showDoubt(found cn.Found) string {
	return doubts[found.Doubt]
}

func findQuantities(text string, show func(cn.Found) string) string {
	all, err := cn.FindQuantities(text, nil)
	return inPlace(text, all, err, show)
}

// given describes a part of a date.
func given(isGiven bool, number int) string {
	if !isGiven {
		return "?"
	}
	return fmt.Sprint(number)
}

func showPartialDate(it cn.PartialDate) string {
	month, day := int(it.Month), it.Day
	parts := []string{given(it.HasYear, it.Year), given(month != 0, month), given(day != 0, day)}
	return strings.Join(parts, "-")
}

func showTime(it cn.ClockTime) string {
	hour := given(it.HourOfDay != cn.UnknownHour, it.HourOfDay)
	return fmt.Sprintf("%d:%d:%d =%s", it.Hour, it.Minute, it.Second, hour)
}

func showDuration(it time.Duration) string {
	seconds := int(it / time.Second)
	return fmt.Sprintf("%d:%d:%d", seconds/3600, seconds/60%60, seconds%60)
}

func showPair(kind cn.PhraseKind, it cn.Pair) string {
	between := ".."
	if kind == cn.PhraseKindScore {
		between = ":"
	}
	return fmt.Sprint(it.First, between, it.Second)
}

func showValue(phrase cn.Phrase) string {
	switch it := phrase.Value.(type) {
	case cn.Date:
		return fmt.Sprintf("%d-%d-%d", it.Year, it.Month, it.Day)
	case cn.PartialDate:
		return showPartialDate(it)
	case cn.ClockTime:
		return showTime(it)
	case time.Duration:
		return showDuration(it)
	case cn.Quantity:
		return ratio(it)
	case cn.Pair:
		return showPair(phrase.Kind, it)
	case cn.Range:
		return ratio(it.Low) + ".." + ratio(it.High)
	}
	return "-"
}

// phrases describes the phrases of a text, with a tab between them.
func phrases(text string) string {
	var shown []string
	err := cn.EachPhrase(text, nil, func(item cn.Item) bool {
		if it, isPhrase := item.(cn.Phrase); isPhrase {
			words := fmt.Sprint(it.Kind, " ", it.State, " ", it.Text, " ", showValue(it))
			shown = append(shown, words)
		}
		return true
	})
	return told(strings.Join(shown, "\t"), err)
}

// The functions that answer each question, by its name; each takes the other words.
var answers = map[string]func([]string) string{
	"read":    func(words []string) string { return kinds[words[0]].read(words[1:]) },
	"print":   func(words []string) string { return kinds[words[0]].write(words[1:]) },
	"explain": func(words []string) string { return kinds[words[0]].explain(words[1:]) },
	"number_message": func(words []string) string {
		words[0], words[1] = words[1], words[0]
		return kinds[words[0]].message(words[1:])
	},
	"read_amount": func(words []string) string {
		return told(cn.ChineseToAmount(words[0]))
	},
	"print_amount": func(words []string) string {
		return told(cn.AmountToChinese(unsigned(words[1]), amountForm(words[0], "")))
	},
	"print_amount_as": func(words []string) string {
		return told(cn.AmountToChinese(unsigned(words[2]), amountForm(words[0], words[1])))
	},
	"read_typed_amount": func(words []string) string {
		return told(cn.ChineseToAmountAsTyped(words[0]))
	},
	"read_signed_amount": func(words []string) string {
		return told(cn.ChineseToSignedAmount(words[0]))
	},
	"print_signed_amount": func(words []string) string {
		return told(cn.SignedAmountToChinese(signed(words[1]), amountForm(words[0], "")))
	},
	"read_typed_signed_amount": func(words []string) string {
		return told(cn.ChineseToSignedAmountAsTyped(words[0]))
	},
	"print_signed_amount_as": func(words []string) string {
		return told(cn.SignedAmountToChinese(signed(words[2]), amountForm(words[0], words[1])))
	},
	"expected": func(words []string) string { return expected(words[0], words[1]) },
	"repair":   func(words []string) string { return repair(words[0], words[1]) },
	"input_message": func(words []string) string {
		language, input := named[cn.Language](words[0]), named[cn.Input](words[1])
		return told(cn.InputMessage(words[2], input, language))
	},
	"yuan_to_fen": func(words []string) string { return told(cn.YuanToFen(words[0])) },
	"read_date":   func(words []string) string { return told(cn.ChineseToDate(words[0])) },
	"print_date":  func(words []string) string { return writeDate(words[0], words[1]) },
	"find":        func(words []string) string { return find(words[0], showNumber) },
	"flags":       func(words []string) string { return find(words[0], flags) },
	"read_quantity": func(words []string) string {
		return shownQuantity(cn.ToQuantity(words[1], ways[words[0]]))
	},
	"explain_quantity": func(words []string) string {
		return told(cn.ExplainQuantity(words[1], ways[words[0]]))
	},
	"quantity_message": func(words []string) string {
		language := named[cn.Language](words[0])
		return told(cn.QuantityMessage(words[2], ways[words[1]], language))
	},
	"find_quantities": func(words []string) string {
		return findQuantities(words[0], showQuantity)
	},
	"doubts": func(words []string) string { return findQuantities(words[0], showDoubt) },
	"print_quantity": func(words []string) string {
		return told(quantity(words[3]).ToChinese(style(words)))
	},
	"quantity_figures": func(words []string) string {
		return told(quantity(words[0]).ToFigures(), nil)
	},
	"trim_quantity": func(words []string) string {
		return told(shown(quantity(words[0]).Trimmed()), nil)
	},
	"quantities_to_figures": func(words []string) string {
		return told(cn.QuantitiesToFigures(words[1], replacing(words[0])))
	},
	"text_to_figures": func(words []string) string {
		return told(cn.TextToFigures(words[1], replacing(words[0])))
	},
	"text_to_speech": func(words []string) string { return told(speak(words[0], words[1])) },
	"find_unspoken": func(words []string) string {
		all, err := cn.FindUnspoken(words[0])
		return inPlace(words[0], all, err, func(found cn.Found) string { return found.Text })
	},
	"phrases": func(words []string) string { return phrases(words[0]) },
	"replace_quantities": func(words []string) string {
		return told(cn.ReplaceQuantities(words[1], replacing(words[0]), inNumerals))
	},
}

func main() {
	lines := bufio.NewScanner(os.Stdin)
	for lines.Scan() {
		words := strings.Split(lines.Text(), "\t")
		fmt.Println(answers[words[0]](words[1:]))
	}
	if err := lines.Err(); err != nil {
		panic(err)
	}
}
