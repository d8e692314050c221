package chinesenumber_test

import (
	"errors"
	"fmt"
	"math"
	"math/big"
	"strings"
	"sync"
	"testing"
	"time"

	cn "chinese-number-proved/chinesenumber"
)

// wantStatus fails if an error does not have a status; Done means no error.
func wantStatus(t *testing.T, what string, err error, wanted cn.Status) {
	t.Helper()
	if wanted == cn.Done && err != nil || wanted != cn.Done && !errors.Is(err, wanted) {
		t.Errorf("%s: %v, and not %v", what, err, wanted)
	}
}

func thereAndBack[T cn.Integer](t *testing.T, numbers ...T) {
	for _, number := range numbers {
		text, err := cn.ToChinese(number, nil)
		wantStatus(t, "to write", err, cn.Done)
		again, err := cn.ToNumber[T](text, cn.Any)
		wantStatus(t, text, err, cn.Done)
		if again != number {
			t.Errorf("%v is written as %s, and read as %v", number, text, again)
		}
	}
}

type ownType int16

func TestEachType(t *testing.T) {
	thereAndBack[int8](t, math.MinInt8, -1, math.MaxInt8)
	thereAndBack[int16](t, math.MinInt16, -1, math.MaxInt16)
	thereAndBack[int32](t, math.MinInt32, -1, math.MaxInt32)
	thereAndBack[int64](t, math.MinInt64, -1, math.MaxInt64)
	thereAndBack[int](t, math.MinInt, -1, math.MaxInt)
	thereAndBack[uint8](t, 0, math.MaxUint8)
	thereAndBack[uint16](t, 0, math.MaxUint16)
	thereAndBack[uint32](t, 0, math.MaxUint32)
	thereAndBack[uint64](t, 0, math.MaxUint64)
	thereAndBack[uint](t, 0, math.MaxUint)
	thereAndBack[uintptr](t, 0, math.MaxUint)
	thereAndBack[ownType](t, math.MinInt16, -1, math.MaxInt16)
	_, err := cn.ToNumber[uint8]("二百五十六", cn.Any)
	wantStatus(t, "256 as a uint8", err, cn.TooLarge)
	_, err = cn.ToNumber[ownType]("负三万二千七百六十九", cn.Any)
	wantStatus(t, "-32769 as an int16", err, cn.TooSmall)
	_, err = cn.ToNumber[uint64]("负一", cn.Any)
	wantStatus(t, "-1 as a uint64", err, cn.Incorrect)
}

// power is a sum of powers of two, possibly negated.
func power(sign int64, exponent uint, more int64) *big.Int {
	it := new(big.Int).Lsh(big.NewInt(sign), exponent)
	return it.Add(it, big.NewInt(more))
}

func wantNumber(t *testing.T, text string, wanted *big.Int) {
	read := cn.ToBigUint
	if wanted.Sign() < 0 {
		read = cn.ToBigInt
	}
	number, err := read(text, cn.Any)
	wantStatus(t, text, err, cn.Done)
	if number.Cmp(wanted) != 0 {
		t.Errorf("%v is written as %s, and read as %v", wanted, text, number)
	}
}

func TestBigInt(t *testing.T) {
	for _, row := range []struct {
		number *big.Int
		status cn.Status
	}{
		{power(-1, 127, 0), cn.Done},
		{power(-1, 64, 0), cn.Done},
		{power(-1, 0, 0), cn.Done},
		{power(1, 64, 5), cn.Done},
		{power(1, 128, -1), cn.Done},
		{power(-1, 127, -1), cn.NotHeld},
		{power(1, 128, 0), cn.NotHeld},
		{power(-1, 20_000, 0), cn.NotHeld},
		{power(1, 20_000, 1), cn.NotHeld},
	} {
		text, err := cn.BigIntToChinese(row.number, nil)
		wantStatus(t, "to write", err, row.status)
		if row.status == cn.Done {
			wantNumber(t, text, row.number)
		}
	}
	number, err := cn.ToBigInt("x", cn.Any)
	wantStatus(t, "x", err, cn.Incorrect)
	if number != nil {
		t.Errorf("x is read as %v", number)
	}
}

// errorOf is the error of a result.
func errorOf[T any](_ T, err error) error {
	return err
}

func everyOne(cn.Found) (string, bool) {
	return "", true
}

func TestUnknownChoices(t *testing.T) {
	quantity, _ := cn.NewDecimal(5, 1)
	one, first := big.NewInt(1), cn.Date{Year: 1, Month: 1, Day: 1}
	for what, err := range map[string]error{
		"a way":         errorOf(cn.ToBigInt("一", math.MaxUint32)),
		"a way to read": errorOf(cn.ToNumber[int]("一", cn.Any+1)),
		"to write":      errorOf(cn.ToChinese(1, &cn.Style{Way: cn.Any + 1})),
		"a script":      errorOf(cn.ToChinese(1, &cn.Style{Script: 3})),
		"a case":        errorOf(quantity.ToChinese(&cn.Style{Case: 3})),
		"digits":        errorOf(quantity.ToChinese(&cn.Style{Way: cn.Digits})),
		"of an amount":  errorOf(cn.AmountToChinese(1, &cn.AmountForm{Script: 3})),
		"of a date":     errorOf(cn.DateToChinese(first, 3)),
		"a form":        errorOf(cn.NewQuantity(one, one, 4)),
		"a method":      errorOf(cn.ToQuantity("一", cn.Digits)),
		"a unit":        errorOf(cn.FindNumbers("一", &cn.Wanted{Greatest: 17})),
		"of found ones": errorOf(cn.Found{Text: "一", IsPlain: true}.Number(7)),
		"to replace":    errorOf(cn.ReplaceQuantities("", &cn.Replacing{Method: 1}, everyOne)),
		"in figures":    errorOf(cn.QuantitiesToFigures("", &cn.Replacing{Method: 7})),
		"with phrases":  errorOf(cn.TextToFigures("", &cn.Replacing{Method: cn.Digits})),
		"of phrases":    errorOf(cn.FindPhrases("一", &cn.Wanted{Greatest: 17})),
		"an input":      errorOf(cn.InputExpected("", 6)),
		"to repair":     errorOf(cn.InputRepair("", 6)),
		"of a message":  errorOf(cn.InputMessage("", 6, cn.English)),
		"a language":    errorOf(cn.InputMessage("", cn.InputDate, 3)),
		"to explain":    errorOf(cn.ExplainBigInt("一", cn.Any+1)),
		"by digits":     errorOf(cn.ExplainQuantity("一", cn.Digits)),
		"of a number":   errorOf(cn.NumberMessage[int]("一", cn.Any+1, cn.English)),
		"of a quantity": errorOf(cn.QuantityMessage("一", cn.Any, 3)),
		"a status":      errorOf(cn.StatusMessage(cn.NotAQuantity+1, cn.English)),
		"of a status":   errorOf(cn.StatusMessage(cn.Empty, 3)),
	} {
		wantStatus(t, what, err, cn.Unknown)
	}
}

// errorsOf are the errors of each call that takes a text.
func errorsOf(text string) map[string]error {
	return map[string]error{
		"ToNumber":                     errorOf(cn.ToNumber[int](text, 0)),
		"ToBigInt":                     errorOf(cn.ToBigInt(text, 0)),
		"ToQuantity":                   errorOf(cn.ToQuantity(text, 0)),
		"ChineseToAmount":              errorOf(cn.ChineseToAmount(text)),
		"ChineseToSignedAmount":        errorOf(cn.ChineseToSignedAmount(text)),
		"ChineseToAmountAsTyped":       errorOf(cn.ChineseToAmountAsTyped(text)),
		"ChineseToSignedAmountAsTyped": errorOf(cn.ChineseToSignedAmountAsTyped(text)),
		"YuanToFen":                    errorOf(cn.YuanToFen(text)),
		"ChineseToDate":                errorOf(cn.ChineseToDate(text)),
		"FindNumbers":                  errorOf(cn.FindNumbers(text, nil)),
		"FindQuantities":               errorOf(cn.FindQuantities(text, nil)),
		"FindPhrases":                  errorOf(cn.FindPhrases(text, nil)),
		"QuantitiesToFigures":          errorOf(cn.QuantitiesToFigures(text, nil)),
		"TextToFigures":                errorOf(cn.TextToFigures(text, nil)),
		"ReplaceQuantities":            errorOf(cn.ReplaceQuantities(text, nil, everyOne)),
		"InputExpected":                errorOf(cn.InputExpected(text, cn.InputAmount)),
		"InputRepair":                  errorOf(cn.InputRepair(text, cn.InputDate)),
		"InputMessage":                 errorOf(cn.InputMessage(text, cn.InputFigures, cn.English)),
		"ExplainNumber":                errorOf(cn.ExplainNumber[int](text, 0)),
		"ExplainBigUint":               errorOf(cn.ExplainBigUint(text, 0)),
		"ExplainQuantity":              errorOf(cn.ExplainQuantity(text, 0)),
		"NumberMessage":                errorOf(cn.NumberMessage[int](text, 0, cn.English)),
		"QuantityMessage":              errorOf(cn.QuantityMessage(text, 0, cn.English)),
	}
}

func TestTexts(t *testing.T) {
	for _, text := range []string{"\xff", "一\xe4\xb8", "三点五万\xed\xa0\x80"} {
		for name, err := range errorsOf(text) {
			wantStatus(t, name, err, cn.NotUTF8)
		}
	}
	for name, err := range errorsOf("") {
		wanted := cn.Done
		if strings.HasPrefix(name, "To") {
			wanted = cn.Empty
		} else if strings.HasPrefix(name, "Chinese") || name == "YuanToFen" {
			wanted = cn.Unfinished
		}
		wantStatus(t, name+" of nothing", err, wanted)
	}
}

// The readers of the inputs, in the order of the inputs.
var readers = []func(string) error{
	func(text string) error { return errorOf(cn.ChineseToAmount(text)) },
	func(text string) error { return errorOf(cn.ChineseToSignedAmount(text)) },
	func(text string) error { return errorOf(cn.ChineseToAmountAsTyped(text)) },
	func(text string) error { return errorOf(cn.ChineseToSignedAmountAsTyped(text)) },
	func(text string) error { return errorOf(cn.ChineseToDate(text)) },
	func(text string) error { return errorOf(cn.YuanToFen(text)) },
}

// wantMessages fails if the messages of an error, in each language, are not those of a call.
func wantMessages(t *testing.T, err error, wanted func(cn.Language) (string, error)) {
	t.Helper()
	var refusal *cn.Error
	if !errors.As(err, &refusal) {
		t.Fatal(err)
	}
	for language := cn.English; language <= cn.TraditionalChinese; language++ {
		message, err := wanted(language)
		wantStatus(t, refusal.Error(), err, cn.Done)
		if found := refusal.MessageIn(language); found != message || message == "" {
			t.Errorf("%v: %q in %v, and not %q", refusal, found, language, message)
		}
	}
	if found := refusal.MessageIn(cn.TraditionalChinese + 1); found != refusal.Error() {
		t.Errorf("%v: %q in an unknown language", refusal, found)
	}
}

func TestMessagesOfInputs(t *testing.T) {
	for _, text := range []string{"", "壹佰贰元整", "壹 元", "贰零贰", "1,40", "15.005"} {
		for number, read := range readers {
			input := cn.Input(number)
			wantMessages(t, read(text), func(in cn.Language) (string, error) {
				return cn.InputMessage(text, input, in)
			})
		}
	}
}

func TestMessagesOfNumbers(t *testing.T) {
	const above, below, misread = "一万亿亿亿亿", "负一百二十九", "一亿二千"
	wantMessages(t, errorOf(cn.ToNumber[int8](below, 0)), func(in cn.Language) (string, error) {
		return cn.NumberMessage[int8](below, 0, in)
	})
	wantMessages(t, errorOf(cn.ToBigInt(above, cn.Digits)), func(in cn.Language) (string, error) {
		return cn.BigIntMessage(above, cn.Digits, in)
	})
	wantMessages(t, errorOf(cn.ToBigUint(below, 0)), func(in cn.Language) (string, error) {
		return cn.BigUintMessage(below, 0, in)
	})
	wantMessages(t, errorOf(cn.ToQuantity(misread, 0)), func(in cn.Language) (string, error) {
		return cn.QuantityMessage(misread, 0, in)
	})
}

func TestMessagesOfStatuses(t *testing.T) {
	for status, err := range map[cn.Status]error{
		cn.TooLarge:     errorOf(cn.AmountToChinese(math.MaxUint64, nil)),
		cn.TooSmall:     errorOf(cn.SignedAmountToChinese(math.MinInt64, nil)),
		cn.NotUTF8:      errorOf(cn.ToQuantity("\xff", 0)),
		cn.NotHeld:      errorOf(cn.NewDecimal(1, 39)),
		cn.Unknown:      errorOf(cn.ToNumber[int]("一", cn.Any+1)),
		cn.NotADate:     errorOf(cn.DateToChinese(cn.Date{}, 0)),
		cn.NotAQuantity: errorOf(cn.NewFraction(1, 0)),
	} {
		status := status
		wantMessages(t, err, func(in cn.Language) (string, error) {
			return cn.StatusMessage(status, in)
		})
	}
	wantMessages(t, &cn.Error{Status: cn.TooLong}, func(in cn.Language) (string, error) {
		return cn.StatusMessage(cn.TooLong, in)
	})
	unknown := &cn.Error{Status: cn.NotAQuantity + 1}
	if message := unknown.MessageIn(cn.English); message != unknown.Error() {
		t.Error(message)
	}
}

func TestWords(t *testing.T) {
	for wanted, found := range map[string]string{
		"amount signed_amount typed_amount typed_signed_amount date figures": fmt.Sprint(
			cn.InputAmount, cn.InputSignedAmount, cn.InputTypedAmount, cn.InputTypedSignedAmount,
			cn.InputDate, cn.InputFigures),
		"none insert replace delete": fmt.Sprint(cn.NoChange, cn.Insert, cn.Replace, cn.Delete),
		"none empty too_large too_small start character digits units": fmt.Sprint(
			cn.NoFault, cn.FaultEmpty, cn.FaultTooLarge, cn.FaultTooSmall, cn.FaultStart,
			cn.FaultCharacter, cn.FaultDigits, cn.FaultUnits),
		"ge groups bare_ten repeated_ten after_zero": fmt.Sprint(
			cn.FaultGe, cn.FaultGroups, cn.FaultBareTen, cn.FaultRepeatedTen, cn.FaultAfterZero),
		"weight two_readings left_out_zero denominator": fmt.Sprint(
			cn.FaultWeight, cn.FaultTwoReadings, cn.FaultLeftOutZero, cn.FaultDenominator),
		"en zh-Hans zh-Hant": fmt.Sprint(
			cn.English, cn.SimplifiedChinese, cn.TraditionalChinese),
		"chinesenumber.Input(6) chinesenumber.Language(4294967295)": fmt.Sprint(
			cn.Input(6), cn.Language(math.MaxUint32)),
	} {
		if found != wanted {
			t.Errorf("%s, and not %s", found, wanted)
		}
	}
}

func wantFaults(
	t *testing.T, explain func(string, cn.Way) (cn.Fault, error), faults map[string]cn.Fault,
) {
	for text, wanted := range faults {
		fault, err := explain(text, cn.TenThousand)
		wantStatus(t, text, err, cn.Done)
		if fault != wanted {
			t.Errorf("%s: %v, and not %v", text, fault, wanted)
		}
	}
}

// Each fault has an example.
func TestFaults(t *testing.T) {
	wantFaults(t, cn.ExplainNumber[int8], map[string]cn.Fault{
		"一百二": cn.NoFault, " 负 ": cn.FaultEmpty, "一百二十八": cn.FaultTooLarge,
		"负一百二十九": cn.FaultTooSmall, "百五": cn.FaultStart, "一角": cn.FaultCharacter,
		"一二": cn.FaultDigits, "一百十": cn.FaultUnits, "三個": cn.FaultGe, "一萬二萬": cn.FaultGroups,
	})
	wantFaults(t, cn.ExplainBigInt, map[string]cn.Fault{"负一": cn.NoFault, "一百十": cn.FaultUnits})
	wantFaults(t, cn.ExplainBigUint, map[string]cn.Fault{"负一": cn.FaultCharacter})
	wantFaults(t, cn.ExplainQuantity, map[string]cn.Fault{
		"三点五": cn.NoFault, "三千零十万": cn.FaultBareTen, "二十十": cn.FaultRepeatedTen,
		"一亿零万": cn.FaultAfterZero, "二两": cn.FaultWeight, "一百五万": cn.FaultTwoReadings,
		"一亿二千": cn.FaultLeftOutZero, "零分之一": cn.FaultDenominator, "百五": cn.FaultStart,
	})
}

func TestDates(t *testing.T) {
	const far = math.MaxInt/2 + 1 // whose last 32 bits are 0, where an int has 64
	for _, date := range []cn.Date{
		{}, {2026, 2, 29}, {2026, 13, 1}, {10_000, 1, 1}, {-1, 1, 1},
		{2026 + far, 1, 1}, {2026, 1 + far, 1}, {2026, 1, 1 + far}, {2026, 1, math.MinInt},
	} {
		_, err := cn.DateToChinese(date, cn.Traditional)
		wantStatus(t, date.String(), err, cn.NotADate)
	}
}

func TestQuantities(t *testing.T) {
	var none cn.Quantity
	_, err := none.ToChinese(nil)
	wantStatus(t, "the zero quantity", err, cn.NotAQuantity)
	for _, row := range []struct {
		made     func(int64, uint) (cn.Quantity, error)
		decimals uint
		status   cn.Status
	}{
		{cn.NewDecimal, 38, cn.Done},
		{cn.NewDecimal, 39, cn.NotHeld},
		{cn.NewDecimal, math.MaxUint, cn.NotHeld},
		{cn.NewPercent, 36, cn.Done},
		{cn.NewPercent, 37, cn.NotHeld},
		{cn.NewPercent, math.MaxUint, cn.NotHeld},
	} {
		it, err := row.made(-5, row.decimals)
		wantStatus(t, it.String(), err, row.status)
	}
	for _, denominator := range []int64{-1, math.MinInt64} {
		_, err := cn.NewQuantity(big.NewInt(1), big.NewInt(denominator), cn.Fraction)
		wantStatus(t, "below zero", err, cn.NotHeld)
	}
	above, below := power(-1, 127, 0), power(1, 128, -1)
	least, _ := cn.NewQuantity(above, below, cn.Fraction)
	if least.Numerator().Cmp(above) != 0 || least.Denominator().Cmp(below) != 0 {
		t.Errorf("%v, and not %v/%v", least, above, below)
	}
}

func inFigures(found cn.Found) (string, bool) {
	quantity, err := found.Quantity(cn.TenThousand)
	return quantity.ToFigures(), err == nil
}

// Texts that are longer than what one call finds or writes, also texts that grow.
func TestLongTexts(t *testing.T) {
	const many = 20_000
	for piece, its := range map[string]string{
		"三亿，": "300000000，", "一百二十三，": "123，", "文": "文",
	} {
		text, wanted := strings.Repeat(piece, many), strings.Repeat(its, many)
		figures, err := cn.QuantitiesToFigures(text, &cn.Replacing{Expanded: true})
		wantStatus(t, piece, err, cn.Done)
		replaced, err := cn.ReplaceQuantities(text, nil, inFigures)
		wantStatus(t, piece, err, cn.Done)
		if figures != wanted || replaced != wanted {
			t.Errorf("%d times %s is otherwise", many, piece)
		}
	}
}

// A text that grows, and has more items than one call finds.
func TestLongPhrases(t *testing.T) {
	const many, piece, its = 1_000, "三亿，三到五万，", "300000000，30000到50000，"
	text := strings.Repeat(piece, many)
	figures, err := cn.TextToFigures(text, &cn.Replacing{Expanded: true})
	wantStatus(t, piece, err, cn.Done)
	if figures != strings.Repeat(its, many) {
		t.Errorf("%d times %s is otherwise", many, piece)
	}
	items, err := cn.FindPhrases(text, nil)
	wantStatus(t, piece, err, cn.Done)
	last, _ := items[len(items)-1].(cn.Phrase)
	if len(items) != 2*many || last.Text != "三到五万" || last.End != len(text)-len("，") {
		t.Errorf("%d items, and the last is %v", len(items), last)
	}
}

func TestSearchesStop(t *testing.T) {
	const all = 20
	text := strings.Repeat("三，", all)
	for wanted := 1; wanted <= all; wanted++ {
		count := 0
		stop := func() bool {
			count++
			return count%wanted != 0
		}
		err := cn.EachQuantity(text, nil, func(cn.Found) bool { return stop() })
		wantStatus(t, "to search", err, cn.Done)
		err = cn.EachPhrase(text, nil, func(cn.Item) bool { return stop() })
		wantStatus(t, "to search", err, cn.Done)
		if count != 2*wanted {
			t.Errorf("%d are given, and not %d twice", count, wanted)
		}
	}
	if found, _ := cn.FindNumbers(text, nil); len(found) != all {
		t.Errorf("%d are found, and not %d", len(found), all)
	}
}

func TestOptions(t *testing.T) {
	const text = "1,280，五一，八五折，三亿"
	for wanted, which := range map[string]*cn.Replacing{
		"1,280，五一，八五折，3亿":        nil,
		"1280，五一，八五折，3亿":         {Canonical: true},
		"1,280，51，八五折，3亿":        {Doubtful: true},
		"1,280，五一，八五折，300000000": {Expanded: true},
	} {
		figures, err := cn.QuantitiesToFigures(text, which)
		wantStatus(t, wanted, err, cn.Done)
		if figures != wanted {
			t.Errorf("%s, and not %s", figures, wanted)
		}
	}
	brackets := func(found cn.Found) (string, bool) { return "[" + found.Text + "]", true }
	replaced, err := cn.ReplaceQuantities(text, &cn.Replacing{Doubtful: true}, brackets)
	wantStatus(t, text, err, cn.Done)
	if replaced != "[1,280]，[五一]，八五折，[三亿]" {
		t.Error(replaced)
	}
}

// A run that is not plain is read with units, so 正 is one.
func TestFoundByUnits(t *testing.T) {
	found, err := cn.FindNumbers("正33", &cn.Wanted{Upper: true, Greatest: cn.Ji})
	wantStatus(t, "to search", err, cn.Done)
	if len(found) != 1 || found[0].Doubt != cn.NoDoubt {
		t.Fatal(found)
	}
	for _, way := range []cn.Way{0, cn.Any, cn.TenThousand} {
		wantStatus(t, "正33", errorOf(found[0].Number(way)), cn.Incorrect)
		wantStatus(t, "正33", errorOf(found[0].BigInt(way)), cn.Incorrect)
	}
}

// must is a quantity that can be made.
func must(it cn.Quantity, err error) cn.Quantity {
	if err != nil {
		panic(err)
	}
	return it
}

// Texts that are one phrase, with what it is.
var phrases = []struct {
	text  string
	kind  cn.PhraseKind
	state cn.PhraseState
	value any
}{
	{"二〇二六年三月五日", cn.PhraseKindDate, cn.PhraseStateCertain, cn.Date{2026, 3, 5}},
	{"二〇二六年三月", cn.PhraseKindDate, 0, cn.PartialDate{true, 2026, 3, 0}},
	{"一百一十五年三月五日", cn.PhraseKindDate, cn.PhraseStateDoubtful, cn.PartialDate{true, 115, 3, 5}},
	{"〇〇年", cn.PhraseKindDate, 0, cn.PartialDate{HasYear: true}},
	{"二月二十九日", cn.PhraseKindDate, 0, cn.PartialDate{Month: 2, Day: 29}},
	{"2000年前", cn.PhraseKindDate, cn.PhraseStateDoubtful, cn.PartialDate{true, 2000, 0, 0}},
	{"二月三十日", cn.PhraseKindDate, cn.PhraseStateRefused, nil},
	{"二〇二〇到二〇二六年", cn.PhraseKindYears, 0, cn.Pair{2020, 2026}},
	{"三到五月", cn.PhraseKindMonths, 0, cn.Pair{3, 5}},
	{"三日至五日", cn.PhraseKindDays, 0, cn.Pair{3, 5}},
	{"下午三点半", cn.PhraseKindTime, 0, cn.ClockTime{3, 30, 0, 15}},
	{"晚上十二点", cn.PhraseKindTime, 0, cn.ClockTime{12, 0, 0, 24}},
	{"三点十五分八秒", cn.PhraseKindTime, 0, cn.ClockTime{3, 15, 8, cn.UnknownHour}},
	{"二小时五分", cn.PhraseKindDuration, 0, 125 * time.Minute},
	{"九十分八秒", cn.PhraseKindDuration, 0, 90*time.Minute + 8*time.Second},
	{"三个半月", cn.PhraseKindHalf, 0, must(cn.NewDecimal(35, 1))},
	{"一米七", cn.PhraseKindLength, 0, must(cn.NewDecimal(17, 1))},
	{"一米七五", cn.PhraseKindLength, 0, must(cn.NewDecimal(175, 2))},
	{"一米零五", cn.PhraseKindLength, 0, must(cn.NewDecimal(105, 2))},
	{"三比二", cn.PhraseKindScore, 0, cn.Pair{3, 2}},
	{"三到五万", cn.PhraseKindRange, 0,
		cn.Range{must(cn.NewDecimal(30_000, 0)), must(cn.NewDecimal(50_000, 0))}},
	{"3–5.5%", cn.PhraseKindRange, 0,
		cn.Range{must(cn.NewPercent(3, 0)), must(cn.NewPercent(55, 1))}},
	{"八到八点五折", cn.PhraseKindRange, cn.PhraseStateDoubtful,
		cn.Range{must(cn.NewDecimal(8, 0)), must(cn.NewDecimal(85, 1))}},
	{"五到三", cn.PhraseKindRange, cn.PhraseStateRefused, nil},
	{"三块五毛二", cn.PhraseKindMoney, 0, must(cn.NewDecimal(352, 2))},
	{"五十亿元", cn.PhraseKindMoney, 0, must(cn.NewDecimal(500_000_000_000, 2))},
	{"3.555元", cn.PhraseKindMoney, 0, nil},
}

func TestPhrases(t *testing.T) {
	for _, row := range phrases {
		items, err := cn.FindPhrases(row.text, nil)
		wantStatus(t, row.text, err, cn.Done)
		if len(items) != 1 {
			t.Errorf("%s is %v", row.text, items)
			continue
		}
		it, _ := items[0].(cn.Phrase)
		if it.Kind != row.kind || it.State != row.state || it.Value != row.value {
			t.Errorf("%s is %v", row.text, it)
		}
		if it.Start != 0 || it.Text != row.text[:it.End] {
			t.Errorf("%s is not at %d to %d of %s", it.Text, it.Start, it.End, row.text)
		}
	}
}

// Expressions in no phrase are the items that FindQuantities returns.
func TestItems(t *testing.T) {
	const text = "五一假期，十几人，共3.5万，八五折，一般，三分之一，七"
	found, err := cn.FindQuantities(text, nil)
	wantStatus(t, text, err, cn.Done)
	items, err := cn.FindPhrases(text, nil)
	wantStatus(t, text, err, cn.Done)
	if len(items) != len(found) {
		t.Fatal(items)
	}
	for index, it := range found {
		if items[index] != cn.Item(it) {
			t.Errorf("%v, and not %v", items[index], it)
		}
	}
}

func TestManyGoroutines(t *testing.T) {
	var all sync.WaitGroup
	for first := int64(0); first < 8; first++ {
		all.Add(1)
		go func(number int64) {
			defer all.Done()
			for end := number + 1_000; number < end; number++ {
				thereAndBack(t, number, -number<<40)
			}
			if text, _ := cn.QuantitiesToFigures("共三点五万", nil); text != "共3.5万" {
				t.Error(text)
			}
		}(first << 50)
	}
	all.Wait()
}
