package chinesenumber_test

import (
	"errors"
	"fmt"
	"math/big"
	"time"

	cn "chinese-number-proved/chinesenumber"
)

func Example() {
	found, _ := cn.FindNumbers("百分之五十的人", nil)
	for _, it := range found {
		if number, err := it.Number(cn.Any); err == nil {
			fmt.Println(number) // 50
		}
	}
	number, _ := cn.ToNumber[int64]("一百二", cn.Any)
	fmt.Println(number) // 120
	_, err := cn.ToNumber[int8]("负一百二十九", cn.Any)
	fmt.Println(err) // number is too small

	text, _ := cn.ToChinese(105_000, nil)
	fmt.Println(text) // 十万五千
	text, _ = cn.ToChinese(120, &cn.Style{Script: cn.Traditional, Case: cn.Upper})
	fmt.Println(text) // 壹佰貳拾

	fen, _ := cn.YuanToFen("-1,409.50")
	text, _ = cn.SignedAmountToChinese(fen, nil)
	fmt.Println(text) // 负壹仟肆佰零玖元伍角整

	text, _ = cn.TextToFigures("二零二六年一月五日下午三点半，三到五万元", nil)
	fmt.Println(text) // 2026年1月5日下午3点半，3万到5万元
	items, _ := cn.FindPhrases("二零二六年一月五日", nil)
	fmt.Println(items[0].(cn.Phrase).Value) // 2026-01-05

	texts, errs := cn.ToChineseColumn([]int64{120, 105_000}, nil)
	fmt.Println(texts, errs) // [一百二十 十万五千] [<nil> <nil>]
	amounts, errs := cn.ChineseToSignedAmountColumn([]string{"壹拾伍元整", "壹元"})
	fmt.Println(amounts, errs[1]) // [1500 0] the amount is not finished

	_, err = cn.ChineseToAmount("壹佰贰元整")
	var refusal *cn.Error
	if errors.As(err, &refusal) {
		fmt.Println(refusal.MessageIn(cn.SimplifiedChinese)) // 第3个字“贰”前缺“零”。
	}
	text, _ = cn.AmountToChinese(1500, &cn.AmountForm{Currency: true, UprightClosing: true})
	fmt.Println(text) // 人民币壹拾伍元正
	amount, _ := cn.ChineseToAmountAsTyped("⊗人民币：壹拾 伍元整")
	fmt.Println(amount) // 1500
	text, _ = cn.DateToChinese(cn.Date{Year: 2026, Month: time.January, Day: 15}, cn.Simplified)
	fmt.Println(text) // 贰零贰陆年零壹月壹拾伍日

	quantity, _ := cn.ToQuantity("12.5%", cn.TenThousand)
	fmt.Println(quantity.Rat()) // 1/8
	text, _ = quantity.ToChinese(nil)
	fmt.Println(text) // 百分之十二点五
	// Output:
	// 50
	// 120
	// number is too small
	// 十万五千
	// 壹佰貳拾
	// 负壹仟肆佰零玖元伍角整
	// 2026年1月5日下午3点半，3万到5万元
	// 2026-01-05
	// [一百二十 十万五千] [<nil> <nil>]
	// [1500 0] the amount is not finished
	// 第3个字“贰”前缺“零”。
	// 人民币壹拾伍元正
	// 1500
	// 贰零贰陆年零壹月壹拾伍日
	// 1/8
	// 百分之十二点五
}

func ExampleError() {
	text := " 二 十 十 "
	_, err := cn.ToNumber[int64](text, cn.Any)
	var refusal *cn.Error
	if errors.As(err, &refusal) {
		fmt.Println(refusal)
		fmt.Printf("%v %q\n", refusal.Status == cn.Incorrect, text[refusal.ByteIndex:])
	}
	_, err = cn.ChineseToAmount("壹佰元")
	fmt.Println(err, errors.Is(err, cn.Unfinished))
	// Output:
	// the chinese number is incorrect (position: 3)
	// true "十 十 "
	// the amount is not finished true
}

func ExampleError_MessageIn() {
	_, err := cn.ToQuantity("一亿二千", cn.Any)
	var refusal *cn.Error
	if errors.As(err, &refusal) {
		fmt.Println(refusal.MessageIn(cn.English))
		fmt.Println(refusal.MessageIn(cn.TraditionalChinese))
	}
	// Output:
	// “零” is missing before character 3, “二”, or a unit such as 万 at the end.
	// 第3個字「二」前缺「零」，或末尾缺「萬」等單位。
}

func ExampleChineseToSignedAmountAsTyped() {
	text, _ := cn.SignedAmountToChinese(-150_000, &cn.AmountForm{BracketedSign: true})
	fmt.Println(text)
	fen, _ := cn.ChineseToSignedAmountAsTyped("⊗（负数）人民币（大写）：壹仟伍佰元整")
	fmt.Println(fen)
	// Output:
	// （负数）壹仟伍佰元整
	// -150000
}

func ExampleInputExpected() {
	for _, text := range []string{"壹元", "壹元伍块", "壹元整"} {
		expected, _ := cn.InputExpected(text, cn.InputAmount)
		fmt.Printf("%s %v %q\n", text[:expected.ByteIndex], expected.MayEnd, expected.Characters)
	}
	// Output:
	// 壹元 false "零壹贰貳叁參叄肆伍陆陸柒捌玖整正"
	// 壹元伍 false "角"
	// 壹元整 true ""
}

func ExampleInputRepair() {
	for _, text := range []string{"壹佰贰元整", "伍佰块整", "捌佰零伍拾元整", "壹佰元整"} {
		repair, _ := cn.InputRepair(text, cn.InputAmount)
		fmt.Printf("%v %d %q\n", repair.Change, repair.CharIndex, repair.Character)
	}
	// Output:
	// insert 2 '零'
	// replace 2 '元'
	// delete 2 '\x00'
	// none 0 '\x00'
}

func ExampleInputMessage() {
	message, _ := cn.InputMessage("壹佰贰元整", cn.InputAmount, cn.English)
	fmt.Println(message)
	message, _ = cn.InputMessage("壹佰元整", cn.InputAmount, cn.English)
	fmt.Printf("%q\n", message)
	// Output:
	// “零” is missing before character 3, “贰”.
	// ""
}

func ExampleExplainNumber() {
	for _, text := range []string{"百五", "一角", "一百二"} {
		fault, _ := cn.ExplainNumber[int64](text, cn.Any)
		message, _ := cn.NumberMessage[int64](text, cn.Any, cn.SimplifiedChinese)
		fmt.Printf("%v %q\n", fault, message)
	}
	// Output:
	// start "第1个字“百”前缺数字。"
	// character "第2个字“角”不是数字用字。"
	// none ""
}

func ExampleExplainQuantity() {
	fault, _ := cn.ExplainQuantity("一亿二千", cn.Any)
	fmt.Println(fault, fault == cn.FaultLeftOutZero)
	// Output:
	// left_out_zero true
}

func ExampleStatusMessage() {
	message, _ := cn.StatusMessage(cn.TooLarge, cn.SimplifiedChinese)
	fmt.Println(message)
	// Output:
	// 数值太大。
}

func ExampleToBigInt() {
	number, _ := cn.ToBigInt("负一极", cn.Low)
	fmt.Println(number)
	text, _ := cn.BigIntToChinese(new(big.Int).Lsh(big.NewInt(1), 127), nil)
	again, _ := cn.ToBigUint(text, cn.TenThousand)
	fmt.Println(again.BitLen())
	// Output:
	// -1000000000000000
	// 128
}

func ExampleDateOf() {
	day := time.Date(2026, time.October, 20, 23, 30, 0, 0, time.UTC)
	text, _ := cn.DateToChinese(cn.DateOf(day), cn.Simplified)
	fmt.Println(text)
	date, _ := cn.ChineseToDate(text)
	fmt.Println(date, time.Date(date.Year, date.Month, date.Day, 0, 0, 0, 0, time.UTC).Weekday())
	// Output:
	// 贰零贰陆年零壹拾月零贰拾日
	// 2026-10-20 Tuesday
}

func ExampleFindNumbers() {
	found, _ := cn.FindNumbers("买2两，三个亿", nil)
	for _, it := range found {
		fmt.Println(it.Start, it.End, it.Text, it.IsPlain)
	}
	// Output:
	// 3 4 2 true
	// 4 7 两 true
	// 10 19 三个亿 false
}

func ExampleEachNumber() {
	err := cn.EachNumber("第二十三回，第二十四回", nil, func(found cn.Found) bool {
		fmt.Println(found.Text)
		return false
	})
	fmt.Println(err)
	// Output:
	// 二十三
	// <nil>
}

func ExampleFindQuantities() {
	found, _ := cn.FindQuantities("增长12.5%，共3.5万人，剩三分之一，五六十", nil)
	for _, it := range found {
		quantity, err := it.Quantity(cn.TenThousand)
		fmt.Println(it.Text, quantity, err)
	}
	// Output:
	// 12.5% 12.5% <nil>
	// 3.5万 35000 <nil>
	// 三分之一 1/3 <nil>
	// 五六十 0/0 the chinese number is incorrect (position: 0)
}

func ExampleQuantity() {
	it, _ := cn.ToQuantity("3.5万", cn.TenThousand)
	whole, isWhole := it.Whole()
	fmt.Println(it.Numerator(), it.Denominator(), it.Form() == cn.Decimal, whole, isWhole)
	same, _ := cn.NewDecimal(350_000, 1)
	fmt.Println(it == same, it == it.Trimmed())
	text, _ := it.ToChinese(nil)
	trimmed, _ := it.Trimmed().ToChinese(nil)
	fmt.Println(text, trimmed)
	// Output:
	// 350000 10 true 35000 true
	// true false
	// 三万五千点零 三万五千
}

func ExampleNewQuantity() {
	third, _ := cn.NewFraction(1, 3)
	percentage, _ := cn.NewPercent(125, 1)
	large, _ := cn.NewQuantity(big.NewInt(-7), new(big.Int).Lsh(big.NewInt(1), 100), cn.Fraction)
	fmt.Println(third, percentage, large)
	_, err := cn.NewFraction(1, 0)
	fmt.Println(err)
	// Output:
	// 1/3 12.5% -7/1267650600228229401496703205376
	// the denominator is 0
}

func ExampleReplaceQuantities() {
	text := "2026年市值3.5亿元，占12.5%"
	spoken, _ := cn.ReplaceQuantities(text, nil, func(found cn.Found) (string, bool) {
		if quantity, err := found.Quantity(cn.TenThousand); err == nil {
			it, err := quantity.Trimmed().ToChinese(nil)
			return it, err == nil
		}
		return "", false
	})
	fmt.Println(spoken)
	// Output:
	// 二千零二十六年市值三亿五千万元，占百分之十二点五
}

func ExampleQuantitiesToFigures() {
	text := "市值三点五亿元，占百分之十二点五，一共十几个"
	usual, _ := cn.QuantitiesToFigures(text, nil)
	all, _ := cn.QuantitiesToFigures(text, &cn.Replacing{About: true, OneCharacter: true})
	expanded, _ := cn.QuantitiesToFigures(text, &cn.Replacing{Expanded: true})
	fmt.Println(usual)
	fmt.Println(all)
	fmt.Println(expanded)
	// Output:
	// 市值3.5亿元，占12.5%，一共十几个
	// 市值3.5亿元，占12.5%，1共10几个
	// 市值350000000元，占12.5%，一共十几个
}

func ExampleTextToFigures() {
	text := "二零二六年一月五日下午三点半，三到五万元，占百分之十二点五，一个半小时"
	usual, _ := cn.TextToFigures(text, nil)
	all, _ := cn.TextToFigures(text, &cn.Replacing{OneCharacter: true})
	fmt.Println(usual)
	fmt.Println(all)
	// Output:
	// 2026年1月5日下午3点半，3万到5万元，占12.5%，一个半小时
	// 2026年1月5日下午3点半，3万到5万元，占12.5%，1个半小时
}

func ExampleFindPhrases() {
	items, _ := cn.FindPhrases("二零二六年一月五日下午三点半，三到五万元，共十二人", nil)
	for _, item := range items {
		switch it := item.(type) {
		case cn.Phrase:
			fmt.Println(it.Kind, it.State, it.Text, it.Value)
		case cn.Found:
			quantity, err := it.Quantity(cn.Any)
			fmt.Println(it.Text, quantity, err)
		}
	}
	// Output:
	// date certain 二零二六年一月五日 2026-01-05
	// time certain 下午三点半 {3 30 0 15}
	// range certain 三到五万 {30000 50000}
	// 十二 12 <nil>
}

func ExampleEachPhrase() {
	err := cn.EachPhrase("五月三日，二月三十日，三点半", nil, func(item cn.Item) bool {
		phrase, isPhrase := item.(cn.Phrase)
		if isPhrase && phrase.State == cn.PhraseStateRefused {
			fmt.Println(phrase.Text, "does not exist")
			return false
		}
		return true
	})
	fmt.Println(err)
	// Output:
	// 二月三十日 does not exist
	// <nil>
}

func ExamplePhrase() {
	text := "一月五日，三点半，一小时二十分，一个半月，三比二"
	err := cn.EachPhrase(text, nil, func(item cn.Item) bool {
		switch it := item.(cn.Phrase).Value.(type) {
		case cn.PartialDate:
			fmt.Println(it, it.HasYear, it.Month, it.Day)
		case cn.ClockTime:
			fmt.Println(it.Hour, it.Minute, it.HourOfDay == cn.UnknownHour)
		case time.Duration:
			fmt.Println(it)
		case cn.Quantity:
			fmt.Println(it.Rat())
		case cn.Pair:
			fmt.Println(it.First, it.Second)
		}
		return true
	})
	fmt.Println(err)
	// Output:
	// ????-01-05 false January 5
	// 3 30 true
	// 1h20m0s
	// 3/2
	// 3 2
	// <nil>
}

func ExampleDoubt() {
	found, _ := cn.FindQuantities("五一假期，3~5万，二十人", nil)
	for _, it := range found {
		fmt.Println(it.Text, it.Doubt == cn.DoubtDigits, it.Doubt == cn.DoubtRange)
	}
	// Output:
	// 五一 true false
	// 3 false true
	// 5万 false true
	// 二十 false false
}
