package chinesenumber_test

import (
	"fmt"
	"math"
	"math/big"
	"math/rand"
	"reflect"
	"strings"
	"sync"
	"testing"
	"time"

	cn "chinese-number-proved/chinesenumber"
)

// Texts of which each call reads some.
var cells = []string{
	"", "一百二", "一二〇", " 一 二", "负五", "-5", "三百", "一亿二千", "二十十", "一万亿亿亿亿", "\xff", "一\xe4\xb8",
	"😀", "\ufeff一", "壹拾伍元整", "负壹拾伍元整", "壹佰元", "壹佰贰元整", "⊗（负数）人民币（大写）：壹仟伍佰元整", "1,409.50",
	"-0.5", "15.005", "贰零贰陆年零壹月壹拾伍日", "伍年零壹月壹拾伍日", "贰零贰",
}

// Texts of which few or none fit in the memory for the texts of some rows.
var longCells = []string{
	strings.Repeat("零", 20_000) + "五", strings.Repeat("零", 30_000) + "五", strings.Repeat("壹", 2_000),
}

// many makes the rows of a column of several pieces.
func many[T any](one func(*rand.Rand) T) []T {
	rows, random := make([]T, 3_000), rand.New(rand.NewSource(1))
	for row := range rows {
		rows[row] = one(random)
	}
	return rows
}

func someCell(random *rand.Rand) string {
	if random.Intn(100) == 0 {
		return longCells[random.Intn(len(longCells))]
	}
	return cells[random.Intn(len(cells))]
}

func someBits(random *rand.Rand) uint64 {
	return random.Uint64() >> random.Intn(64)
}

// wantRows fails if a row of a column is not answered as by the call for one row.
func wantRows[R, A any](
	t *testing.T, what string, rows []R, answers []A, errs []error, one func(R) (A, error),
) {
	t.Helper()
	if len(answers) != len(rows) || len(errs) != len(rows) {
		t.Fatalf("%s: %d answers and %d errors for %d rows", what, len(answers), len(errs), len(rows))
	}
	for row, it := range rows {
		answer, err := one(it)
		if !reflect.DeepEqual(answers[row], answer) || !reflect.DeepEqual(errs[row], err) {
			t.Fatalf("%s: row %d of %.60q is %v, %v, and not %v, %v", what, row, fmt.Sprint(it),
				answers[row], errs[row], answer, err)
		}
	}
}

var styles = []*cn.Style{
	nil, {Way: cn.Low}, {Way: cn.Digits, Script: cn.Traditional, Case: cn.Upper}, {Script: 3},
}

func numbersInColumns[T cn.Integer](t *testing.T) {
	numbers := many(func(random *rand.Rand) T { return T(someBits(random)) * T(1-2*random.Intn(2)) })
	for _, style := range styles {
		texts, errs := cn.ToChineseColumn(numbers, style)
		wantRows(t, "to write", numbers, texts, errs, func(number T) (string, error) {
			return cn.ToChinese(number, style)
		})
	}
	spelled, _ := cn.ToChineseColumn(numbers, nil)
	for _, texts := range [][]string{spelled, many(someCell), nil} {
		for _, way := range []cn.Way{0, cn.Digits, cn.Middle, cn.Any + 1} {
			found, errs := cn.ToNumberColumn[T](texts, way)
			wantRows(t, "to read", texts, found, errs, func(text string) (T, error) {
				return cn.ToNumber[T](text, way)
			})
		}
	}
}

func TestColumnsOfNumbers(t *testing.T) {
	numbersInColumns[int8](t)
	numbersInColumns[int64](t)
	numbersInColumns[int](t)
	numbersInColumns[uint16](t)
	numbersInColumns[uint64](t)
	numbersInColumns[ownType](t)
}

func TestColumnsOfBigInts(t *testing.T) {
	numbers := many(func(random *rand.Rand) *big.Int {
		number := power(1-2*random.Int63n(2), uint(random.Intn(132)), random.Int63n(3)-1)
		if random.Intn(9) == 0 {
			return nil
		}
		return number
	})
	for _, style := range styles {
		texts, errs := cn.BigIntToChineseColumn(numbers, style)
		wantRows(t, "to write", numbers, texts, errs, func(number *big.Int) (string, error) {
			if number == nil {
				return "", nil
			}
			return cn.BigIntToChinese(number, style)
		})
	}
	// The longest texts: fewer rows than usual fit at once.
	longest := many(func(*rand.Rand) *big.Int { return power(-1, 127, 0) })
	spelled, _ := cn.BigIntToChineseColumn(longest, &cn.Style{Script: cn.Traditional})
	for _, texts := range [][]string{spelled, many(someCell)} {
		found, errs := cn.ToBigIntColumn(texts, 0)
		wantRows(t, "to read", texts, found, errs, func(text string) (*big.Int, error) {
			return cn.ToBigInt(text, 0)
		})
		found, errs = cn.ToBigUintColumn(texts, cn.Digits)
		wantRows(t, "to read", texts, found, errs, func(text string) (*big.Int, error) {
			return cn.ToBigUint(text, cn.Digits)
		})
	}
}

func TestColumnsOfAmounts(t *testing.T) {
	unsigned := many(someBits)
	unsigned = append(unsigned, math.MaxInt64, math.MaxInt64+1, math.MaxUint64)
	signed := make([]int64, len(unsigned))
	for row, fen := range unsigned {
		signed[row] = int64(fen) * int64(1-row%2*2)
	}
	for _, form := range []*cn.AmountForm{
		nil, {Script: cn.Traditional, Currency: true, BracketedSign: true}, {Script: 3},
	} {
		texts, errs := cn.AmountToChineseColumn(unsigned, form)
		wantRows(t, "to write", unsigned, texts, errs, func(fen uint64) (string, error) {
			return cn.AmountToChinese(fen, form)
		})
		texts, errs = cn.SignedAmountToChineseColumn(signed, form)
		wantRows(t, "to write", signed, texts, errs, func(fen int64) (string, error) {
			return cn.SignedAmountToChinese(fen, form)
		})
	}
	spelled, _ := cn.SignedAmountToChineseColumn(signed, nil)
	for _, texts := range [][]string{spelled, many(someCell)} {
		fen, errs := cn.ChineseToSignedAmountColumn(texts)
		wantRows(t, "to read", texts, fen, errs, cn.ChineseToSignedAmount)
		fen, errs = cn.ChineseToSignedAmountAsTypedColumn(texts)
		wantRows(t, "as typed", texts, fen, errs, cn.ChineseToSignedAmountAsTyped)
		fen, errs = cn.YuanToFenColumn(texts)
		wantRows(t, "figures", texts, fen, errs, cn.YuanToFen)
	}
}

func TestColumnsOfDates(t *testing.T) {
	dates := many(func(random *rand.Rand) cn.Date {
		month := time.Month(random.Intn(14))
		return cn.Date{Year: random.Intn(10_001), Month: month, Day: random.Intn(33) - 1}
	})
	for _, script := range []cn.Script{0, cn.Traditional, 3} {
		texts, errs := cn.DateToChineseColumn(dates, script)
		wantRows(t, "to write", dates, texts, errs, func(date cn.Date) (string, error) {
			return cn.DateToChinese(date, script)
		})
	}
	spelled, _ := cn.DateToChineseColumn(dates, 0)
	for _, texts := range [][]string{spelled, many(someCell)} {
		found, errs := cn.ChineseToDateColumn(texts)
		wantRows(t, "to read", texts, found, errs, cn.ChineseToDate)
	}
}

func TestColumnsInGoroutines(t *testing.T) {
	numbers := many(func(random *rand.Rand) int64 { return int64(someBits(random)) })
	var all sync.WaitGroup
	for range [4]int{} {
		all.Add(1)
		go func() {
			defer all.Done()
			texts, _ := cn.ToChineseColumn(numbers, nil)
			found, _ := cn.ToNumberColumn[int64](texts, 0)
			if !reflect.DeepEqual(found, numbers) {
				t.Error("other numbers are read")
			}
		}()
	}
	all.Wait()
}
