package chinesenumber

// #include "library.h"
import "C"

import (
	"math"
	"math/big"
	"runtime"
	"sync"
	"sync/atomic"
	"time"
	"unsafe"
)

// ToChineseColumn writes many numbers in a few calls of C, which takes less time than a loop:
//
//	texts, errs := chinesenumber.ToChineseColumn([]int64{120, 105_000}, nil)
//
// For each row, the text and the error are those that ToChinese returns: a refused row has an empty
// text, and the others are not affected. From 1,025 rows on, columns use several goroutines, at most
// as many as GOMAXPROCS. Each text shares memory with those of the rows around it.
func ToChineseColumn[T Integer](numbers []T, style *Style) (texts []string, errs []error) {
	kind := C.uint32_t(kindOf[T]())
	way, script, letterCase := style.codes()
	return printColumn(len(numbers), columnPrinter[C.uint64_t]{
		value: func(row int) (C.uint64_t, bool) { return C.uint64_t(numbers[row]), true },
		print: func(values []C.uint64_t, it *C.text_rows) C.size_t {
			count := C.size_t(len(values))
			return C.print_numbers(&values[0], count, kind, way, script, letterCase, it)
		},
		one: func(row int) (string, error) { return ToChinese(numbers[row], style) },
	})
}

// BigIntToChineseColumn writes many numbers of 128 bits, each as BigIntToChinese does. A nil number
// is a missing row, with an empty text and no error.
func BigIntToChineseColumn(numbers []*big.Int, style *Style) (texts []string, errs []error) {
	way, script, letterCase := style.codes()
	return printColumn(len(numbers), columnPrinter[C.cn_number]{
		value: func(row int) (C.cn_number, bool) {
			// What i128 does not hold is written alone.
			if numbers[row] == nil || numbers[row].BitLen() > 127 {
				return C.cn_number{}, false
			}
			it, err := halvesOfBig(numbers[row], i128)
			return it.number(), err == nil
		},
		print: func(values []C.cn_number, it *C.text_rows) C.size_t {
			kind, count := C.uint32_t(i128), C.size_t(len(values))
			return C.print_wide_numbers(&values[0], count, kind, way, script, letterCase, it)
		},
		one: func(row int) (string, error) {
			if numbers[row] == nil {
				return "", nil
			}
			return BigIntToChinese(numbers[row], style)
		},
	})
}

// AmountToChineseColumn writes many amounts of money in fen, each as AmountToChinese does.
func AmountToChineseColumn(fen []uint64, form *AmountForm) (texts []string, errs []error) {
	return printAmountColumn(len(fen), form, func(row int) (C.int64_t, bool) {
		return C.int64_t(fen[row]), fen[row] <= math.MaxInt64
	}, func(row int) (string, error) { return AmountToChinese(fen[row], form) })
}

// SignedAmountToChineseColumn writes many amounts of money in fen, each as SignedAmountToChinese
// does.
func SignedAmountToChineseColumn(fen []int64, form *AmountForm) (texts []string, errs []error) {
	return printAmountColumn(len(fen), form, func(row int) (C.int64_t, bool) {
		return C.int64_t(fen[row]), true
	}, func(row int) (string, error) { return SignedAmountToChinese(fen[row], form) })
}

// DateToChineseColumn writes many dates, each as DateToChinese does.
func DateToChineseColumn(dates []Date, script Script) (texts []string, errs []error) {
	return printColumn(len(dates), columnPrinter[C.cn_day]{
		value: func(row int) (C.cn_day, bool) {
			it := &dates[row]
			return C.cn_day{part(it.Year), part(int(it.Month)), part(it.Day)}, true
		},
		print: func(values []C.cn_day, it *C.text_rows) C.size_t {
			count := C.size_t(len(values))
			return C.print_dates(&values[0], count, code(script, Simplified), it)
		},
		one: func(row int) (string, error) { return DateToChinese(dates[row], script) },
	})
}

// ToNumberColumn reads many texts in a few calls of C, which takes less time than a loop:
//
//	numbers, errs := chinesenumber.ToNumberColumn[int64]([]string{"一百二", "一二"}, 0)
//
// For each row, the number and the error are those that ToNumber returns.
func ToNumberColumn[T Integer](texts []string, way Way) (numbers []T, errs []error) {
	kind := C.uint32_t(kindOf[T]())
	return readColumn(texts, columnReader[C.uint64_t, T]{
		read: func(values []C.uint64_t, it *C.text_rows) C.uint32_t {
			return C.read_numbers(&values[0], C.size_t(len(values)), kind, code(way, Any), it)
		},
		result: func(value *C.uint64_t) T { return T(*value) },
		one:    func(text string) (T, error) { return ToNumber[T](text, way) },
	})
}

// ToBigIntColumn reads many texts, each as ToBigInt does. The number of a refused row is nil.
func ToBigIntColumn(texts []string, way Way) (numbers []*big.Int, errs []error) {
	return readBigColumn(texts, i128, way)
}

// ToBigUintColumn reads many texts, each as ToBigUint does. The number of a refused row is nil.
func ToBigUintColumn(texts []string, way Way) (numbers []*big.Int, errs []error) {
	return readBigColumn(texts, u128, way)
}

// ChineseToSignedAmountColumn reads many texts, each as ChineseToSignedAmount does. It also reads
// what ChineseToAmount does.
func ChineseToSignedAmountColumn(texts []string) (fen []int64, errs []error) {
	return readAmountColumn(texts, InputSignedAmount, ChineseToSignedAmount)
}

// ChineseToSignedAmountAsTypedColumn reads many texts, each as ChineseToSignedAmountAsTyped does.
func ChineseToSignedAmountAsTypedColumn(texts []string) (fen []int64, errs []error) {
	return readAmountColumn(texts, InputTypedSignedAmount, ChineseToSignedAmountAsTyped)
}

// YuanToFenColumn converts many figures in yuan to fen, each as YuanToFen does.
func YuanToFenColumn(figures []string) (fen []int64, errs []error) {
	return readAmountColumn(figures, InputFigures, YuanToFen)
}

// ChineseToDateColumn reads many texts, each as ChineseToDate does.
func ChineseToDateColumn(texts []string) (dates []Date, errs []error) {
	return readColumn(texts, columnReader[C.cn_day, Date]{
		read: func(values []C.cn_day, it *C.text_rows) C.uint32_t {
			return C.read_dates(&values[0], C.size_t(len(values)), it)
		},
		result: func(it *C.cn_day) Date {
			return Date{int(it.year), time.Month(it.month), int(it.day)}
		},
		one: ChineseToDate,
	})
}

func printAmountColumn(
	rows int, form *AmountForm, value func(int) (C.int64_t, bool), one func(int) (string, error),
) ([]string, []error) {
	script, rest := form.codes()
	return printColumn(rows, columnPrinter[C.int64_t]{
		value: value,
		print: func(values []C.int64_t, it *C.text_rows) C.size_t {
			return C.print_amounts(&values[0], C.size_t(len(values)), script, rest, it)
		},
		one: one,
	})
}

func readBigColumn(texts []string, kind kind, way Way) ([]*big.Int, []error) {
	return readColumn(texts, columnReader[C.cn_number, *big.Int]{
		read: func(values []C.cn_number, it *C.text_rows) C.uint32_t {
			count := C.size_t(len(values))
			return C.read_wide_numbers(&values[0], count, C.uint32_t(kind), code(way, Any), it)
		},
		result: func(it *C.cn_number) *big.Int { return halvesOf(*it).big(kind) },
		one:    func(text string) (*big.Int, error) { return readBig(text, kind, way) },
	})
}

func readAmountColumn(
	texts []string, input Input, one func(string) (int64, error),
) ([]int64, []error) {
	return readColumn(texts, columnReader[C.int64_t, int64]{
		read: func(values []C.int64_t, it *C.text_rows) C.uint32_t {
			return C.read_amounts(&values[0], C.size_t(len(values)), C.uint32_t(input), it)
		},
		result: func(fen *C.int64_t) int64 { return int64(*fen) },
		one:    one,
	})
}

// columnPrinter is how a column is printed whose values C takes as type V.
type columnPrinter[V any] struct {
	// value returns the value of a row, and false if only the call for one row can answer it.
	value func(row int) (V, bool)
	// print prints at least one row, or none if a choice is unknown, and returns how many.
	print func(values []V, it *C.text_rows) C.size_t
	// one is the call for one row, which also answers a row that is not printed.
	one func(row int) (string, error)
}

// columnReader is how a column is read whose values C writes as type V.
type columnReader[V, T any] struct {
	// read reads the rows, and returns a status.
	read   func(values []V, it *C.text_rows) C.uint32_t
	result func(value *V) T
	// one is the call for one row, which also answers a row that is not read.
	one func(text string) (T, error)
}

// textRows are for the rows that are given to C at once.
var textRows = sync.Pool{New: func() any { return new(C.text_rows) }}

// inPieces calls a function for all rows, in pieces. If there are several pieces, it is called from
// several goroutines at the same time.
func inPieces(rows int, answer func(it *C.text_rows, from, to int)) {
	next, workers := int64(0), runtime.GOMAXPROCS(0)
	work := func() {
		it := textRows.Get().(*C.text_rows)
		defer textRows.Put(it)
		for {
			to := int(atomic.AddInt64(&next, C.ROWS_AT_ONCE))
			from := to - C.ROWS_AT_ONCE
			if from >= rows {
				return
			}
			if to > rows {
				to = rows
			}
			answer(it, from, to)
		}
	}
	var others sync.WaitGroup
	for rest := rows - C.ROWS_AT_ONCE; rest > 0 && workers > 1; rest -= C.ROWS_AT_ONCE {
		workers--
		others.Add(1)
		go func() {
			defer others.Done()
			work()
		}()
	}
	work()
	others.Wait()
}

// setPresent says whether C takes a row.
func setPresent(it *C.text_rows, row int, isPresent bool) {
	bit := C.uint8_t(1) << (row % 8)
	if isPresent {
		it.present[row/8] |= bit
	} else {
		it.present[row/8] &^= bit
	}
}

func printColumn[V any](rows int, by columnPrinter[V]) ([]string, []error) {
	texts, errs := make([]string, rows), make([]error, rows)
	inPieces(rows, func(it *C.text_rows, from, to int) {
		values := make([]V, to-from)
		for from < to {
			done := printRows(it, values[:to-from], from, by)
			text := string(it.bytes[:it.offsets[done]])
			for row := 0; row < done; row, from = row+1, from+1 {
				if it.statuses[row] == C.CN_DONE {
					texts[from] = text[it.offsets[row]:it.offsets[row+1]]
				} else {
					texts[from], errs[from] = by.one(from)
				}
			}
			for ; done == 0 && from < to; from++ {
				texts[from], errs[from] = by.one(from)
			}
		}
	})
	return texts, errs
}

// printRows prints the rows of a column from one on, as many as there are values, or fewer if the
// others do not fit. It returns how many: none if a choice is unknown.
func printRows[V any](it *C.text_rows, values []V, from int, by columnPrinter[V]) int {
	for row := range values {
		value, isTaken := by.value(from + row)
		values[row] = value
		setPresent(it, row, isTaken)
	}
	return int(by.print(values, it))
}

func readColumn[V, T any](texts []string, by columnReader[V, T]) ([]T, []error) {
	results, errs := make([]T, len(texts)), make([]error, len(texts))
	inPieces(len(texts), func(it *C.text_rows, from, to int) {
		values := make([]V, to-from)
		for from < to {
			count := handTexts(it, texts[from:to])
			isKnown := by.read(values[:count], it) == C.CN_DONE
			for row := 0; row < count; row, from = row+1, from+1 {
				if isKnown && it.statuses[row] == C.CN_DONE {
					results[from] = by.result(&values[row])
				} else {
					results[from], errs[from] = by.one(texts[from])
				}
			}
		}
	})
	return results, errs
}

// handTexts copies the first of some texts for C, at most one piece, and returns how many. It marks a
// text that is too long as missing.
func handTexts(it *C.text_rows, texts []string) (count int) {
	room := (*[C.BYTES_AT_ONCE]byte)(unsafe.Pointer(&it.bytes))[:]
	for at := 0; count < len(texts); count++ {
		text := texts[count]
		isTaken := len(text) <= len(room)
		if isTaken {
			if len(text) > len(room)-at {
				break
			}
			at += copy(room[at:], text)
		}
		setPresent(it, count, isTaken)
		it.offsets[count+1] = C.uint64_t(at)
	}
	return count
}
