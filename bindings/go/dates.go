package chinesenumber

// #include "library.h"
import "C"

import (
	"fmt"
	"math"
	"time"
)

// Date is a date of the Gregorian calendar, from year 1 to 9999.
type Date struct {
	Year  int
	Month time.Month
	Day   int
}

// DateOf returns the date of a time, in the time's own location.
func DateOf(it time.Time) Date {
	year, month, day := it.Date()
	return Date{year, month, day}
}

// String returns the date in a form such as 2026-01-15.
func (it Date) String() string {
	return fmt.Sprintf("%04d-%02d-%02d", it.Year, it.Month, it.Day)
}

// DateToChinese writes a date in capitals, as on a cheque: 贰零贰陆年零壹月壹拾伍日 for 2026-01-15. The
// errors are NotADate, and Unknown for the script.
func DateToChinese(date Date, script Script) (string, error) {
	year, month, day := part(date.Year), part(int(date.Month)), part(date.Day)
	it := newBuffer()
	C.print_date(year, month, day, code(script, Simplified), it)
	return printed(it)
}

// part converts a year, a month or a day. It returns 0, which is never valid, for a number that
// does not fit in 32 bits.
func part(number int) C.uint32_t {
	if number < 0 || uint64(number) > math.MaxUint32 {
		return 0
	}
	return C.uint32_t(number)
}

// ChineseToDate reads a text in capitals as a date. The errors are Unfinished, Incorrect at the
// first character with which no date begins (also at white space), NotUTF8 and TooLong.
func ChineseToDate(text string) (Date, error) {
	it := C.read_date(text)
	result := &it.result
	date := Date{int(result.year), time.Month(result.month), int(result.day)}
	from := source{text: text, reader: readsInput, input: InputDate}
	return date, from.refusal(it.status, result.char_index, result.byte_index)
}
