package chinesenumber

// #include "library.h"
import "C"

import (
	"fmt"
	"time"
	"unicode/utf8"
)

// Item is a Phrase of a text, or a Found for an expression that is in no phrase:
//
//	switch it := item.(type) {
//	case chinesenumber.Phrase:
//		use(it.Value)
//	case chinesenumber.Found:
//		use(it.Quantity(chinesenumber.Any))
//	}
type Item interface {
	// end returns how many bytes of the whole text come before the end of the item.
	end() int
}

// Phrase is a date, a time of day, a duration, a range, a score, a half, a length or a sum of money in a
// text.
type Phrase struct {
	// Text is the phrase itself.
	Text string
	// Start and End are how many bytes of the whole text come before it and before its end.
	Start, End int
	// Kind is what the phrase is. It is never PhraseKindExpression.
	Kind PhraseKind
	// State says whether the phrase has a value, and whether it may mean something else.
	State PhraseState
	// Value is nil if the phrase is refused. Otherwise its type depends on the kind:
	//   - date: Date for a year from 1000 on with its month and day, otherwise PartialDate
	//   - years, months, days: Pair of the first and the last
	//   - time: ClockTime
	//   - duration: time.Duration
	//   - half, length: Quantity, which is 15/10 for 一个半小时 and 175/100 for 一米七五
	//   - score: Pair of the two numbers
	//   - range: Range
	//   - money: Quantity of yuan, which is 350/100 for 三块五, or nil if that is no whole number of fen
	//     below 10^18
	Value any
}

// PartialDate is a date without a year, a month or a day, or with a year below 1000, as in
// 民国一一五年三月.
type PartialDate struct {
	// HasYear says that there is a year. That of 〇〇年 is 0.
	HasYear bool
	Year    int
	// Month and Day are 0 if they are not given.
	Month time.Month
	Day   int
}

// String returns the date in a form such as 2026-01-?? and ????-01-05.
func (it PartialDate) String() string {
	year, month, day := "????", "??", "??"
	if it.HasYear {
		year = fmt.Sprintf("%04d", it.Year)
	}
	if it.Month != 0 {
		month = fmt.Sprintf("%02d", it.Month)
	}
	if it.Day != 0 {
		day = fmt.Sprintf("%02d", it.Day)
	}
	return year + "-" + month + "-" + day
}

// ClockTime is a time of day, from 0:00:00 to 24:00:00.
type ClockTime struct {
	// Hour is the hour as it is written: 3 for 下午三点半.
	Hour, Minute, Second int
	// HourOfDay is the hour of the 24-hour clock: 15 for 下午三点半. It is 24 only at 24:00:00, and
	// UnknownHour for 三点半, which may be in either half of the day.
	HourOfDay int
}

// UnknownHour is the HourOfDay of a time whose half of the day is not known.
const UnknownHour = -1

// Pair is two whole numbers, such as the first and the last year of 2020至2025年.
type Pair struct {
	First, Second int
}

// Range is the two quantities of a range: 30000 and 50000 for 三到五万.
type Range struct {
	Low, High Quantity
}

func (it Phrase) end() int {
	return it.End
}

// FindPhrases returns the phrases of a text, and its expressions that are in none, in order: for
// 二零二六年一月五日下午三点半，三到五万元，共十二人 a date, a time and a range, each a Phrase, and 十二, a Found like
// those of FindQuantities, whose errors it has.
func FindPhrases(text string, wanted *Wanted) ([]Item, error) {
	return all(EachPhrase, text, wanted)
}

// EachPhrase calls visit for each item that FindPhrases finds, and stops if visit returns false. It
// searches the text lazily.
func EachPhrase(text string, wanted *Wanted, visit func(Item) bool) error {
	upper, greatest := wanted.codes()
	return each(visit, func(from C.size_t) ([]Item, error) {
		return itemsIn(text, C.find_phrases(text, from, upper, greatest))
	})
}

func itemsIn(text string, some C.found_phrases) ([]Item, error) {
	items := make([]Item, some.count)
	for index := range items {
		item, err := itemAt(text, some.phrases[index])
		if err != nil {
			return nil, err
		}
		items[index] = item
	}
	return items, refusal(some.status)
}

func itemAt(text string, it C.cn_phrase) (Item, error) {
	kind, state := PhraseKind(it.kind), PhraseState(it.state)
	if kind == PhraseKindExpression {
		return foundAt(text, C.cn_span{start: it.start, end: it.end, flags: it.flags}), nil
	}
	start, end := int(it.start), int(it.end)
	phrase := Phrase{Text: text[start:end], Start: start, End: end, Kind: kind, State: state}
	if state == PhraseStateRefused {
		return phrase, nil
	}
	value, err := valueOf(phrase.Text, it)
	phrase.Value = value
	return phrase, err
}

// valueOf returns the value of a phrase that has one.
func valueOf(text string, it C.cn_phrase) (any, error) {
	switch PhraseKind(it.kind) {
	case PhraseKindDate:
		return dateIn(it), nil
	case PhraseKindTime:
		return timeIn(it), nil
	case PhraseKindDuration:
		return durationOf(it.first, it.second, it.third), nil
	case PhraseKindHalf:
		return NewDecimal(10*int64(it.first)+5, 1)
	case PhraseKindLength:
		decimals := uint(it.third)
		return NewDecimal(int64(it.first)*power(decimals).Int64()+int64(it.second), decimals)
	case PhraseKindRange:
		return rangeIn(text, int(it.split))
	case PhraseKindMoney:
		return moneyIn(it)
	}
	return Pair{int(it.first), int(it.second)}, nil
}

// The parts of a date that are given, added together.
const (
	hasYear = 1 << iota
	hasMonth
	hasDay
)

// dateIn returns a Date or a PartialDate.
func dateIn(it C.cn_phrase) any {
	year, month, day := int(it.first), time.Month(it.second), int(it.third)
	if it.fourth == hasYear|hasMonth|hasDay && year >= 1000 {
		return Date{year, month, day}
	}
	return PartialDate{HasYear: it.fourth&hasYear != 0, Year: year, Month: month, Day: day}
}

func timeIn(it C.cn_phrase) ClockTime {
	hourOfDay := int(it.fourth)
	if hourOfDay == 255 {
		hourOfDay = UnknownHour
	}
	return ClockTime{int(it.first), int(it.second), int(it.third), hourOfDay}
}

func durationOf(hours, minutes, seconds C.uint32_t) time.Duration {
	return time.Duration(hours)*time.Hour + time.Duration(minutes)*time.Minute +
		time.Duration(seconds)*time.Second
}

// moneyIn returns a Quantity of yuan, or nil if its fen are not known.
func moneyIn(it C.cn_phrase) (any, error) {
	if it.third == 0 {
		return nil, nil
	}
	return NewDecimal(int64(it.second)<<32+int64(it.first), 2)
}

// rangeIn reads a range, whose link is the character after the first end.
func rangeIn(text string, split int) (Range, error) {
	_, link := utf8.DecodeRuneInString(text[split:])
	it := C.read_range(text[:split], text[split+link:])
	return Range{quantityOf(&it.low), quantityOf(&it.high)}, refusal(it.status)
}
