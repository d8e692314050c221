package chinesenumber

// #include "library.h"
import "C"

import "math/big"

// Wanted says which characters a search looks for: the digits, and the units up to the greatest
// one. The zero value and nil mean the lower case and units up to Zhao, as in everyday sentences.
type Wanted struct {
	// Upper adds the characters that only cheques use, such as 參 and 陸.
	Upper bool
	// Greatest is the greatest unit.
	Greatest Unit
}

// codes returns the codes of both fields.
func (it *Wanted) codes() (upper, greatest C.uint32_t) {
	if it == nil {
		it = &Wanted{}
	}
	return flag(it.Upper, 1), code(it.Greatest, Zhao)
}

// Found is a number or an expression in a text.
type Found struct {
	// Text is the number or expression itself.
	Text string
	// Start and End are how many bytes of the whole text come before it and before its end.
	Start, End int
	// IsPlain says that it is plain digits: a single digit is, 十 is not.
	IsPlain bool
	// StandsAlone says that no letter or digit touches it or is linked to it: neither number of
	// 3.5万 stands alone.
	StandsAlone bool
	// IsAbout says that it is approximate, such as 十 in 十几, and 五六.
	IsAbout bool
	// IsOneCharacter says that it is one character and no figure, such as 一 in 一般.
	IsOneCharacter bool
	// Doubt says why a reader may understand an expression as something other than its quantity:
	// DoubtDigits for 五一. A number has NoDoubt.
	Doubt Doubt
}

// Number reads the text with ToNumber: plain digits as such, anything else in a way, where Any and
// the zero value mean TenThousand. The error is that of ToNumber; its CharIndex counts within the
// run. Not every run is a number: 五六十 is not.
func (it Found) Number(way Way) (int64, error) {
	return ToNumber[int64](it.Text, it.way(way))
}

// BigInt reads the text likewise, with ToBigInt.
func (it Found) BigInt(way Way) (*big.Int, error) {
	return ToBigInt(it.Text, it.way(way))
}

// Quantity reads the text with ToQuantity.
func (it Found) Quantity(method Way) (Quantity, error) {
	return ToQuantity(it.Text, method)
}

func (it Found) end() int {
	return it.End
}

// way returns the way to read the text. An invalid way is returned, so that the reader refuses it.
func (it Found) way(way Way) Way {
	switch {
	case it.IsPlain && way <= Any:
		return Digits
	case way == 0 || way == Any:
		return TenThousand
	}
	return way
}

// FindNumbers returns the numbers of a text, in order: its longest runs of digits and of units. It
// does not understand sentences: 一起 contains a 1, 两三个 is 23, and 3.5万 is two numbers. The errors
// are NotUTF8, TooLong, and Unknown for the unit.
func FindNumbers(text string, wanted *Wanted) ([]Found, error) {
	return all(EachNumber, text, wanted)
}

// EachNumber calls visit for each number that FindNumbers finds, and stops if visit returns false.
// It searches the text lazily.
func EachNumber(text string, wanted *Wanted, visit func(Found) bool) error {
	upper, greatest := wanted.codes()
	return each(visit, func(from C.size_t) ([]Found, error) {
		return foundIn(text, C.find_numbers(text, from, upper, greatest))
	})
}

// FindQuantities returns the expressions of a text, in order: numbers with their sign, figures,
// point and units, percentages and fractions. The errors are those of FindNumbers.
func FindQuantities(text string, wanted *Wanted) ([]Found, error) {
	return all(EachQuantity, text, wanted)
}

// EachQuantity calls visit for each expression that FindQuantities finds, and stops if visit
// returns false. It searches the text lazily.
func EachQuantity(text string, wanted *Wanted, visit func(Found) bool) error {
	upper, greatest := wanted.codes()
	return each(visit, func(from C.size_t) ([]Found, error) {
		return foundIn(text, C.find_quantities(text, from, upper, greatest))
	})
}

// all returns everything that a search finds.
func all[T Item](
	each func(string, *Wanted, func(T) bool) error, text string, wanted *Wanted,
) ([]T, error) {
	var found []T
	err := each(text, wanted, func(it T) bool {
		found = append(found, it)
		return true
	})
	return found, err
}

// each calls visit for everything found, and stops if visit returns false. next finds some at a
// time, after a number of bytes.
func each[T Item](visit func(T) bool, next func(from C.size_t) ([]T, error)) error {
	from := 0
	for {
		some, err := next(C.size_t(from))
		for _, it := range some {
			if !visit(it) {
				return nil
			}
			from = it.end()
		}
		if len(some) < C.AT_ONCE {
			return err
		}
	}
}

func foundIn(text string, some C.found) ([]Found, error) {
	found := make([]Found, some.count)
	for index := range found {
		found[index] = foundAt(text, some.spans[index])
	}
	return found, refusal(some.status)
}

func foundAt(text string, span C.cn_span) Found {
	start, end := int(span.start), int(span.end)
	return Found{
		Text:           text[start:end],
		Start:          start,
		End:            end,
		IsPlain:        span.flags&C.CN_PLAIN_DIGITS != 0,
		StandsAlone:    span.flags&C.CN_STANDS_ALONE != 0,
		IsAbout:        span.flags&C.CN_ABOUT != 0,
		IsOneCharacter: span.flags&C.CN_ONE_CHARACTER != 0,
		Doubt:          Doubt(C.cn_doubt_of(&span)),
	}
}
