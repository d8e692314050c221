package chinesenumber

// #include "library.h"
import "C"

import "strings"

// Replacing says which quantities of a text are replaced: those that a search with Wanted finds and
// ToQuantity reads by the method. The zero value and nil mean the method Any, and that approximate,
// one-character and doubtful quantities stay. Those with DoubtPart always stay.
type Replacing struct {
	Wanted
	// Method is Low to High, or Any.
	Method Way
	// About adds approximate quantities, such as 300 in 300多.
	About bool
	// OneCharacter adds those of one Chinese character, such as 一 in 一般.
	OneCharacter bool
	// Doubtful adds doubtful quantities, such as 五一, except those with DoubtPart.
	Doubtful bool
	// Expanded is only for figures: 万, 亿 and so on are written out, and 三千五百亿 becomes 350000000000,
	// not 3500亿.
	Expanded bool
	// Canonical is only for figures: what is only figures is rewritten in ASCII, without commas and
	// leading zeros.
	Canonical bool
	// Compact is only for TextToFigures: dates, times, halves and sums of money are as short as
	// possible, such as 2026-01-05, 15:30, 1.5小时 and 3.5元.
	Compact bool
	// Codes is only for TextToFigures: codes, such as telephone numbers, are written in figures too:
	// 打幺幺零 becomes 打110.
	Codes bool
}

// options returns the codes of the other fields, for figures.
func (it *Replacing) options() C.uint32_t {
	return flag(it.About, C.CN_ABOUT) | flag(it.OneCharacter, C.CN_ONE_CHARACTER) |
		flag(it.Doubtful, C.CN_DOUBTFUL) | flag(it.Expanded, C.CN_EXPANDED) |
		flag(it.Canonical, C.CN_CANONICAL) | flag(it.Compact, C.CN_COMPACT) |
		flag(it.Codes, C.CN_CODES)
}

// takes says whether a quantity that was found is to be replaced.
func (it *Replacing) takes(found Found) bool {
	if found.IsAbout && !it.About || found.IsOneCharacter && !it.OneCharacter {
		return false
	}
	if found.Doubt == DoubtPart || found.Doubt != NoDoubt && !it.Doubtful {
		return false
	}
	_, err := found.Quantity(it.Method)
	return err == nil
}

// ReplaceQuantities replaces the quantities of a text. It calls replace for each one that Replacing
// selects; replace returns the new text, or false to keep the quantity. The errors are those of
// FindQuantities, and Unknown for the method.
func ReplaceQuantities(
	text string, which *Replacing, replace func(Found) (string, bool),
) (string, error) {
	if which == nil {
		which = &Replacing{}
	}
	if _, err := ToQuantity("0", which.Method); err != nil { // refused for every text
		return "", err
	}
	var done strings.Builder
	at := 0
	err := EachQuantity(text, &which.Wanted, func(found Found) bool {
		if !which.takes(found) {
			return true
		}
		if written, isReplaced := replace(found); isReplaced {
			done.WriteString(text[at:found.Start])
			done.WriteString(written)
			at = found.End
		}
		return true
	})
	if err != nil {
		return "", err
	}
	done.WriteString(text[at:])
	return done.String(), nil
}

// QuantitiesToFigures rewrites the numerals of a text in figures, as an editor does:
// 市值三点五亿元，占百分之十二点五 becomes 市值3.5亿元，占12.5%. These stay: figures; what ReplaceQuantities does
// not replace; a part of a name, an address or another number; 千分之五 and 二又五分之三; and all of a
// date, a time, a length, an amount or a range of which one part stays. The errors are those of
// ReplaceQuantities.
func QuantitiesToFigures(text string, which *Replacing) (string, error) {
	return inFigures(text, which, 0)
}

// TextToFigures rewrites a text in figures like QuantitiesToFigures, but with its phrases, which
// FindPhrases finds: dates, times, durations, ranges, scores, halves, lengths and sums of money.
// 二零二六年一月五日下午三点半，三到五万元 becomes 2026年1月5日下午3点半，3万到5万元. The words of a phrase stay, and so does a
// phrase that is refused. Doubtful phrases stay unless Replacing has Doubtful, and halves after one
// Chinese character, as in 一个半小时, unless it has OneCharacter. The errors are those of
// QuantitiesToFigures.
func TextToFigures(text string, which *Replacing) (string, error) {
	return inFigures(text, which, 1)
}

// inFigures rewrites a text in figures, with its phrases (1) or without them (0).
func inFigures(text string, which *Replacing, phrases C.uint32_t) (string, error) {
	if which == nil {
		which = &Replacing{}
	}
	upper, greatest := which.Wanted.codes()
	method, options := code(which.Method, Any), which.options()
	room := make([]byte, len(text)+1)
	for {
		start, length := (*C.uint8_t)(&room[0]), C.size_t(len(room))
		it := C.write_figures(text, phrases, upper, greatest, method, options, start, length)
		if it.status != C.CN_NO_ROOM {
			return string(room[:it.length]), refusal(it.status)
		}
		room = make([]byte, it.length)
	}
}
