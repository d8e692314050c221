package chinesenumber

// #include "library.h"
import "C"

// AmountForm is the form in which an amount is written. The zero value and nil mean Simplified, 元
// and 整. All forms are read.
type AmountForm struct {
	Script Script
	// Currency adds the prefix 人民币.
	Currency bool
	// RoundYuan writes 圆 instead of 元.
	RoundYuan bool
	// UprightClosing writes 正 instead of 整.
	UprightClosing bool
	// BracketedSign writes （负数） instead of 负 before a negative amount: （负数）壹佰元整.
	BracketedSign bool
}

// codes returns the codes of the script and of the other fields.
func (it *AmountForm) codes() (script, form C.uint32_t) {
	if it == nil {
		it = &AmountForm{}
	}
	form = flag(it.Currency, C.CN_CURRENCY) | flag(it.RoundYuan, C.CN_ROUND_YUAN) |
		flag(it.UprightClosing, C.CN_UPRIGHT_CLOSING) | flag(it.BracketedSign, C.CN_BRACKETED_SIGN)
	return code(it.Script, Simplified), form
}

// AmountToChinese writes an amount of money in fen, in capitals as on a cheque: 壹拾伍元整 for 1500. The
// errors are TooLarge, for 10^18 fen or more, and Unknown for the script.
func AmountToChinese(fen uint64, form *AmountForm) (string, error) {
	script, rest := form.codes()
	it := newBuffer()
	C.print_amount(C.uint64_t(fen), script, rest, it)
	return printed(it)
}

// SignedAmountToChinese writes an amount like AmountToChinese, and a negative one, as on a red
// invoice, with the prefix 负 or （负数）. The errors are those of AmountToChinese, and TooSmall for
// -10^18 fen or less.
func SignedAmountToChinese(fen int64, form *AmountForm) (string, error) {
	script, rest := form.codes()
	it := newBuffer()
	C.print_signed_amount(C.int64_t(fen), script, rest, it)
	return printed(it)
}

// ChineseToAmount reads a text in capitals as an amount in fen. The errors are Unfinished,
// Incorrect at the first character with which no amount begins (also at white space), NotUTF8 and
// TooLong.
func ChineseToAmount(text string) (uint64, error) {
	return amount(text, InputAmount, C.read_amount(text))
}

// ChineseToSignedAmount reads an amount like ChineseToAmount, also a negative one with the prefix 负
// or 負.
func ChineseToSignedAmount(text string) (int64, error) {
	return signedAmount(text, InputSignedAmount, C.read_signed_amount(text))
}

// ChineseToAmountAsTyped reads an amount as it is typed, or copied from an invoice, like
// ChineseToAmount, but ignores white space. One ⊗ or ⓧ may come at the start, and （大写） and a colon
// directly after a leading 人民币.
func ChineseToAmountAsTyped(text string) (uint64, error) {
	return amount(text, InputTypedAmount, C.read_typed_amount(text))
}

// ChineseToSignedAmountAsTyped reads an amount like ChineseToAmountAsTyped, also a negative one, as
// a red invoice has it: -150000 for ⊗（负数）人民币（大写）：壹仟伍佰元整. The sign is 负, 負, （负数） or （負數）, also
// in ASCII parentheses. It may come before or after the ⊗ and before or after 人民币.
func ChineseToSignedAmountAsTyped(text string) (int64, error) {
	return signedAmount(text, InputTypedSignedAmount, C.read_typed_signed_amount(text))
}

// YuanToFen converts figures in yuan to fen, exactly: 1409.5, ¥1,409.50 and 1409.5000 to 140950.
// The figures may have the prefix - or −, and then ¥. Commas, points, digits and ¥ may be
// full-width. After the point, digits from the third on must be 0: nothing is rounded. The errors
// are those of ChineseToAmount, and TooLarge for 10^18 fen or more and for -10^18 or less.
func YuanToFen(figures string) (int64, error) {
	return signedAmount(figures, InputFigures, C.read_figures(figures))
}

func amount(text string, input Input, it C.amount_read) (uint64, error) {
	from := source{text: text, reader: readsInput, input: input}
	err := from.refusal(it.status, it.result.char_index, it.result.byte_index)
	return uint64(it.result.fen), err
}

func signedAmount(text string, input Input, it C.signed_amount_read) (int64, error) {
	from := source{text: text, reader: readsInput, input: input}
	err := from.refusal(it.status, it.result.char_index, it.result.byte_index)
	return int64(it.result.fen), err
}
