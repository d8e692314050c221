package chinesenumber

// #include "library.h"
import "C"

import (
	"math/big"
	"math/bits"
	"unsafe"
)

// Integer permits the integer types of Go.
type Integer interface {
	~int | ~int8 | ~int16 | ~int32 | ~int64 |
		~uint | ~uint8 | ~uint16 | ~uint32 | ~uint64 | ~uintptr
}

// Style is how a number or a quantity is written. The zero value and nil mean Any, Simplified and
// Lower.
type Style struct {
	Way    Way
	Script Script
	Case   Case
}

// codes returns the codes of the way, the script and the case.
func (it *Style) codes() (way, script, letterCase C.uint32_t) {
	if it == nil {
		it = &Style{}
	}
	return code(it.Way, Any), code(it.Script, Simplified), code(it.Case, Lower)
}

// ToNumber reads a text as a number of an integer type:
//
//	number, err := chinesenumber.ToNumber[int64]("一百二", chinesenumber.Any)
//
// The errors are Empty, Incorrect, TooLarge, TooSmall, NotUTF8 and TooLong, and Unknown for the
// way.
func ToNumber[T Integer](text string, way Way) (T, error) {
	number, err := read(text, kindOf[T](), way)
	return T(number.low), err
}

// ToBigInt reads a text as a signed number of 128 bits. The errors are those of ToNumber.
func ToBigInt(text string, way Way) (*big.Int, error) {
	return readBig(text, i128, way)
}

// ToBigUint reads a text as an unsigned number of 128 bits. The errors are those of ToNumber.
func ToBigUint(text string, way Way) (*big.Int, error) {
	return readBig(text, u128, way)
}

// ToChinese writes a number: 十万五千 for 105000. The errors are TooLarge and TooSmall, with Low, and
// Unknown for a choice of the style.
func ToChinese[T Integer](number T, style *Style) (string, error) {
	low, high := uint64(number), uint64(0)
	if number < 0 {
		high = 1<<64 - 1
	}
	return write(halves{low, high}, kindOf[T](), style)
}

// BigIntToChinese writes a number of 128 bits, signed or unsigned. The errors are those of
// ToChinese, and NotHeld.
func BigIntToChinese(number *big.Int, style *Style) (string, error) {
	kind := u128
	if number.Sign() < 0 {
		kind = i128
	}
	it, err := halvesOfBig(number, kind)
	if err != nil {
		return "", err
	}
	return write(it, kind, style)
}

// ExplainNumber returns why ToNumber refuses a text: FaultDigits for 一二 by TenThousand. If a
// character is wrong, it is the rule that the text from there on breaks first. NoFault means that
// the text is read. The errors are NotUTF8, TooLong, and Unknown for the way.
func ExplainNumber[T Integer](text string, way Way) (Fault, error) {
	return explain(text, kindOf[T](), way)
}

// ExplainBigInt returns why ToBigInt refuses a text, like ExplainNumber.
func ExplainBigInt(text string, way Way) (Fault, error) {
	return explain(text, i128, way)
}

// ExplainBigUint returns why ToBigUint refuses a text, like ExplainNumber.
func ExplainBigUint(text string, way Way) (Fault, error) {
	return explain(text, u128, way)
}

// NumberMessage returns a message in a language, for the person who typed a text, that says why
// ToNumber refuses it, with the wrong character and its position, counted from 1. The message is
// empty if the text is read. The errors are those of ExplainNumber, and Unknown for the language.
func NumberMessage[T Integer](text string, way Way, language Language) (string, error) {
	return numberMessage(text, kindOf[T](), way, language)
}

// BigIntMessage returns a message for a text that ToBigInt refuses, like NumberMessage.
func BigIntMessage(text string, way Way, language Language) (string, error) {
	return numberMessage(text, i128, way, language)
}

// BigUintMessage returns a message for a text that ToBigUint refuses, like NumberMessage.
func BigUintMessage(text string, way Way, language Language) (string, error) {
	return numberMessage(text, u128, way, language)
}

// kindOf returns the library's code of an integer type, by its sign and its width.
func kindOf[T Integer]() kind {
	var zero T
	first := u8
	if zero-1 < zero {
		first = i8
	}
	return first + kind(bits.Len(uint(unsafe.Sizeof(zero)))-1)
}

func read(text string, kind kind, way Way) (halves, error) {
	it := C.read_number(text, C.uint32_t(kind), code(way, Any))
	from := source{text: text, reader: readsNumber, kind: kind, way: way}
	err := from.refusal(it.status, it.result.char_index, it.result.byte_index)
	return halvesOf(it.result.number), err
}

func readBig(text string, kind kind, way Way) (*big.Int, error) {
	number, err := read(text, kind, way)
	if err != nil {
		return nil, err
	}
	return number.big(kind), nil
}

func explain(text string, kind kind, way Way) (Fault, error) {
	it := C.explain_number(text, C.uint32_t(kind), code(way, Any))
	return Fault(it.result), refusal(it.status)
}

func numberMessage(text string, kind kind, way Way, language Language) (string, error) {
	it := newBuffer()
	C.print_number_message(text, C.uint32_t(kind), code(way, Any), C.uint32_t(language), it)
	return printed(it)
}

func write(number halves, kind kind, style *Style) (string, error) {
	way, script, letterCase := style.codes()
	it := newBuffer()
	C.print_number(number.number(), C.uint32_t(kind), way, script, letterCase, it)
	return printed(it)
}

// big returns the number with these halves.
func (it halves) big(kind kind) *big.Int {
	number := new(big.Int).SetUint64(it.high)
	number.Lsh(number, 64).Or(number, new(big.Int).SetUint64(it.low))
	if kind == i128 && it.high>>63 != 0 {
		number.Sub(number, new(big.Int).Lsh(big.NewInt(1), 128))
	}
	return number
}

// halvesOfBig returns the halves of a number if the type holds it. Otherwise the error is NotHeld.
func halvesOfBig(number *big.Int, kind kind) (halves, error) {
	low, high := new(big.Int), new(big.Int).Rsh(number, 64)
	if kind == i128 && !high.IsInt64() || kind == u128 && !high.IsUint64() {
		return halves{}, &Error{Status: NotHeld}
	}
	word := new(big.Int).SetUint64(1<<64 - 1)
	return halves{low.And(number, word).Uint64(), high.And(high, word).Uint64()}, nil
}
