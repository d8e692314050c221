package chinesenumber

// #include "library.h"
import "C"

import "math/big"

// Quantity is an exact quantity: a numerator over a denominator, as written and not reduced, and
// its form. So 12.5% is 125/1000 and Percent. Two quantities are equal, with ==, if all three are:
// 3.10 and 3.1 differ, but their Rat is equal. The zero Quantity has the denominator 0, and no
// value.
type Quantity struct {
	numerator, denominator halves
	form                   Form
}

// NewQuantity makes a quantity from a numerator, a denominator and a form. The errors are NotHeld
// if one does not fit in 128 bits or the denominator is below 0, NotAQuantity if it is 0, and
// Unknown for the form.
func NewQuantity(numerator, denominator *big.Int, form Form) (Quantity, error) {
	above, err := halvesOfBig(numerator, i128)
	if err != nil {
		return Quantity{}, err
	}
	below, err := halvesOfBig(denominator, u128)
	if err != nil {
		return Quantity{}, err
	}
	switch {
	case below == halves{}:
		return Quantity{}, &Error{Status: NotAQuantity}
	case form > Fraction:
		return Quantity{}, &Error{Status: Unknown}
	}
	return Quantity{above, below, form}, nil
}

// NewDecimal makes a number with this many decimals, or a whole number for 0 decimals: 3.14 is
// NewDecimal(314, 2). The error is NotHeld for 39 decimals or more.
func NewDecimal(numerator int64, decimals uint) (Quantity, error) {
	form := Decimal
	if decimals == 0 {
		form = Whole
	}
	return NewQuantity(big.NewInt(numerator), power(decimals), form)
}

// NewPercent makes a percentage with this many decimals: 12.5% is NewPercent(125, 1). The error is
// NotHeld for 37 decimals or more.
func NewPercent(numerator int64, decimals uint) (Quantity, error) {
	below := power(decimals)
	return NewQuantity(big.NewInt(numerator), below.Mul(below, big.NewInt(100)), Percent)
}

// NewFraction makes a fraction, which it does not reduce. The error is NotAQuantity if the
// denominator is 0.
func NewFraction(numerator int64, denominator uint64) (Quantity, error) {
	return NewQuantity(big.NewInt(numerator), new(big.Int).SetUint64(denominator), Fraction)
}

// power returns a power of ten. For a large exponent it is another one that does not fit in 128
// bits.
func power(exponent uint) *big.Int {
	if exponent > 39 {
		exponent = 39
	}
	return new(big.Int).Exp(big.NewInt(10), new(big.Int).SetUint64(uint64(exponent)), nil)
}

// ToQuantity reads a text as a quantity: a whole number, a decimal, a percentage or a fraction, in
// figures, in numerals or in both. The method is Low to High, or Any, the default, which means
// TenThousand here. The errors are those of ToNumber.
func ToQuantity(text string, method Way) (Quantity, error) {
	it := C.read_quantity(text, code(method, Any))
	result := &it.result
	from := source{text: text, reader: readsQuantity, way: method}
	err := from.refusal(it.status, result.char_index, result.byte_index)
	return quantityOf(result), err
}

// ExplainQuantity returns why ToQuantity refuses a text: FaultLeftOutZero for 一亿二千. NoFault means
// that the text is read. The errors are NotUTF8, TooLong, and Unknown for the method.
func ExplainQuantity(text string, method Way) (Fault, error) {
	it := C.explain_quantity(text, code(method, Any))
	return Fault(it.result), refusal(it.status)
}

// QuantityMessage returns a message for a text that ToQuantity refuses, like NumberMessage.
func QuantityMessage(text string, method Way, language Language) (string, error) {
	it := newBuffer()
	C.print_quantity_message(text, code(method, Any), C.uint32_t(language), it)
	return printed(it)
}

// Numerator returns the numerator, with the sign.
func (it Quantity) Numerator() *big.Int {
	return it.numerator.big(i128)
}

// Denominator returns the denominator.
func (it Quantity) Denominator() *big.Int {
	return it.denominator.big(u128)
}

// Form returns how the quantity is written.
func (it Quantity) Form() Form {
	return it.form
}

// Rat returns the exact value.
func (it Quantity) Rat() *big.Rat {
	return new(big.Rat).SetFrac(it.Numerator(), it.Denominator())
}

// Whole returns the value as a whole number, and whether it is one: 35000 for 3.5万, and nil for
// 3.5.
func (it Quantity) Whole() (whole *big.Int, isWhole bool) {
	value := it.Rat()
	if !value.IsInt() {
		return nil, false
	}
	return value.Num(), true
}

// Trimmed returns the same quantity without the zeros at the end of its decimals: 3.1 for 3.10, the
// whole number 35000 for 3.5万, 12.5% for 12.50%. A fraction stays the same, and so does a quantity
// whose denominator does not match its form.
func (it Quantity) Trimmed() Quantity {
	trimmed, err := ToQuantity(it.ToFigures(), TenThousand)
	if err != nil { // the figures of a fraction are not a quantity
		return it
	}
	return trimmed
}

// ToChinese writes the quantity: 百分之十二点五 for 12.5%. ToQuantity reads the text by the same method as
// the same numerator and denominator. A quantity whose denominator does not match its form is
// written as a fraction. The way of the style is a method, Low to High, or Any, which chooses by
// the greatest number that is spelled. The errors are TooLarge and TooSmall, with Low, NotAQuantity
// for the zero Quantity, and Unknown for a choice of the style.
func (it Quantity) ToChinese(style *Style) (string, error) {
	method, script, letterCase := style.codes()
	buffer := newBuffer()
	C.print_quantity(it.quantity(), method, script, letterCase, buffer)
	return printed(buffer)
}

// ToFigures writes the quantity in figures, in ASCII and without zeros at the end of its decimals:
// 3.5, 12.5%, 1/3.
func (it Quantity) ToFigures() string {
	buffer := newBuffer()
	C.print_quantity_figures(it.quantity(), buffer)
	figures, _ := printed(buffer) // every quantity has them
	return figures
}

// String returns the figures.
func (it Quantity) String() string {
	return it.ToFigures()
}

func quantityOf(it *C.cn_quantity) Quantity {
	return Quantity{halvesOf(it.numerator), halvesOf(it.denominator), Form(it.form)}
}

func (it Quantity) quantity() C.cn_quantity {
	above, below := it.numerator.number(), it.denominator.number()
	return C.cn_quantity{numerator: above, denominator: below, form: C.uint32_t(it.form)}
}
