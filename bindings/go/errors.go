package chinesenumber

// #include "library.h"
import "C"

import "fmt"

// Error is why a text is refused, or why there is no text. Each error of this package is one:
//
//	var refusal *chinesenumber.Error
//	if errors.As(err, &refusal) && refusal.Status == chinesenumber.Incorrect {
//		mark(text[refusal.ByteIndex:])
//	}
//
// errors.Is(err, chinesenumber.Incorrect) tests only its status. MessageIn returns a message for
// the person who typed the text.
type Error struct {
	// Status is the reason.
	Status Status
	// CharIndex is, for Incorrect, how many characters of the text come before the wrong one, white
	// space included; otherwise 0.
	CharIndex int
	// ByteIndex is how many bytes come before it.
	ByteIndex int

	source source
}

// Error returns the status in words, such as "the chinese number is incorrect (position: 3)", where
// the position is CharIndex.
func (it *Error) Error() string {
	switch it.Status {
	case Incorrect:
		return fmt.Sprintf("the %v is incorrect (position: %d)", it.source, it.CharIndex)
	case Unfinished:
		return fmt.Sprintf("the %v is not finished", it.source)
	}
	return it.Status.Error()
}

// MessageIn returns a message in a language, for the person who typed the text, with the wrong
// character and the repair, if there is one:
//
//	_, err := chinesenumber.ChineseToAmount("壹佰贰元整")
//	var refusal *chinesenumber.Error
//	if errors.As(err, &refusal) {
//		show(refusal.MessageIn(chinesenumber.SimplifiedChinese)) // 第3个字“贰”前缺“零”。
//	}
//
// If no text was read, it is the StatusMessage. For an unknown language it is the text of Error.
// The message is composed at each call, from the text, to which the error keeps a reference.
func (it *Error) MessageIn(language Language) string {
	message, err := it.source.message(language)
	if err != nil || message == "" {
		message, err = StatusMessage(it.Status, language)
	}
	if err != nil {
		return it.Error()
	}
	return message
}

// Unwrap returns the status, which is an error too.
func (it *Error) Unwrap() error {
	return it.Status
}

// Error returns the status in words.
func (it Status) Error() string {
	return C.GoString(C.cn_status_text(C.uint32_t(it)))
}

// StatusMessage returns what a status means, in a language, for example for a person whose number
// is too large to be written. It is empty for Done. The error is Unknown for the status or the
// language.
func StatusMessage(status Status, language Language) (string, error) {
	it := newBuffer()
	C.print_status_message(C.uint32_t(status), C.uint32_t(language), it)
	return printed(it)
}

// reader is a group of calls that read a text.
type reader uint32

const (
	noReader reader = iota
	readsInput
	readsNumber
	readsQuantity
)

// source is the text that a call has read, and what the call was to read. For a call that prints or
// searches it is zero.
type source struct {
	text   string
	reader reader
	input  Input
	kind   kind
	way    Way
}

// String names what was to be read.
func (it source) String() string {
	switch {
	case it.reader != readsInput:
		return "chinese number"
	case it.input == InputDate:
		return "date"
	}
	return "amount"
}

// message returns why the text is refused, in a language. It is empty if no text was read.
func (it source) message(language Language) (string, error) {
	switch it.reader {
	case readsInput:
		return InputMessage(it.text, it.input, language)
	case readsNumber:
		return numberMessage(it.text, it.kind, it.way, language)
	case readsQuantity:
		return QuantityMessage(it.text, it.way, language)
	}
	return "", nil
}

// refusal returns the error for a status, or nil for that of a successful call.
func (it source) refusal(status C.uint32_t, charIndex, byteIndex C.size_t) error {
	if status == C.CN_DONE {
		return nil
	}
	return &Error{Status(status), int(charIndex), int(byteIndex), it}
}

// refusal returns the error for the status of a call that does not read a text as something.
func refusal(status C.uint32_t) error {
	return source{}.refusal(status, 0, 0)
}
