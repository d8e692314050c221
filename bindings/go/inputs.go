package chinesenumber

// #include "library.h"
import "C"

// Expected is what may come next in a text after its longest part, from the start, that begins an
// input.
type Expected struct {
	// CharIndex is how many characters this part has: all of them, or those before the wrong one.
	CharIndex int
	// ByteIndex is how many bytes it has.
	ByteIndex int
	// MayEnd says that this part is complete, so that the text may end there.
	MayEnd bool
	// WhiteSpace says that white space may come next.
	WhiteSpace bool
	// Characters are those that may come next.
	Characters string
}

// Repair is one change of a text. The zero value is no change.
type Repair struct {
	Change Change
	// CharIndex is how many characters come before the place of the change.
	CharIndex int
	// ByteIndex is how many bytes come before it.
	ByteIndex int
	// Character is the one that is inserted or replaces another, otherwise 0.
	Character rune
}

// InputExpected returns what may come next in a text that is meant to be an input, for example to
// list keys: 拾, 佰, 元 and so on after 壹. If the reader of the input refuses the text with Incorrect,
// CharIndex and ByteIndex are the same. The errors are NotUTF8, TooLong, and Unknown for the input.
func InputExpected(text string, input Input) (Expected, error) {
	it := C.expect_input(text, C.uint32_t(input))
	result := &it.result
	characters := make([]rune, result.count)
	for index := range characters {
		characters[index] = rune(result.characters[index])
	}
	return Expected{
		CharIndex:  int(result.char_index),
		ByteIndex:  int(result.byte_index),
		MayEnd:     result.may_end != 0,
		WhiteSpace: result.white_space != 0,
		Characters: string(characters),
	}, refusal(it.status)
}

// InputRepair returns one change after which a text that is not such an input goes on past its
// wrong character: in 壹佰贰元整, Insert 零 after two characters. A text that is only unfinished becomes
// such an input. There may be another fault further on, and only a person can say that the change
// is what was meant. The Repair is zero, with NoChange, if the text is right or if no change is
// found. The errors are those of InputExpected.
func InputRepair(text string, input Input) (Repair, error) {
	it := C.repair_input(text, C.uint32_t(input))
	result := &it.result
	return Repair{
		Change:    Change(result.change),
		CharIndex: int(result.char_index),
		ByteIndex: int(result.byte_index),
		Character: rune(result.character),
	}, refusal(it.status)
}

// InputMessage returns a message in a language, for the person who typed a text, that says why it
// is not such an input: 第3个字“贰”前缺“零”。 for 壹佰贰元整. It has the wrong character, its position, counted
// from 1, and the InputRepair, if there is one. It is empty if the text is right. The errors are
// those of InputExpected, and Unknown for the language.
func InputMessage(text string, input Input, language Language) (string, error) {
	it := newBuffer()
	C.print_input_message(text, C.uint32_t(input), C.uint32_t(language), it)
	return printed(it)
}
