package chinesenumber

import "fmt"

// word returns the word of a choice, or its type and number if it is unknown.
func word[T Input | Change | Fault | Language | PhraseKind | PhraseState](
	words []string, choice T,
) string {
	if uint64(choice) < uint64(len(words)) {
		return words[choice]
	}
	return fmt.Sprintf("%T(%d)", choice, uint32(choice))
}

// String returns the word of the input, such as typed_amount.
func (it Input) String() string {
	return word(wordsOfInput, it)
}

// String returns the word of the change, such as insert.
func (it Change) String() string {
	return word(wordsOfChange, it)
}

// String returns the word of the fault, such as bare_ten.
func (it Fault) String() string {
	return word(wordsOfFault, it)
}

// String returns the tag of the language: en, zh-Hans or zh-Hant.
func (it Language) String() string {
	return word(wordsOfLanguage, it)
}

// String returns the word of the kind, such as date.
func (it PhraseKind) String() string {
	return word(wordsOfPhraseKind, it)
}

// String returns the word of the state, such as certain.
func (it PhraseState) String() string {
	return word(wordsOfPhraseState, it)
}
