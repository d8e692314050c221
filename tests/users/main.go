package main

import (
	"fmt"

	"chinese-number-proved/chinesenumber"
)

func main() {
	text, err := chinesenumber.ToChinese(105_000, nil)
	if err != nil {
		panic(err)
	}
	fmt.Println(text)
}
