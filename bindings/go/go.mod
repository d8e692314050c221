module chinese-number-proved/chinesenumber

go 1.19
