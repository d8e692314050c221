"""Tries the examples of the module and of a page."""
import doctest
import sys

import chinese_number

module = doctest.testmod(chinese_number)
page = doctest.testfile(sys.argv[1], module_relative=False, encoding="utf-8")
print(module.failed, module.attempted > 9, page.failed, page.attempted > 3)
