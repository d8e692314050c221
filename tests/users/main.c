/* The example of a page as a program. */
#include <chinese_number.h>
#include <stdio.h>
#include <string.h>

int main(void) {
#include "example_of_page.h"
    return 0;
}
