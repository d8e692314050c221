/* load LIBRARY: loads a shared object or a DLL, as Python does, and prints an amount by it. */
#include "chinese_number.h"

#include <stdio.h>

#ifdef _WIN32
#include <windows.h>
#define open(path) LoadLibraryA(path)
#define call_of(library, name) GetProcAddress(library, name)
#else
#include <dlfcn.h>
#define open(path) dlopen(path, RTLD_NOW)
#define call_of(library, name) dlsym(library, name)
#endif

typedef uint32_t print_call(uint64_t, uint32_t, uint32_t, uint8_t *, size_t, size_t *);

int main(int argc, char **argv) {
    uint8_t room[CN_MOST_AMOUNT_BYTES];
    size_t length;
    void *library = argc == 2 ? open(argv[1]) : NULL;
    print_call *print = library ? (print_call *)call_of(library, "chinese_amount_print") : NULL;
    if (print == NULL
        || print(1500, CN_SIMPLIFIED, CN_PLAIN, room, sizeof room, &length) != CN_DONE)
        return 1;
    return fwrite(room, 1, length, stdout) != length;
}
