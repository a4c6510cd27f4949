/* wasm.c - where a program of WebAssembly starts. */
#include <stddef.h>

int main(int argc, char **argv);
_Noreturn void exit(int status);

__attribute__((export_name("begin"))) void begin(void)
{
    static char *words[] = {"program", "file", NULL};
    exit(main(2, words));
}
