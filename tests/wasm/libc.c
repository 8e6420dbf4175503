/* What tests/boundary needs of a C library, for WebAssembly, which has none: over three functions of tests/wasm/run.mjs. */
#include <stdint.h>
#include <stdio.h>
#include <stdlib.h>
#include <string.h>

#define HOST(name) __attribute__((import_module("host"), import_name(name)))
HOST("read") size_t host_read(void *to, size_t size);
HOST("write") void host_write(int file, const void *from, size_t size);
HOST("exit") _Noreturn void host_exit(int status);

struct file { int number; };
static struct file files[] = {{0}, {1}, {2}};
FILE *stdin = &files[0], *stdout = &files[1], *stderr = &files[2];

size_t fread(void *to, size_t size, size_t count, FILE *file) {
    return file == stdin ? host_read(to, size * count) / size : 0;
}

size_t fwrite(const void *from, size_t size, size_t count, FILE *file) {
    host_write(file->number, from, size * count);
    return count;
}

int fflush(FILE *file) { return file == stdout ? 0 : -1; }

void exit(int status) { host_exit(status); }

/* ---- Blocks one behind the other; where none is left the next is the first again, as loans end together ---- */

extern uint8_t __heap_base;
static size_t end;
static size_t blocks;

void *malloc(size_t size) {
    if (blocks == 0) end = (size_t)&__heap_base;
    size_t start = (end + 15) & ~(size_t)15;
    if (size > __builtin_wasm_memory_size(0) * 65536 - start) return NULL;
    end = start + size;
    blocks += 1;
    return (void *)start;
}

void free(void *block) { blocks -= block != NULL; }

/* ---- Bytes ---- */

void *memcpy(void *to, const void *from, size_t size) {
    for (size_t i = 0; i < size; i++) ((uint8_t *)to)[i] = ((const uint8_t *)from)[i];
    return to;
}

void *memset(void *to, int value, size_t size) {
    for (size_t i = 0; i < size; i++) ((uint8_t *)to)[i] = (uint8_t)value;
    return to;
}

int memcmp(const void *a, const void *b, size_t size) {
    const uint8_t *x = a, *y = b;
    for (size_t i = 0; i < size; i++)
        if (x[i] != y[i]) return x[i] < y[i] ? -1 : 1;
    return 0;
}

/* ---- Text: %s, %u and %zu, which have 32 bits here, cut at what it is given ---- */

static size_t put_number(char *digits, uint32_t number) {
    char backwards[10];
    size_t n = 0, i = 0;
    do backwards[n++] = (char)('0' + number % 10);
    while ((number /= 10) > 0);
    while (n > 0) digits[i++] = backwards[--n];
    return i;
}

static int format(char *to, size_t size, const char *form, __builtin_va_list given) {
    size_t length = 0;
    char digits[11];
    for (; *form != 0; form++) {
        const char *part = form;
        size_t long_is = 1;
        if (*form == '%') {
            form += form[1] == 'z' ? 2 : 1;
            part = digits;
            if (*form == 's') {
                part = __builtin_va_arg(given, const char *);
                for (long_is = 0; part[long_is] != 0;) long_is += 1;
            } else long_is = put_number(digits, __builtin_va_arg(given, uint32_t));
        }
        for (size_t i = 0; i < long_is && length < size; i++) to[length++] = part[i];
    }
    return (int)length;
}

int snprintf(char *to, size_t size, const char *form, ...) {
    __builtin_va_list given;
    __builtin_va_start(given, form);
    int length = format(to, size, form, given);
    __builtin_va_end(given);
    return length;
}

int fprintf(FILE *file, const char *form, ...) {
    char line[256];
    __builtin_va_list given;
    __builtin_va_start(given, form);
    int length = format(line, sizeof line, form, given);
    __builtin_va_end(given);
    return (int)fwrite(line, 1, (size_t)length, file);
}
