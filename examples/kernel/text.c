/* Lines on the serial port, and the end of the run. */
#include "kernel.h"

#include <stdarg.h>

static char line[256];
static size_t length;

static void put(char c) {
    if (length + 1 < sizeof line) {
        line[length++] = c;
    }
}

static void put_number(uint32_t number, uint32_t base, int digits) {
    if (number >= base || digits > 1) {
        put_number(number / base, base, digits - 1);
    }
    put("0123456789abcdef"[number % base]);
}

static void put_held(const struct held *held) {
    if (!held->rights) {
        add("nothing");
        return;
    }
    add("frame %u ", held->frame);
    put(held->rights & READ ? 'r' : '-');
    put(held->rights & WRITE ? 'w' : '-');
    put(held->rights & EXECUTE ? 'x' : '-');
}

void add(const char *format, ...) {
    va_list values;
    va_start(values, format);
    for (; *format; format++) {
        switch (*format == '%' ? *++format : 0) {
        case 'u': put_number(va_arg(values, uint32_t), 10, 1); break;
        case 'x': put_number(va_arg(values, uint32_t), 16, 8); break;
        case 's': add(va_arg(values, const char *)); break;
        case 'h': put_held(va_arg(values, const struct held *)); break;
        default: put(*format);
        }
    }
    va_end(values);
}

const char *take_line(void) {
    line[length] = 0;
    length = 0;
    return line;
}

void write_port(uint16_t port, uint8_t byte) {
    __asm__ volatile("outb %0, %1" : : "a"(byte), "d"(port));
}

/* The serial port of the emulator takes a byte at any time. */
void end_line(void) {
    put('\n');
    for (const char *text = take_line(); *text; text++) {
        write_port(0x3f8, (uint8_t)*text);
    }
}

/* Ends the emulator, whose status is then 33 or 35: twice the byte, and 1. */
void leave(bool is_right) {
    write_port(0xf4, is_right ? 16 : 17);
    for (;;) {
        __asm__ volatile("cli; hlt");
    }
}
