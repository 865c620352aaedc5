#ifndef PRINT_H
#define PRINT_H

/* %s is a text, %u a 32-bit number in decimal, %x one in hexadecimal. */
void print(const char *format, ...);

/* Prints a character: the ROM, the kernel and the processes have their own. */
void put(char c);

#endif
